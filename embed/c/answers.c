/* Each answer of each function, and what a call leaves as it was where it tells nothing. NR_NO_MEMORY is refused.c's,
   and for NR_IN_THE_WAY another thread has to be in the midst of a call. */
#include "../../include/nr.h"
#include <stdio.h>
#include <stdlib.h>

#define WANTS(answer, call) wants(#call " gives " #answer, (answer), (call))

static void wants(const char *what, uint32_t wanted, uint32_t got) {
  if (wanted == got) return;
  fprintf(stderr, "answers: %s, and gave: %s\n", what, nr_strerror(got));
  exit(1);
}

static const nr_row one = {1, 1}, two = {2, 2};

/* What a map of two keys, one slot and two rows a key answers its writer. */
static void test_writer(nr_writer *writer, nr_reader *reader) {
  const nr_row down[2] = {two, one}, three[3] = {one, one, one};
  const nr_delta more = {two, true}, less = {two, false}, many[65] = {more, more};
  uint64_t number = 88;
  static nr_rows rows;
  rows.count = 99;
  WANTS(NR_HOLE, nr_state(writer, 0));
  WANTS(NR_HOLE, nr_look(writer, 0, &rows));
  WANTS(NR_NOTHING, nr_evict(writer, 0));
  WANTS(NR_NOTHING, nr_cancel(writer, 0));
  WANTS(NR_NOT_ASKED, nr_fill(writer, 0, 0, &one, 1));
  WANTS(NR_DROPPED, nr_update(writer, 0, &more, 1));
  WANTS(NR_DROPPED, nr_replace(writer, 0, &one, 1));
  wants("rows that stay", 99, (uint32_t)rows.count);

  WANTS(NR_SEND, nr_ask(reader, 0, &number));
  WANTS(NR_ASKED, nr_state(writer, 0));
  WANTS(NR_TOO_MANY, nr_fill(writer, 0, number, three, 3));
  WANTS(NR_NOT_SORTED, nr_fill(writer, 0, number, down, 2));
  WANTS(NR_STALE, nr_fill(writer, 0, number + 1, &one, 1));
  WANTS(NR_DONE, nr_fill(writer, 0, number, &one, 1));
  WANTS(NR_ALREADY, nr_fill(writer, 0, number, &one, 1));
  WANTS(NR_ROWS, nr_state(writer, 0));
  WANTS(NR_ROWS, nr_look(writer, 0, &rows));

  WANTS(NR_BAD_BATCH, nr_update(writer, 0, &more, 0));
  WANTS(NR_BAD_BATCH, nr_update(writer, 0, many, 65));
  WANTS(NR_NO_ROW, nr_update(writer, 0, &less, 1));
  WANTS(NR_ALL_FILLED, nr_update(writer, 0, &more, 1));
  WANTS(NR_ALL_FILLED, nr_replace(writer, 0, &two, 1));
  WANTS(NR_ALL_FILLED, nr_update_reclaiming(writer, 0, &more, 1, &rows));
  WANTS(NR_ALL_FILLED, nr_replace_reclaiming(writer, 0, &two, 1, &rows));
  WANTS(NR_TOO_MANY, nr_replace(writer, 0, three, 3));
  WANTS(NR_NOT_SORTED, nr_replace(writer, 0, down, 2));
  WANTS(NR_TOO_MANY, nr_update(writer, 0, many, 2));
  WANTS(NR_SEND, nr_ask(reader, 1, &number));
  WANTS(NR_ALL_FILLED, nr_fill(writer, 1, number, &one, 1));
  WANTS(NR_ALL_FILLED, nr_fill_reclaiming(writer, 1, number, &one, 1, &rows));
  nr_slots slots = {9, 9, 9};
  WANTS(NR_DONE, nr_stats(writer, &slots));
  wants("the filled key's slot", 1, slots.filled);
  wants("no other slots", 0, slots.retired + slots.free);
  uint32_t count = 0;
  WANTS(NR_ROWS, nr_pin(reader, 0, &count));
  WANTS(NR_EVICTED, nr_evict(writer, 0));
  WANTS(NR_NO_SLOT, nr_fill(writer, 1, number, &one, 1));
  WANTS(NR_NO_SLOT, nr_fill_reclaiming(writer, 1, number, &one, 1, &rows));
  WANTS(NR_DONE, nr_stats(writer, &slots));
  wants("the slot that the reader holds", 1, slots.retired);
  wants("no other slots", 0, slots.filled + slots.free);
  WANTS(NR_DONE, nr_release(reader));
  WANTS(NR_CANCELLED, nr_cancel(writer, 1));
  WANTS(NR_DONE, nr_number(writer, 1, &number));
}

/* A map with a slot to spare, whose requests have the last number. */
static void test_reader(nr_writer *writer, nr_reader *reader) {
  const nr_delta more = {two, true};
  uint64_t number = 88;
  uint32_t count = 77;
  nr_row row = {5, 5};
  static nr_rows rows;
  rows.count = 99;
  WANTS(NR_HOLE, nr_find(reader, 0, &rows));
  WANTS(NR_HOLE, nr_find_kept(reader, 0, &rows));
  WANTS(NR_HOLE, nr_pin(reader, 0, &count));
  wants("rows that stay", 99, (uint32_t)rows.count);
  wants("a count that stays", 77, count);
  WANTS(NR_SEND, nr_ask(reader, 0, &number));
  wants("the last number", 4194303, (uint32_t)number);
  number = 88;
  WANTS(NR_WAITING, nr_ask(reader, 0, &number));
  WANTS(NR_WORN, nr_cancel(writer, 0));
  WANTS(NR_DONE, nr_fill(writer, 0, 4194303, &one, 1));
  WANTS(NR_FILLED, nr_ask(reader, 0, &number));
  wants("a number that stays", 88, (uint32_t)number);
  WANTS(NR_SEND, nr_ask(reader, 1, &number));

  WANTS(NR_ROWS, nr_find(reader, 0, &rows));
  WANTS(NR_ROWS, nr_pin(reader, 0, &count));
  WANTS(NR_NO_ROW, nr_row_at(reader, 1, &row));
  wants("a row that stays", 5, (uint32_t)row.a);
  WANTS(NR_ROWS, nr_row_at(reader, 0, &row));
  wants("a row", 1, (uint32_t)row.a);
  rows.count = 99;
  WANTS(NR_ROWS, nr_copy(reader, &rows));
  wants("a copy", 1, (uint32_t)rows.count);
  WANTS(NR_ROWS, nr_again(reader, 0));
  WANTS(NR_DONE, nr_update(writer, 0, &more, 1));
  WANTS(NR_OTHER, nr_again(reader, 0));
  WANTS(NR_ROWS, nr_find_kept(reader, 0, &rows));
  wants("the rows after an update", 2, (uint32_t)rows.count);
  WANTS(NR_DONE, nr_replace(writer, 0, &two, 1));
  WANTS(NR_DONE, nr_fill(writer, 1, 4194303, &one, 1));
  WANTS(NR_NO_SLOT, nr_replace(writer, 0, &two, 1));
  WANTS(NR_NO_SLOT, nr_replace_reclaiming(writer, 0, &two, 1, &rows));
  WANTS(NR_NO_SLOT, nr_update_reclaiming(writer, 0, &more, 1, &rows));
  WANTS(NR_EVICTED, nr_evict(writer, 1));
  nr_release(reader);
  WANTS(NR_ROWS, nr_find(reader, 0, &rows));
  wants("the rows after a replacement", 1, (uint32_t)rows.count);
  const nr_row both[2] = {one, two};
  WANTS(NR_DONE, nr_replace(writer, 0, both, 2));
}

/* Finds of many keys, of which one is a hole. */
static void test_each(nr_reader *reader) {
  static nr_wanted wanted[3];
  wanted[1].key = 1;
  wanted[1].rows.count = 99;
  WANTS(NR_DONE, nr_find_each(reader, wanted, 3));
  WANTS(NR_ROWS, wanted[0].answer);
  WANTS(NR_HOLE, wanted[1].answer);
  WANTS(NR_ROWS, wanted[2].answer);
  wants("rows that stay", 99, (uint32_t)wanted[1].rows.count);
  wants("rows that were found", 2, (uint32_t)wanted[2].rows.count);
  nr_found found[3] = {{0, 66, 99}, {1, 66, 99}, {0, 66, 99}};
  nr_row each[3] = {{5, 5}, {6, 6}, {7, 7}};
  WANTS(NR_DONE, nr_find_each_rows(reader, found, 3, each, 3));
  WANTS(NR_ROWS, found[0].answer);
  WANTS(NR_HOLE, found[1].answer);
  WANTS(NR_ROWS, found[2].answer);
  wants("a count of rows above the room", 2, found[0].count);
  wants("a hole's count", 0, found[1].count);
  wants("the first row of the set", 1, (uint32_t)each[0].a);
  wants("a row that stays at a hole", 6, (uint32_t)each[1].a);
  WANTS(NR_DONE, nr_find_each_rows(reader, found, 0, each, 3));
  WANTS(NR_DONE, nr_find_each_rows(reader, found, 3, each, 0));
  wants("a count without room", 2, found[2].count);
}

/* Who gives a key that the map and the queue haven't. */
static void test_no_key(nr_writer *writer, nr_reader *reader, nr_poster *poster) {
  const nr_delta more = {two, true};
  uint64_t number = 88;
  uint32_t count = 77;
  static nr_rows rows;
  WANTS(NR_NO_KEY, nr_find(reader, 2, &rows));
  WANTS(NR_NO_KEY, nr_find_kept(reader, 2, &rows));
  static nr_wanted wanted[2];
  wanted[1].key = 2;
  wanted[0].answer = 66;
  WANTS(NR_NO_KEY, nr_find_each(reader, wanted, 2));
  wants("an answer that stays", 66, wanted[0].answer);
  nr_found found[2] = {{0, 66, 99}, {2, 66, 99}};
  nr_row each[2] = {{5, 5}, {5, 5}};
  WANTS(NR_NO_KEY, nr_find_each_rows(reader, found, 2, each, 2));
  wants("what stays of a find into rows", 66 + 99 + 5, (uint32_t)each[0].a + found[0].answer + found[0].count);
  WANTS(NR_NO_KEY, nr_ask(reader, 2, &number));
  WANTS(NR_NO_KEY, nr_pin(reader, 2, &count));
  WANTS(NR_NO_KEY, nr_look(writer, 2, &rows));
  WANTS(NR_NO_KEY, nr_fill(writer, 2, 0, &one, 1));
  WANTS(NR_NO_KEY, nr_update(writer, 2, &more, 1));
  WANTS(NR_NO_KEY, nr_replace(writer, 2, &one, 1));
  WANTS(NR_NO_KEY, nr_fill_reclaiming(writer, 2, 0, &one, 1, &rows));
  WANTS(NR_NO_KEY, nr_update_reclaiming(writer, 2, &more, 1, &rows));
  WANTS(NR_NO_KEY, nr_replace_reclaiming(writer, 2, &one, 1, &rows));
  WANTS(NR_NO_KEY, nr_evict(writer, 2));
  WANTS(NR_NO_KEY, nr_cancel(writer, 2));
  WANTS(NR_NO_KEY, nr_state(writer, 2));
  WANTS(NR_NO_KEY, nr_number(writer, 2, &number));
  WANTS(NR_NO_KEY, nr_post(poster, 2, 0));
  WANTS(NR_ROWS, nr_pin(reader, 0, &count));
  WANTS(NR_NO_KEY, nr_again(reader, 2));
  nr_release(reader);
}

/* A reader that holds a set where it is to hold none, and the other way round, of a map whose key 0 has two rows. */
static void test_holding(nr_reader *reader) {
  uint64_t number = 88;
  uint32_t count = 77;
  nr_row row = {5, 5};
  static nr_rows rows;
  rows.count = 99;
  WANTS(NR_NOT_HOLDING, nr_release(reader));
  WANTS(NR_NOT_HOLDING, nr_again(reader, 0));
  WANTS(NR_NOT_HOLDING, nr_row_at(reader, 0, &row));
  WANTS(NR_NOT_HOLDING, nr_copy(reader, &rows));
  wants("a row that stays", 5, (uint32_t)row.a);
  WANTS(NR_ROWS, nr_pin(reader, 0, &count));
  count = 77;
  WANTS(NR_HOLDING, nr_pin(reader, 0, &count));
  WANTS(NR_HOLDING, nr_find(reader, 0, &rows));
  static nr_wanted wanted;
  WANTS(NR_HOLDING, nr_find_each(reader, &wanted, 1));
  nr_found found = {0, 66, 99};
  WANTS(NR_HOLDING, nr_find_each_rows(reader, &found, 1, &row, 1));
  wants("a find into rows that stays", 66 + 99 + 5, found.answer + found.count + (uint32_t)row.a);
  WANTS(NR_HOLDING, nr_ask(reader, 1, &number));
  wants("rows that stay", 99, (uint32_t)rows.count);
  wants("a count that stays", 77, count);
  wants("a number that stays", 88, (uint32_t)number);
  WANTS(NR_ROWS, nr_row_at(reader, 1, &row));
  wants("a row of the set that stayed held", 2, (uint32_t)row.a);
  WANTS(NR_DONE, nr_release(reader));
}

/* Sets that come back, in a new map of a key, three slots, two readers and two rows a key, to its end. */
static void test_reclaiming(nr_writer *writer, nr_reader *reader, nr_remains *remains) {
  const nr_row down[2] = {two, one}, three[3] = {one, one, one};
  const nr_delta more = {two, true}, less = {two, false}, most[2] = {more, more};
  uint64_t number = 88;
  uint32_t count = 77;
  static nr_rows had;
  had.count = 99;
  WANTS(NR_NOTHING, nr_reap(writer, &had));
  WANTS(NR_NOT_ASKED, nr_fill_reclaiming(writer, 0, 0, &one, 1, &had));
  WANTS(NR_DROPPED, nr_update_reclaiming(writer, 0, &more, 1, &had));
  WANTS(NR_DROPPED, nr_replace_reclaiming(writer, 0, &one, 1, &had));
  WANTS(NR_SEND, nr_ask(reader, 0, &number));
  WANTS(NR_STALE, nr_fill_reclaiming(writer, 0, number + 1, &one, 1, &had));
  WANTS(NR_TOO_MANY, nr_fill_reclaiming(writer, 0, number, three, 3, &had));
  WANTS(NR_NOT_SORTED, nr_fill_reclaiming(writer, 0, number, down, 2, &had));
  WANTS(NR_DONE, nr_fill_reclaiming(writer, 0, number, &one, 1, &had));
  WANTS(NR_ALREADY, nr_fill_reclaiming(writer, 0, number, &one, 1, &had));
  WANTS(NR_NOTHING, nr_reap(writer, &had));
  WANTS(NR_BAD_BATCH, nr_update_reclaiming(writer, 0, &more, 0, &had));
  WANTS(NR_NO_ROW, nr_update_reclaiming(writer, 0, &less, 1, &had));
  WANTS(NR_TOO_MANY, nr_update_reclaiming(writer, 0, most, 2, &had));
  WANTS(NR_ROWS, nr_pin(reader, 0, &count));
  WANTS(NR_DONE, nr_update_reclaiming(writer, 0, &more, 1, &had));
  WANTS(NR_HELD, nr_reap(writer, &had));
  WANTS(NR_TOO_MANY, nr_replace_reclaiming(writer, 0, three, 3, &had));
  WANTS(NR_NOT_SORTED, nr_replace_reclaiming(writer, 0, down, 2, &had));
  WANTS(NR_DONE, nr_replace_reclaiming(writer, 0, &one, 1, &had));
  wants("rows that stay", 99, (uint32_t)had.count);
  /* The first slot is held still, and the second's set comes back: the rows that the update left. */
  WANTS(NR_GIVEN, nr_replace_reclaiming(writer, 0, &two, 1, &had));
  wants("the rows that came back", 2, (uint32_t)had.count);
  wants("the last of them", 2, (uint32_t)had.row[1].a);
  WANTS(NR_DONE, nr_release(reader));
  WANTS(NR_GIVEN, nr_update_reclaiming(writer, 0, &more, 1, &had));
  wants("the rows that came back", 1, (uint32_t)had.count);
  wants("the row that was held", 1, (uint32_t)had.row[0].a);
  WANTS(NR_EVICTED, nr_evict(writer, 0));
  WANTS(NR_SEND, nr_ask(reader, 0, &number));
  WANTS(NR_GIVEN, nr_fill_reclaiming(writer, 0, number, NULL, 0, &had));
  wants("the rows that came back", 1, (uint32_t)had.count);
  /* Two sets wait: that of the second replacement, and that of the update. */
  WANTS(NR_GIVEN, nr_reap(writer, &had));
  wants("the rows that came back", 1, (uint32_t)had.count);
  wants("the row that was replaced", 2, (uint32_t)had.row[0].a);
  WANTS(NR_DONE, nr_replace_reclaiming(writer, 0, &one, 1, &had));
  WANTS(NR_READERS_OUT, nr_take_apart(writer, remains));
  WANTS(NR_DONE, nr_return_reader(writer, reader));
  nr_writer another = {0};
  nr_remains live = {0};
  const nr_shape shape = {1, 1, 1, 1, 0, 0};
  WANTS(NR_DONE, nr_open(&shape, &another));
  WANTS(NR_DONE, nr_take_apart(&another, &live));
  WANTS(NR_NOTHING, nr_next(&live, &had));
  WANTS(NR_LIVE, nr_take_apart(writer, &live));
  nr_close_remains(&live);
  WANTS(NR_CLOSED, nr_take_apart(writer, NULL));
  WANTS(NR_DONE, nr_take_apart(writer, remains));
  WANTS(NR_CLOSED, nr_state(writer, 0));
  uint64_t rows = 0;
  for (int sets = 0; sets < 3; sets++) {
    WANTS(NR_GIVEN, nr_next(remains, &had));
    rows += had.count;
  }
  wants("the rows of all that came back at the end", 3, (uint32_t)rows);
  had.count = 99;
  WANTS(NR_NOTHING, nr_next(remains, &had));
  WANTS(NR_NOTHING, nr_next(remains, &had));
  wants("rows that stay", 99, (uint32_t)had.count);
  nr_close_remains(remains);
  WANTS(NR_CLOSED, nr_next(remains, &had));
}

static void test_queue(nr_taker *taker, nr_poster *poster) {
  uint32_t key = 77;
  uint64_t number = 88;
  nr_poster none = {0};
  nr_taker no_room = {0};
  WANTS(NR_NO_POSTER, nr_open_poster(taker, &none));
  WANTS(NR_BAD_SIZE, nr_open_queue(2, 0, 1, &no_room));
  WANTS(NR_EMPTY, nr_take(taker, &key, &number));
  wants("a key that stays", 77, key);
  wants("a number that stays", 88, (uint32_t)number);
  WANTS(NR_DONE, nr_post(poster, 1, 3));
  WANTS(NR_FULL, nr_post(poster, 0, 4));
  WANTS(NR_DONE, nr_take(taker, &key, &number));
  wants("the key that was posted", 1, key);
  wants("the number that was posted", 3, (uint32_t)number);
  WANTS(NR_DONE, nr_return_poster(taker, poster));
  WANTS(NR_CLOSED, nr_return_poster(taker, poster));
  WANTS(NR_CLOSED, nr_return_poster(taker, NULL));
  WANTS(NR_CLOSED, nr_post(poster, 0, 0));
  WANTS(NR_DONE, nr_open_poster(taker, poster));
  WANTS(NR_DONE, nr_post(poster, 1, 3));
  WANTS(NR_DONE, nr_take(taker, &key, &number));
}

/* Each call by a handle that isn't live: these are zeros, or NULL. */
static void test_closed(nr_writer *writer, nr_reader *reader, nr_remains *remains, nr_taker *taker,
                        nr_poster *poster) {
  const nr_delta more = {two, true};
  uint64_t number = 88;
  uint32_t count = 77;
  nr_row row = {5, 5};
  nr_size sizes = {9, 9, 9, 9};
  nr_reader opened = {0};
  nr_poster posts = {0};
  nr_remains left = {0};
  nr_slots slots = {9, 9, 9};
  static nr_rows rows;
  rows.count = 99;
  WANTS(NR_CLOSED, nr_open_reader(writer, &opened));
  WANTS(NR_CLOSED, nr_return_reader(writer, reader));
  WANTS(NR_CLOSED, nr_find(reader, 0, &rows));
  WANTS(NR_CLOSED, nr_find_kept(reader, 0, &rows));
  static nr_wanted wanted;
  WANTS(NR_CLOSED, nr_find_each(reader, &wanted, 1));
  nr_found found = {0, 66, 99};
  WANTS(NR_CLOSED, nr_find_each_rows(reader, &found, 1, &row, 1));
  WANTS(NR_CLOSED, nr_find_each_rows(NULL, &found, 1, &row, 1));
  wants("an answer that stays where the handle is closed", 66, found.answer);
  WANTS(NR_CLOSED, nr_ask(reader, 0, &number));
  WANTS(NR_CLOSED, nr_pin(reader, 0, &count));
  WANTS(NR_CLOSED, nr_row_at(reader, 0, &row));
  WANTS(NR_CLOSED, nr_copy(reader, &rows));
  WANTS(NR_CLOSED, nr_again(reader, 0));
  WANTS(NR_CLOSED, nr_release(reader));
  WANTS(NR_CLOSED, nr_sizes(reader, &sizes));
  WANTS(NR_CLOSED, nr_look(writer, 0, &rows));
  WANTS(NR_CLOSED, nr_fill(writer, 0, 0, &one, 1));
  WANTS(NR_CLOSED, nr_update(writer, 0, &more, 1));
  WANTS(NR_CLOSED, nr_replace(writer, 0, &one, 1));
  WANTS(NR_CLOSED, nr_fill_reclaiming(writer, 0, 0, &one, 1, &rows));
  WANTS(NR_CLOSED, nr_update_reclaiming(writer, 0, &more, 1, &rows));
  WANTS(NR_CLOSED, nr_replace_reclaiming(writer, 0, &one, 1, &rows));
  WANTS(NR_CLOSED, nr_reap(writer, &rows));
  WANTS(NR_CLOSED, nr_take_apart(writer, &left));
  WANTS(NR_CLOSED, nr_next(remains, &rows));
  WANTS(NR_CLOSED, nr_evict(writer, 0));
  WANTS(NR_CLOSED, nr_cancel(writer, 0));
  WANTS(NR_CLOSED, nr_state(writer, 0));
  WANTS(NR_CLOSED, nr_number(writer, 0, &number));
  WANTS(NR_CLOSED, nr_stats(writer, &slots));
  WANTS(NR_CLOSED, nr_open_poster(taker, &posts));
  WANTS(NR_CLOSED, nr_return_poster(taker, poster));
  WANTS(NR_CLOSED, nr_post(poster, 0, 0));
  WANTS(NR_CLOSED, nr_take(taker, &count, &number));
  nr_close_reader(reader);
  nr_close_writer(writer);
  nr_close_remains(remains);
  nr_close_poster(poster);
  nr_close_taker(taker);
  wants("rows that stay", 99, (uint32_t)rows.count);
  wants("a count that stays", 77, count);
  wants("a number that stays", 88, (uint32_t)number);
  wants("a row that stays", 5, (uint32_t)row.a);
  wants("sizes that stay", 9, sizes.rows);
  wants("counts that stay", 27, slots.filled + slots.retired + slots.free);
  wants("handles that stay zeros", 1, !opened.at && !posts.at && !left.at);
}

/* A handle that is live where another is not. */
static void test_other_closed(nr_writer *writer, nr_reader *reader) {
  nr_writer no_writer = {0};
  nr_reader no_reader = {0};
  WANTS(NR_CLOSED, nr_return_reader(writer, &no_reader));
  WANTS(NR_CLOSED, nr_return_reader(&no_writer, reader));
  WANTS(NR_CLOSED, nr_open_reader(writer, NULL));
  const nr_shape shape = {1, 1, 1, 1, 0, 0};
  WANTS(NR_CLOSED, nr_open(&shape, NULL));
  WANTS(NR_CLOSED, nr_open_queue(1, 1, 1, NULL));
  WANTS(NR_NOT_HOLDING, nr_release(reader));
}

/* Handles of another map and of another queue, which stay as they were. */
static void test_strangers(nr_writer *writer, nr_reader *reader, nr_taker *taker, nr_poster *poster) {
  const nr_shape shape = {1, 1, 1, 1, 0, 0};
  nr_writer another = {0};
  nr_reader stranger = {0};
  nr_taker no_taker = {0}, other = {0};
  nr_poster no_poster = {0}, unknown = {0};
  uint32_t key = 77;
  uint64_t number = 88;
  WANTS(NR_DONE, nr_open(&shape, &another));
  WANTS(NR_DONE, nr_open_reader(&another, &stranger));
  WANTS(NR_STRANGER, nr_return_reader(writer, &stranger));
  WANTS(NR_STRANGER, nr_return_reader(&another, reader));
  WANTS(NR_SEND, nr_ask(&stranger, 0, &number));
  WANTS(NR_NOT_HOLDING, nr_release(reader));
  WANTS(NR_DONE, nr_return_reader(&another, &stranger));
  WANTS(NR_DONE, nr_open_queue(1, 1, 1, &other));
  WANTS(NR_DONE, nr_open_poster(&other, &unknown));
  WANTS(NR_STRANGER, nr_return_poster(taker, &unknown));
  WANTS(NR_STRANGER, nr_return_poster(&other, poster));
  WANTS(NR_CLOSED, nr_return_poster(&no_taker, poster));
  WANTS(NR_CLOSED, nr_return_poster(taker, &no_poster));
  WANTS(NR_DONE, nr_post(&unknown, 0, 5));
  WANTS(NR_DONE, nr_take(&other, &key, &number));
  wants("the number that was posted", 5, (uint32_t)number);
  WANTS(NR_DONE, nr_return_poster(&other, &unknown));
  nr_close_writer(&another);
  nr_close_taker(&other);
}

/* A reader that is returned while it holds a set is opened again, and holds nothing. */
static void test_return(nr_writer *writer, nr_reader *reader) {
  uint32_t count = 0;
  WANTS(NR_ROWS, nr_pin(reader, 0, &count));
  WANTS(NR_DONE, nr_return_reader(writer, reader));
  WANTS(NR_CLOSED, nr_return_reader(writer, reader));
  WANTS(NR_DONE, nr_open_reader(writer, reader));
  WANTS(NR_NOT_HOLDING, nr_release(reader));
  WANTS(NR_ROWS, nr_pin(reader, 0, &count));
  WANTS(NR_DONE, nr_release(reader));
}

/* Once the writer is closed a reader finds what is there still, and is told of it by all else. */
static void test_closed_writer(void) {
  const nr_shape shape = {4, 8, 2, 2, 0, 0};
  static nr_wanted wanted[3];
  static nr_rows rows;
  nr_writer writer = {0};
  nr_reader reader = {0}, second = {0};
  uint64_t number = 0;
  uint32_t count = 77;
  WANTS(NR_DONE, nr_open(&shape, &writer));
  WANTS(NR_DONE, nr_open_reader(&writer, &reader));
  WANTS(NR_DONE, nr_open_reader(&writer, &second));
  WANTS(NR_SEND, nr_ask(&reader, 0, &number));
  WANTS(NR_DONE, nr_fill(&writer, 0, number, &one, 1));
  WANTS(NR_SEND, nr_ask(&reader, 1, &number));
  WANTS(NR_WAITING, nr_ask(&reader, 1, &number));
  WANTS(NR_HOLE, nr_find(&reader, 1, &rows));
  WANTS(NR_DONE, nr_return_reader(&writer, &second));
  WANTS(NR_DONE, nr_open_reader(&writer, &second));
  WANTS(NR_HOLE, nr_find(&second, 2, &rows));
  nr_close_writer(&writer);
  number = 55;
  rows.count = 99;
  for (uint32_t key = 0; key < 3; key++) WANTS(NR_CLOSED, nr_ask(&reader, key, &number));
  for (uint32_t key = 1; key < 3; key++) {
    WANTS(NR_CLOSED, nr_find(&reader, key, &rows));
    WANTS(NR_CLOSED, nr_find_kept(&reader, key, &rows));
    WANTS(NR_CLOSED, nr_pin(&second, key, &count));
    wanted[key].key = key;
  }
  WANTS(NR_NO_KEY, nr_find(&reader, 4, &rows));
  WANTS(NR_NOT_HOLDING, nr_release(&second));
  wants("values that stay", 99 + 55 + 77, (uint32_t)(rows.count + number) + count);
  WANTS(NR_DONE, nr_find_each(&reader, wanted, 3));
  for (int i = 0; i < 3; i++) wants("an answer of a find of many", i ? NR_CLOSED : NR_ROWS, wanted[i].answer);
  nr_found found[3] = {{0, 66, 99}, {1, 66, 99}, {2, 66, 99}};
  nr_row each[3];
  WANTS(NR_DONE, nr_find_each_rows(&reader, found, 3, each, 3));
  for (int i = 0; i < 3; i++) wants("an answer of a find into rows", i ? NR_CLOSED : NR_ROWS, found[i].answer);
  WANTS(NR_ROWS, nr_find(&reader, 0, &rows));
  WANTS(NR_ROWS, nr_pin(&second, 0, &count));
  WANTS(NR_ROWS, nr_again(&second, 0));
  WANTS(NR_OTHER, nr_again(&second, 1));
  WANTS(NR_HOLDING, nr_ask(&second, 1, &number));
  nr_close_reader(&second);
  WANTS(NR_ROWS, nr_find_kept(&reader, 0, &rows));
  nr_close_reader(&reader);
}

int main(void) {
  const nr_shape small = {2, 1, 1, 2, 0, 0}, few = {1, 3, 2, 2, 0, 0}, last = {2, 3, 1, 2, 0, 4194303}, bad = {2, 0, 1, 2, 0, 0};
  nr_writer writer = {0}, worn = {0}, giving = {0};
  nr_reader reader = {0}, other = {0}, holder = {0}, none = {0};
  nr_remains remains = {0};
  nr_taker taker = {0};
  nr_poster poster = {0};
  test_closed(&writer, &reader, &remains, &taker, &poster);
  test_closed(NULL, NULL, NULL, NULL, NULL);
  WANTS(NR_BAD_SIZE, nr_open(&bad, &writer));
  WANTS(NR_DONE, nr_open(&small, &writer));
  WANTS(NR_LIVE, nr_open(&small, &writer));
  WANTS(NR_DONE, nr_open(&last, &worn));
  WANTS(NR_DONE, nr_open_reader(&writer, &reader));
  WANTS(NR_NO_READER, nr_open_reader(&writer, &none));
  WANTS(NR_LIVE, nr_open_reader(&writer, &reader));
  WANTS(NR_DONE, nr_open_reader(&worn, &other));
  WANTS(NR_DONE, nr_open(&few, &giving));
  WANTS(NR_DONE, nr_open_reader(&giving, &holder));
  WANTS(NR_DONE, nr_open_queue(2, 1, 1, &taker));
  WANTS(NR_DONE, nr_open_poster(&taker, &poster));
  WANTS(NR_LIVE, nr_open_queue(2, 1, 1, &taker));
  WANTS(NR_LIVE, nr_open_poster(&taker, &poster));
  test_writer(&writer, &reader);
  test_reader(&worn, &other);
  test_each(&other);
  test_no_key(&worn, &other, &poster);
  test_holding(&other);
  test_other_closed(&worn, &other);
  test_return(&worn, &other);
  test_reclaiming(&giving, &holder, &remains);
  test_queue(&taker, &poster);
  test_strangers(&writer, &reader, &taker, &poster);
  test_closed_writer();
  nr_close_reader(&reader);
  nr_close_reader(&other);
  nr_close_writer(&writer);
  nr_close_writer(&worn);
  nr_close_poster(&poster);
  nr_close_taker(&taker);
  test_closed(&writer, &reader, &remains, &taker, &poster);
  puts("each function gave each of its answers");
  return 0;
}
