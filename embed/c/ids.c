/* A map over ids of 64 bits, of which few are resident: an id is claimed once, admitted, filled, changed and evicted, and
   a late answer fills no later absence. Each function gives each of its answers. */
#include "../../include/nr.h"
#include <pthread.h>
#include <sched.h>
#include <stdio.h>
#include <stdlib.h>

#define WANTS(answer, call) wants(answer, call, #call)

static void wants(uint32_t wanted, uint32_t got, const char *call) {
  if (wanted == got) return;
  fprintf(stderr, "ids: %s: wanted \"%s\", got \"%s\"\n", call, nr_strerror(wanted), nr_strerror(got));
  exit(1);
}

static const uint64_t USER = 0xfeedfacecafebeef;
static const nr_row ORDERS[] = {{1, 5}, {2, 9}};
static nr_rows rows;

/* A get that misses: the one whose request is answered NR_SEND passes the id to the thread that writes. */
static nr_upquery admitted(nr_id_writer *writer, nr_id_reader *reader, uint64_t id) {
  nr_upquery upquery = {0};
  WANTS(NR_HOLE, nr_find_id(reader, id, &rows));
  WANTS(NR_SEND, nr_request_id(reader, id));
  WANTS(NR_WAITING, nr_request_id(reader, id));
  WANTS(NR_SEND, nr_admit(writer, id, &upquery));
  WANTS(NR_ASKED, nr_find_id(reader, id, &rows));
  WANTS(NR_NAMED, nr_request_id(reader, id));
  return upquery;
}

static void test_life(nr_id_writer *writer, nr_id_reader *reader) {
  const nr_delta batch[] = {{{1, 5}, false}, {{3, 7}, true}};
  nr_upquery other = {.id = USER}, upquery;
  WANTS(NR_NOT_ASKED, nr_admit(writer, USER, &other));
  WANTS(NR_HOLE, nr_look_id(writer, USER, &rows));
  WANTS(NR_NOTHING, nr_evict_id(writer, USER));
  WANTS(NR_NOTHING, nr_update_id(writer, USER, batch, 2));
  upquery = admitted(writer, reader, USER);
  WANTS(NR_ASKED, nr_look_id(writer, USER, &rows));
  WANTS(NR_DROPPED, nr_replace_id(writer, USER, ORDERS, 1));
  WANTS(NR_NOTHING, nr_evict_id(writer, USER));
  other = upquery;
  other.number++;
  WANTS(NR_STALE, nr_fill_id(writer, &other, ORDERS, 2));
  WANTS(NR_DONE, nr_fill_id(writer, &upquery, ORDERS, 2));
  WANTS(NR_STALE, nr_fill_id(writer, &upquery, ORDERS, 2));
  WANTS(NR_STALE, nr_withdraw_id(writer, &upquery));
  WANTS(NR_DONE, nr_update_id(writer, USER, batch, 2));
  WANTS(NR_NO_ROW, nr_update_id(writer, USER, batch, 2));
  WANTS(NR_ROWS, nr_find_id(reader, USER, &rows));
  if (rows.count != 2 || rows.row[0].a != 2 || rows.row[0].b != 9 || rows.row[1].a != 3) WANTS(NR_ROWS, NR_OTHER);
  WANTS(NR_DONE, nr_replace_id(writer, USER, ORDERS, 1));
  WANTS(NR_ROWS, nr_look_id(writer, USER, &rows));
  WANTS(NR_EVICTED, nr_evict_id(writer, USER));
  /* The base changes while the rows are on their way. */
  upquery = admitted(writer, reader, USER);
  WANTS(NR_CANCELLED, nr_withdraw_id(writer, &upquery));
  other = admitted(writer, reader, USER);
  WANTS(NR_STALE, nr_fill_id(writer, &upquery, ORDERS, 2));
  WANTS(NR_DONE, nr_fill_id(writer, &other, ORDERS, 2));
}

/* An eviction keeps the ticket number, and each admission has a count of its own: an answer that comes twice fills no
   later absence. */
static void test_twice(nr_id_writer *writer, nr_id_reader *reader) {
  nr_upquery first = admitted(writer, reader, 5), second;
  WANTS(NR_DONE, nr_fill_id(writer, &first, ORDERS, 1));
  WANTS(NR_EVICTED, nr_evict_id(writer, 5));
  WANTS(NR_STALE, nr_fill_id(writer, &first, ORDERS, 1));
  second = admitted(writer, reader, 5);
  if (second.way != first.way || second.number != first.number) WANTS(NR_SEND, NR_OTHER);
  if (second.count != first.count + 1) WANTS(NR_SEND, NR_OTHER);
  WANTS(NR_STALE, nr_fill_id(writer, &first, ORDERS, 1));
  WANTS(NR_STALE, nr_withdraw_id(writer, &first));
  WANTS(NR_ASKED, nr_look_id(writer, 5, &rows));
  WANTS(NR_DONE, nr_fill_id(writer, &second, ORDERS, 2));
  WANTS(NR_EVICTED, nr_evict_id(writer, 5));
}

/* After a write in the base: neither the rows that are there nor those on their way outlive it. */
static void test_invalidation(nr_id_writer *writer, nr_id_reader *reader) {
  WANTS(NR_NOTHING, nr_invalidate_id(writer, 5));
  nr_upquery first = admitted(writer, reader, 5), second;
  WANTS(NR_NOTHING, nr_invalidate_id(writer, 6));
  WANTS(NR_CANCELLED, nr_invalidate_id(writer, 5));
  WANTS(NR_STALE, nr_fill_id(writer, &first, ORDERS, 1));
  WANTS(NR_NOTHING, nr_invalidate_id(writer, 5));
  second = admitted(writer, reader, 5);
  WANTS(NR_STALE, nr_fill_id(writer, &first, ORDERS, 1));
  WANTS(NR_DONE, nr_fill_id(writer, &second, ORDERS, 2));
  WANTS(NR_EVICTED, nr_invalidate_id(writer, 5));
  WANTS(NR_HOLE, nr_find_id(reader, 5, &rows));
  WANTS(NR_NO_KEY, nr_invalidate_id(writer, 0));
}

static void test_refusals(nr_id_writer *writer, nr_id_reader *reader) {
  const nr_row zero[] = {{0, 1}}, mixed[] = {{2, 1}, {1, 1}}, many[] = {{1, 1}, {2, 1}, {3, 1}, {4, 1}};
  const nr_delta tag[] = {{{0, 1}, true}};
  nr_upquery upquery = admitted(writer, reader, 7);
  WANTS(NR_BAD_ROW, nr_fill_id(writer, &upquery, zero, 1));
  WANTS(NR_NOT_SORTED, nr_fill_id(writer, &upquery, mixed, 2));
  WANTS(NR_TOO_MANY, nr_fill_id(writer, &upquery, many, 4));
  WANTS(NR_BAD_ROW, nr_replace_id(writer, USER, zero, 1));
  WANTS(NR_BAD_ROW, nr_update_id(writer, USER, tag, 1));
  WANTS(NR_BAD_BATCH, nr_update_id(writer, USER, tag, 0));
  WANTS(NR_NO_KEY, nr_find_id(reader, 0, &rows));
  WANTS(NR_NO_KEY, nr_request_id(reader, 0));
  WANTS(NR_NO_KEY, nr_admit(writer, 0, &upquery));
  WANTS(NR_NO_KEY, nr_evict_id(writer, 0));
  WANTS(NR_DONE, nr_fill_id(writer, &upquery, ORDERS, 0));
}

/* Ids of one group, whose second is the other: they fill both, and then one makes room. */
static void test_full(const nr_id_shape *shape, nr_id_writer *writer, nr_id_reader *reader) {
  enum { WAYS = 2 * 8 };
  uint64_t ids[WAYS + 1], found = 0;
  nr_upquery upquery;
  for (uint64_t id = 1000; found < WAYS + 1; id++)
    if (nr_id_group(shape, id) == 1) ids[found++] = id;
  WANTS(NR_EVICTED, nr_evict_id(writer, USER));
  WANTS(NR_EVICTED, nr_evict_id(writer, 7));
  for (int next = 0; next < WAYS; next++) {
    if (nr_id_second_group(shape, ids[next]) != 0) WANTS(NR_DONE, NR_OTHER);
    upquery = admitted(writer, reader, ids[next]);
    WANTS(NR_DONE, nr_fill_id(writer, &upquery, ORDERS, 1));
  }
  WANTS(NR_SEND, nr_request_id(reader, ids[WAYS]));
  WANTS(NR_FULL, nr_admit(writer, ids[WAYS], &upquery));
  WANTS(NR_EVICTED, nr_evict_id(writer, ids[3]));
  WANTS(NR_SEND, nr_admit(writer, ids[WAYS], &upquery));
  WANTS(NR_DONE, nr_fill_id(writer, &upquery, ORDERS, 2));
  for (int next = 0; next <= WAYS; next++) WANTS(next == 3 ? NR_HOLE : NR_ROWS, nr_find_id(reader, ids[next], &rows));
}

/* Sets come back with the id that they were of. */
static void test_reclaiming(nr_id_writer *writer, nr_id_reader *reader) {
  const nr_delta batch = {{9, 9}, true};
  const nr_row zero = {0, 1};
  nr_rows had;
  had.count = 77;
  WANTS(NR_NOTHING, nr_reap_id(writer, &had));
  WANTS(NR_NOTHING, nr_update_id_reclaiming(writer, USER, &batch, 1, &had));
  nr_upquery upquery = admitted(writer, reader, USER);
  WANTS(NR_BAD_ROW, nr_fill_id_reclaiming(writer, &upquery, &zero, 1, &had));
  WANTS(NR_DROPPED, nr_replace_id_reclaiming(writer, USER, ORDERS, 1, &had));
  WANTS(NR_DONE, nr_fill_id_reclaiming(writer, &upquery, ORDERS, 1, &had));
  WANTS(NR_STALE, nr_fill_id_reclaiming(writer, &upquery, ORDERS, 1, &had));
  WANTS(NR_DONE, nr_replace_id_reclaiming(writer, USER, ORDERS, 2, &had));
  if (had.count != 77) WANTS(NR_DONE, NR_GIVEN);
  WANTS(NR_GIVEN, nr_update_id_reclaiming(writer, USER, &batch, 1, &had));
  if (had.count != 2 || had.row[0].a || had.row[0].b != USER || had.row[1].b != 5) WANTS(NR_GIVEN, NR_OTHER);
  WANTS(NR_GIVEN, nr_reap_id(writer, &had));
  if (had.count != 3 || had.row[0].b != USER) WANTS(NR_GIVEN, NR_OTHER);
  WANTS(NR_NOTHING, nr_reap_id(writer, &had));
}

static void has(const nr_rows *found, uint64_t count, uint64_t a) {
  if (found->count != count || (count && found->row[count - 1].a != a)) WANTS(NR_ROWS, NR_OTHER);
}

/* What a reader holds stays as it is, and its slot with it, until the reader lets it go. */
static void test_holding(nr_id_writer *writer, nr_id_reader *reader) {
  const nr_delta batch = {{9, 9}, true};
  nr_row row = {5, 5};
  nr_rows had;
  uint32_t count = 77;
  WANTS(NR_NOT_HOLDING, nr_release_id(reader));
  WANTS(NR_NOT_HOLDING, nr_again_id(reader, USER));
  WANTS(NR_NOT_HOLDING, nr_row_at_id(reader, 0, &row));
  WANTS(NR_NOT_HOLDING, nr_copy_id(reader, &rows));
  WANTS(NR_HOLE, nr_pin_id(reader, USER, &count));
  rows.count = 99;
  WANTS(NR_HOLE, nr_find_kept_id(reader, USER, &rows));
  nr_upquery upquery = admitted(writer, reader, USER);
  WANTS(NR_ASKED, nr_pin_id(reader, USER, &count));
  WANTS(NR_ASKED, nr_pin_row_id(reader, USER, &row));
  WANTS(NR_ASKED, nr_find_kept_id(reader, USER, &rows));
  if (count != 77 || rows.count != 99 || row.a != 5) WANTS(NR_ASKED, NR_ROWS);
  WANTS(NR_DONE, nr_fill_id(writer, &upquery, ORDERS, 2));
  WANTS(NR_ROWS, nr_pin_id(reader, USER, &count));
  if (count != 2) WANTS(NR_ROWS, NR_OTHER);
  WANTS(NR_HOLDING, nr_pin_id(reader, USER, &count));
  WANTS(NR_HOLDING, nr_pin_row_id(reader, USER, &row));
  if (row.a != 5) WANTS(NR_HOLDING, NR_ROWS);
  WANTS(NR_HOLDING, nr_find_id(reader, USER, &rows));
  nr_wanted_id wanted = {.id = USER, .answer = 55};
  WANTS(NR_HOLDING, nr_find_each_id(reader, &wanted, 1));
  if (wanted.answer != 55) WANTS(NR_HOLDING, NR_ROWS);
  nr_found_id found = {USER, 55, 99};
  WANTS(NR_HOLDING, nr_find_each_rows_id(reader, &found, 1, &row, 1));
  if (found.answer != 55 || found.count != 99 || row.a != 5) WANTS(NR_HOLDING, NR_ROWS);
  WANTS(NR_ROWS, nr_again_id(reader, USER));
  WANTS(NR_OTHER, nr_again_id(reader, USER + 1));
  WANTS(NR_DONE, nr_update_id(writer, USER, &batch, 1));
  WANTS(NR_OTHER, nr_again_id(reader, USER));
  WANTS(NR_EVICTED, nr_evict_id(writer, USER));
  /* A claim is granted to a reader that holds a set. */
  WANTS(NR_SEND, nr_request_id(reader, USER));
  WANTS(NR_SEND, nr_admit(writer, USER, &upquery));
  WANTS(NR_ROWS, nr_row_at_id(reader, 1, &row));
  if (row.a != 2 || row.b != 9) WANTS(NR_ROWS, NR_OTHER);
  WANTS(NR_NO_ROW, nr_row_at_id(reader, 2, &row));
  WANTS(NR_ROWS, nr_copy_id(reader, &rows));
  has(&rows, 2, 2);
  /* The set that is held doesn't come back before it is let go. */
  WANTS(NR_GIVEN, nr_reap_id(writer, &had));
  has(&had, 4, 9);
  WANTS(NR_HELD, nr_reap_id(writer, &had));
  WANTS(NR_DONE, nr_release_id(reader));
  WANTS(NR_GIVEN, nr_reap_id(writer, &had));
  has(&had, 3, 2);
  WANTS(NR_DONE, nr_fill_id(writer, &upquery, ORDERS, 1));
  /* Kept from find to find, of two ids in turn. */
  upquery = admitted(writer, reader, 7);
  WANTS(NR_DONE, nr_fill_id(writer, &upquery, ORDERS, 2));
  for (int turn = 0; turn < 2; turn++) {
    WANTS(NR_ROWS, nr_find_kept_id(reader, USER, &rows));
    has(&rows, 1, 1);
    WANTS(NR_ROWS, nr_find_kept_id(reader, USER, &rows));
    WANTS(NR_ROWS, nr_find_kept_id(reader, 7, &rows));
    has(&rows, 2, 2);
  }
  WANTS(NR_ROWS, nr_again_id(reader, 7));
  WANTS(NR_NO_KEY, nr_again_id(reader, 0));
  WANTS(NR_NO_KEY, nr_pin_id(reader, 0, &count));
  WANTS(NR_NO_KEY, nr_pin_row_id(reader, 0, &row));
  WANTS(NR_NO_KEY, nr_find_kept_id(reader, 0, &rows));
  /* A find that finds nothing lets go what was held. */
  WANTS(NR_HOLE, nr_find_kept_id(reader, 12345, &rows));
  has(&rows, 2, 2);
  WANTS(NR_NOT_HOLDING, nr_release_id(reader));
  /* A pin that tells the first row, and of a set without rows none. */
  WANTS(NR_ROWS, nr_pin_row_id(reader, 7, &row));
  if (row.a != 1 || row.b != 5) WANTS(NR_ROWS, NR_OTHER);
  WANTS(NR_ROWS, nr_row_at_id(reader, 1, &row));
  WANTS(NR_DONE, nr_release_id(reader));
  WANTS(NR_DONE, nr_replace_id(writer, 7, ORDERS, 0));
  WANTS(NR_ROWS, nr_pin_row_id(reader, 7, &row));
  if (row.a != 2 || row.b != 9) WANTS(NR_ROWS, NR_OTHER);
  WANTS(NR_NO_ROW, nr_row_at_id(reader, 0, &row));
  WANTS(NR_DONE, nr_release_id(reader));
  WANTS(NR_HOLE, nr_pin_row_id(reader, 12345, &row));
  WANTS(NR_NOT_HOLDING, nr_release_id(reader));
  WANTS(NR_EVICTED, nr_evict_id(writer, USER));
  WANTS(NR_EVICTED, nr_evict_id(writer, 7));
}

enum { IDS = 40 };

/* The same ids into one array, of which each has that many rows. */
static void each_into_rows(nr_id_reader *reader, size_t room) {
  nr_found_id found[IDS];
  nr_row each[IDS * 4];
  for (size_t at = 0; at < IDS * 4; at++) each[at] = (nr_row){77, 77};
  for (int i = 0; i < IDS; i++) found[i] = (nr_found_id){(uint64_t)(IDS - i), 55, 99};
  WANTS(NR_DONE, nr_find_each_rows_id(reader, found, IDS, each, IDS * room + IDS - 1));
  for (size_t i = 0; i < IDS; i++) {
    const bool has_row = found[i].id % 2 == 0;
    WANTS(has_row ? NR_ROWS : found[i].id == 33 ? NR_ASKED : NR_HOLE, found[i].answer);
    if (found[i].count != has_row) WANTS(NR_HOLE, NR_ROWS);
    for (size_t place = 0; place < room; place++)
      if (each[i * room + place].a != (has_row && !place ? found[i].id : 77)) WANTS(NR_HOLE, NR_ROWS);
  }
  for (size_t at = IDS * room; at < IDS * 4; at++)
    if (each[at].a != 77) WANTS(NR_HOLE, NR_ROWS);
  found[IDS - 1].id = 0;
  found[0].answer = 55;
  WANTS(NR_NO_KEY, nr_find_each_rows_id(reader, found, IDS, each, IDS));
  if (found[0].answer != 55) WANTS(NR_NO_KEY, NR_DONE);
}

/* More ids than are found at a time: every second one has a row, its own number. */
static void test_each(void) {
  const nr_id_shape shape = {.groups = 64, .slots = 64, .readers = 1, .rows = 20, .key = 5};
  static nr_wanted_id wanted[IDS];
  nr_id_writer writer = {0};
  nr_id_reader reader = {0};
  WANTS(NR_DONE, nr_open_ids(&shape, &writer));
  WANTS(NR_DONE, nr_open_id_reader(&writer, &reader));
  for (uint64_t id = 2; id <= IDS; id += 2) {
    const nr_row own = {id, 1};
    nr_upquery upquery = admitted(&writer, &reader, id);
    WANTS(NR_DONE, nr_fill_id(&writer, &upquery, &own, 1));
  }
  admitted(&writer, &reader, 33);
  for (int i = 0; i < IDS; i++) wanted[i] = (nr_wanted_id){.id = (uint64_t)(IDS - i), .answer = 55, .rows = {.count = 99}};
  wanted[6].id = 40; /* Twice. */
  WANTS(NR_DONE, nr_find_each_id(&reader, wanted, IDS));
  for (int i = 0; i < IDS; i++) {
    WANTS(wanted[i].id % 2 == 0 ? NR_ROWS : wanted[i].id == 33 ? NR_ASKED : NR_HOLE, wanted[i].answer);
    if (wanted[i].answer == NR_ROWS) has(&wanted[i].rows, 1, wanted[i].id);
    else if (wanted[i].rows.count != 99) WANTS(NR_HOLE, NR_ROWS);
  }
  wanted[39].id = 0;
  wanted[0].answer = 55;
  WANTS(NR_NO_KEY, nr_find_each_id(&reader, wanted, IDS));
  if (wanted[0].answer != 55) WANTS(NR_NO_KEY, NR_DONE);
  WANTS(NR_DONE, nr_find_each_id(&reader, wanted, 0));
  for (size_t room = 0; room < 4; room++) each_into_rows(&reader, room);
  nr_close_id_reader(&reader);
  nr_close_id_writer(&writer);
}

/* Which ids were found, and whose way another may have. */
static void test_choices(void) {
  const nr_id_shape shape = {.groups = 1, .slots = 11, .readers = 1, .rows = 1};
  nr_id_writer writer = {0};
  nr_id_reader reader = {0};
  nr_upquery upquery;
  uint64_t chosen = 55;
  WANTS(NR_DONE, nr_open_ids(&shape, &writer));
  WANTS(NR_DONE, nr_open_id_reader(&writer, &reader));
  WANTS(NR_NO_KEY, nr_uses_id(&writer, 0));
  WANTS(NR_NO_KEY, nr_choose_id(&writer, 0, &chosen));
  WANTS(NR_NOTHING, nr_uses_id(&writer, 1));
  WANTS(NR_NOTHING, nr_choose_id(&writer, 9, &chosen));
  if (chosen != 55) WANTS(NR_NOTHING, NR_DONE);
  for (uint64_t id = 1; id < 9; id++) {
    upquery = admitted(&writer, &reader, id);
    WANTS(NR_DONE, nr_fill_id(&writer, &upquery, ORDERS, 1));
  }
  for (uint64_t id = 1; id < 9; id++) {
    WANTS(NR_NOTHING, nr_uses_id(&writer, id));
    if (id != 3) WANTS(NR_ROWS, nr_find_id(&reader, id, &rows));
  }
  WANTS(NR_DONE, nr_uses_id(&writer, 5));
  WANTS(NR_NOTHING, nr_uses_id(&writer, 5));
  WANTS(NR_ROWS, nr_find_id(&reader, 5, &rows));
  /* The one that nobody found. */
  WANTS(NR_DONE, nr_choose_id(&writer, 9, &chosen));
  if (chosen != 3) WANTS(NR_DONE, NR_OTHER);
  WANTS(NR_EVICTED, nr_evict_id(&writer, chosen));
  upquery = admitted(&writer, &reader, 9);
  WANTS(NR_DONE, nr_fill_id(&writer, &upquery, ORDERS, 1));
  nr_close_id_reader(&reader);
  nr_close_id_writer(&writer);
}

/* Where each way of a group is asked no choice makes room, and says so, until an upquery ends. */
static void test_all_asked(void) {
  enum { WAYS = 8 };
  const nr_id_shape shape = {.groups = 1, .slots = 11, .readers = 1, .rows = 1};
  nr_id_writer writer = {0};
  nr_id_reader reader = {0};
  nr_upquery upqueries[WAYS + 1];
  uint64_t chosen = 55;
  WANTS(NR_DONE, nr_open_ids(&shape, &writer));
  WANTS(NR_DONE, nr_open_id_reader(&writer, &reader));
  for (uint64_t id = 1; id < WAYS; id++) upqueries[id] = admitted(&writer, &reader, id);
  if (nr_choose_id(&writer, 9, &chosen) == NR_ALL_ASKED) WANTS(NR_DONE, NR_ALL_ASKED);
  chosen = 55;
  upqueries[WAYS] = admitted(&writer, &reader, WAYS);
  WANTS(NR_SEND, nr_request_id(&reader, 9));
  WANTS(NR_FULL, nr_admit(&writer, 9, &upqueries[0]));
  WANTS(NR_ALL_ASKED, nr_choose_id(&writer, 9, &chosen));
  if (chosen != 55) WANTS(NR_ALL_ASKED, NR_DONE);
  /* One is filled: of eight choices one can be evicted. */
  WANTS(NR_DONE, nr_fill_id(&writer, &upqueries[5], ORDERS, 1));
  int choices = 0;
  do WANTS(NR_DONE, nr_choose_id(&writer, 9, &chosen));
  while (nr_evict_id(&writer, chosen) == NR_NOTHING && ++choices < WAYS);
  if (chosen != 5) WANTS(NR_DONE, NR_OTHER);
  WANTS(NR_SEND, nr_admit(&writer, 9, &upqueries[0]));
  WANTS(NR_ALL_ASKED, nr_choose_id(&writer, 10, &chosen));
  WANTS(NR_CANCELLED, nr_withdraw_id(&writer, &upqueries[3]));
  if (nr_choose_id(&writer, 10, &chosen) == NR_ALL_ASKED) WANTS(NR_DONE, NR_ALL_ASKED);
  nr_close_id_reader(&reader);
  nr_close_id_writer(&writer);
}

/* A map refuses what another of the same shape asked, and takes its own. */
static void test_strangers(void) {
  const nr_id_shape shape = {.groups = 1, .slots = 11, .readers = 1, .rows = 1};
  nr_id_writer writers[2] = {{0}, {0}};
  nr_id_reader readers[2] = {{0}, {0}};
  nr_upquery upqueries[2];
  nr_rows had = {.count = 77};
  for (int map = 0; map < 2; map++) {
    WANTS(NR_DONE, nr_open_ids(&shape, &writers[map]));
    WANTS(NR_DONE, nr_open_id_reader(&writers[map], &readers[map]));
    upqueries[map] = admitted(&writers[map], &readers[map], USER);
  }
  for (int map = 0; map < 2; map++) {
    WANTS(NR_STRANGER, nr_fill_id(&writers[map], &upqueries[1 - map], ORDERS, 1));
    WANTS(NR_STRANGER, nr_fill_id_reclaiming(&writers[map], &upqueries[1 - map], ORDERS, 1, &had));
    WANTS(NR_STRANGER, nr_withdraw_id(&writers[map], &upqueries[1 - map]));
    WANTS(NR_ASKED, nr_find_id(&readers[map], USER, &rows));
  }
  if (had.count != 77) WANTS(NR_STRANGER, NR_GIVEN);
  for (int map = 0; map < 2; map++) {
    WANTS(NR_DONE, nr_fill_id(&writers[map], &upqueries[map], ORDERS, 1));
    nr_close_id_reader(&readers[map]);
    nr_close_id_writer(&writers[map]);
  }
  /* Nor does a map that lies where a closed one lay. */
  WANTS(NR_DONE, nr_open_ids(&shape, &writers[0]));
  WANTS(NR_DONE, nr_open_id_reader(&writers[0], &readers[0]));
  upqueries[1] = admitted(&writers[0], &readers[0], USER);
  WANTS(NR_STRANGER, nr_fill_id(&writers[0], &upqueries[0], ORDERS, 1));
  WANTS(NR_DONE, nr_fill_id(&writers[0], &upqueries[1], ORDERS, 1));
  nr_close_id_reader(&readers[0]);
  nr_close_id_writer(&writers[0]);
}

static void test_closed(nr_id_writer *writer, nr_id_reader *reader) {
  nr_upquery upquery = {0};
  nr_id_reader other = {0};
  nr_wanted_id wanted = {.id = USER};
  nr_row row;
  uint32_t count;
  uint64_t chosen;
  WANTS(NR_CLOSED, nr_find_each_id(reader, &wanted, 1));
  nr_found_id found = {.id = USER};
  WANTS(NR_CLOSED, nr_find_each_rows_id(reader, &found, 1, &row, 1));
  WANTS(NR_CLOSED, nr_find_each_rows_id(NULL, &found, 1, &row, 1));
  WANTS(NR_CLOSED, nr_pin_id(reader, USER, &count));
  WANTS(NR_CLOSED, nr_pin_row_id(reader, USER, &row));
  WANTS(NR_CLOSED, nr_find_kept_id(reader, USER, &rows));
  WANTS(NR_CLOSED, nr_row_at_id(reader, 0, &row));
  WANTS(NR_CLOSED, nr_copy_id(reader, &rows));
  WANTS(NR_CLOSED, nr_again_id(reader, USER));
  WANTS(NR_CLOSED, nr_release_id(reader));
  WANTS(NR_CLOSED, nr_uses_id(writer, USER));
  WANTS(NR_CLOSED, nr_choose_id(writer, USER, &chosen));
  WANTS(NR_CLOSED, nr_open_id_reader(writer, &other));
  WANTS(NR_CLOSED, nr_find_id(reader, USER, &rows));
  WANTS(NR_CLOSED, nr_request_id(reader, USER));
  WANTS(NR_CLOSED, nr_look_id(writer, USER, &rows));
  WANTS(NR_CLOSED, nr_admit(writer, USER, &upquery));
  WANTS(NR_CLOSED, nr_fill_id(writer, &upquery, ORDERS, 1));
  WANTS(NR_CLOSED, nr_withdraw_id(writer, &upquery));
  WANTS(NR_CLOSED, nr_replace_id(writer, USER, ORDERS, 1));
  WANTS(NR_CLOSED, nr_evict_id(writer, USER));
  WANTS(NR_CLOSED, nr_invalidate_id(writer, USER));
  WANTS(NR_CLOSED, nr_update_id_reclaiming(writer, USER, NULL, 0, &rows));
  WANTS(NR_CLOSED, nr_reap_id(writer, &rows));
  nr_close_id_reader(reader);
  nr_close_id_writer(writer);
}

/* Where there are few slots a fill may lack one, and its upquery stays open. */
static void test_slots(void) {
  const nr_id_shape few = {.groups = 4, .slots = 1, .readers = 1, .rows = 3, .first_number = 4194303};
  nr_id_writer writer = {0};
  nr_id_reader reader = {0};
  WANTS(NR_DONE, nr_open_ids(&few, &writer));
  WANTS(NR_DONE, nr_open_id_reader(&writer, &reader));
  nr_upquery one = admitted(&writer, &reader, 1), two = admitted(&writer, &reader, 2);
  WANTS(NR_DONE, nr_fill_id(&writer, &one, ORDERS, 1));
  WANTS(NR_ALL_FILLED, nr_fill_id(&writer, &two, ORDERS, 1));
  WANTS(NR_WORN, nr_withdraw_id(&writer, &two));
  WANTS(NR_WORN, nr_invalidate_id(&writer, 2));
  WANTS(NR_EVICTED, nr_evict_id(&writer, 1));
  WANTS(NR_DONE, nr_fill_id(&writer, &two, ORDERS, 1));
  nr_close_id_writer(&writer);
  WANTS(NR_ROWS, nr_find_id(&reader, 2, &rows));
  nr_close_id_reader(&reader);
}

/* Waits for an id, as a reader does that doesn't sleep: requests it and finds again. */
static void *wait_for_user(void *reader) {
  static nr_rows found;
  for (;;) {
    uint32_t answer = nr_find_id(reader, USER, &found);
    if (answer == NR_ROWS || answer == NR_CLOSED) return (void *)(uintptr_t)answer;
    nr_request_id(reader, USER);
    sched_yield();
  }
}

/* Once the writer is closed a reader finds what is there still, and is told of it by all else. */
static void test_closed_writer(void) {
  const nr_id_shape shape = {.groups = 4, .slots = 40, .readers = 2, .rows = 3};
  nr_wanted_id wanted[] = {{.id = 1}, {.id = 2}, {.id = 3}};
  nr_id_writer writer = {0}, other_writer = {0};
  nr_id_reader reader = {0}, waiting = {0}, other = {0};
  nr_row row = {5, 5};
  uint32_t count = 77;
  pthread_t thread;
  void *answer;
  WANTS(NR_DONE, nr_open_ids(&shape, &writer));
  WANTS(NR_DONE, nr_open_id_reader(&writer, &reader));
  WANTS(NR_DONE, nr_open_id_reader(&writer, &waiting));
  WANTS(NR_DONE, nr_open_ids(&shape, &other_writer));
  WANTS(NR_DONE, nr_open_id_reader(&other_writer, &other));
  nr_upquery upquery = admitted(&writer, &reader, 1);
  WANTS(NR_DONE, nr_fill_id(&writer, &upquery, ORDERS, 2));
  admitted(&writer, &reader, 2);
  WANTS(NR_HOLE, nr_find_id(&reader, 3, &rows));
  WANTS(NR_HOLE, nr_pin_row_id(&reader, 3, &row));
  if (pthread_create(&thread, NULL, wait_for_user, &waiting)) WANTS(NR_DONE, NR_NO_MEMORY);
  while (nr_admit(&writer, USER, &upquery) != NR_SEND) sched_yield();
  nr_close_id_writer(&writer);
  pthread_join(thread, &answer);
  wants(NR_CLOSED, (uint32_t)(uintptr_t)answer, "a wait for an id whose map was closed");
  rows.count = 99;
  WANTS(NR_CLOSED, nr_find_id(&reader, 2, &rows));
  WANTS(NR_CLOSED, nr_find_id(&reader, 3, &rows));
  WANTS(NR_CLOSED, nr_find_kept_id(&reader, 2, &rows));
  WANTS(NR_CLOSED, nr_pin_id(&reader, 3, &count));
  WANTS(NR_CLOSED, nr_pin_row_id(&reader, 2, &row));
  if (count != 77 || rows.count != 99 || row.a != 5) WANTS(NR_CLOSED, NR_ROWS);
  for (uint64_t id = 1; id < 4; id++) WANTS(NR_CLOSED, nr_request_id(&reader, id));
  WANTS(NR_NO_KEY, nr_request_id(&reader, 0));
  WANTS(NR_DONE, nr_find_each_id(&reader, wanted, 3));
  for (int i = 0; i < 3; i++) WANTS(i ? NR_CLOSED : NR_ROWS, wanted[i].answer);
  nr_found_id found[] = {{.id = 1}, {.id = 2}, {.id = 3}};
  nr_row each[3];
  WANTS(NR_DONE, nr_find_each_rows_id(&reader, found, 3, each, 3));
  for (int i = 0; i < 3; i++) WANTS(i ? NR_CLOSED : NR_ROWS, found[i].answer);
  WANTS(NR_ROWS, nr_find_id(&reader, 1, &rows));
  has(&rows, 2, 2);
  WANTS(NR_ROWS, nr_pin_row_id(&reader, 1, &row));
  if (row.a != 1 || row.b != 5) WANTS(NR_ROWS, NR_OTHER);
  WANTS(NR_ROWS, nr_again_id(&reader, 1));
  WANTS(NR_OTHER, nr_again_id(&reader, 2));
  WANTS(NR_ROWS, nr_find_kept_id(&reader, 1, &rows));
  /* Another map's readers aren't told. */
  WANTS(NR_HOLE, nr_find_id(&other, 3, &rows));
  WANTS(NR_SEND, nr_request_id(&other, 3));
  nr_close_id_reader(&reader);
  nr_close_id_reader(&waiting);
  nr_close_id_reader(&other);
  nr_close_id_writer(&other_writer);
}

int main(void) {
  const nr_id_shape shape = {.groups = 2, .slots = 2 * 8 + 1 + 2, .readers = 1, .rows = 3, .key = 0x9e3779b97f4a7c15};
  const nr_id_shape none = {.groups = 0, .slots = 1, .readers = 1, .rows = 1};
  nr_id_writer writer = {0};
  nr_id_reader reader = {0}, second = {0};
  test_closed(&writer, &reader);
  test_closed(NULL, NULL);
  WANTS(NR_BAD_SIZE, nr_open_ids(&none, &writer));
  WANTS(NR_DONE, nr_open_ids(&shape, &writer));
  WANTS(NR_LIVE, nr_open_ids(&shape, &writer));
  WANTS(NR_DONE, nr_open_id_reader(&writer, &reader));
  WANTS(NR_LIVE, nr_open_id_reader(&writer, &reader));
  WANTS(NR_NO_READER, nr_open_id_reader(&writer, &second));
  test_life(&writer, &reader);
  test_twice(&writer, &reader);
  test_invalidation(&writer, &reader);
  test_refusals(&writer, &reader);
  test_full(&shape, &writer, &reader);
  nr_close_id_reader(&reader);
  nr_close_id_writer(&writer);
  test_closed(&writer, &reader);
  test_slots();
  test_closed_writer();
  test_each();
  test_choices();
  test_all_asked();
  test_strangers();
  const nr_id_shape two = {.groups = 1, .slots = 2, .readers = 1, .rows = 3};
  WANTS(NR_DONE, nr_open_ids(&two, &writer));
  WANTS(NR_DONE, nr_open_id_reader(&writer, &reader));
  test_reclaiming(&writer, &reader);
  nr_close_id_reader(&reader);
  nr_close_id_writer(&writer);
  const nr_id_shape few = {.groups = 4, .slots = 3, .readers = 1, .rows = 3};
  WANTS(NR_DONE, nr_open_ids(&few, &writer));
  WANTS(NR_DONE, nr_open_id_reader(&writer, &reader));
  test_holding(&writer, &reader);
  nr_close_id_reader(&reader);
  nr_close_id_writer(&writer);
  puts("an id was claimed once for each absence");
  return 0;
}
