/* Two readers and a dataflow over one map. A reader that finds a key missing requests it; the first to do so posts the key
   with its number, and the dataflow takes it and fills it. */
#include "../../include/nr.h"
#include <pthread.h>
#include <sched.h>
#include <stdatomic.h>
#include <stdio.h>
#include <stdlib.h>

enum { KEYS = 1000, READERS = 2 };

typedef struct {
  nr_reader reader;
  nr_poster poster;
} client;

static atomic_int done;

static void stop(const char *why) {
  fprintf(stderr, "demo: %s\n", why);
  exit(1);
}

/* Gets each key once: its rows are the key and its square, and the key and its cube. */
static void *reads(void *given) {
  client *own = given;
  nr_reader *reader = &own->reader;
  static _Thread_local nr_rows rows;
  for (uint32_t key = 0; key < KEYS; key++) {
    while (nr_find(reader, key, &rows) == NR_HOLE) {
      uint64_t number;
      if (nr_ask(reader, key, &number) == NR_SEND)
        while (nr_post(&own->poster, key, number) != NR_DONE) sched_yield();
      sched_yield();
    }
    uint64_t k = key, cube = k * k * k;
    if (rows.count != 2 || rows.row[0].a != k || rows.row[1].a != k || rows.row[0].b != k * k || rows.row[1].b != cube)
      stop("other rows than were filled");
  }
  uint32_t count;
  nr_row row;
  if (nr_pin(reader, 7, &count) != NR_ROWS || count != 2) stop("a pin");
  if (nr_row_at(reader, 1, &row) != NR_ROWS || row.b != 343) stop("a row of a pin");
  if (nr_row_at(reader, 2, &row) != NR_NO_ROW) stop("a row behind the last");
  nr_release(reader);
  atomic_fetch_add(&done, 1);
  return NULL;
}

/* A queue that nobody else uses is first in first out, full at its capacity, and empty at the end. */
static void test_queue(nr_taker *taker, nr_poster *poster) {
  uint32_t key = 77;
  uint64_t number = 88;
  if (nr_take(taker, &key, &number) != NR_EMPTY || key != 77 || number != 88) stop("a take of nothing");
  for (uint32_t i = 0; i < KEYS; i++)
    if (nr_post(poster, i, i + 5) != NR_DONE) stop("a post");
  if (nr_post(poster, 1, 1) != NR_FULL) stop("a post too many");
  for (uint32_t i = 0; i < KEYS; i++)
    if (nr_take(taker, &key, &number) != NR_DONE || key != i || number != i + 5) stop("a take");
  if (nr_take(taker, &key, &number) != NR_EMPTY) stop("a take too many");
  nr_taker small = {0};
  if (nr_open_queue(KEYS, 0, 1, &small) != NR_BAD_SIZE) stop("a queue without room");
  if (nr_open_queue(KEYS, 1, 65536, &small) != NR_BAD_SIZE) stop("65,536 posters");
}

/* A reader that holds nothing keeps what it finds: it finds the same set again, another one after an update, another key's,
   and then a hole, at which it holds nothing. */
static void test_kept(nr_writer *writer, nr_reader *reader) {
  const nr_delta more = {{20, 20}, true};
  nr_rows rows;
  for (int turn = 0; turn < 2; turn++)
    if (nr_find_kept(reader, 20, &rows) != NR_ROWS || rows.count != 2 || rows.row[0].b != 400) stop("a find that is kept");
  if (nr_again(reader, 20) != NR_ROWS) stop("a set that was kept");
  if (nr_update(writer, 20, &more, 1) != NR_DONE) stop("an update of a set that is kept");
  if (nr_find_kept(reader, 20, &rows) != NR_ROWS || rows.count != 3 || rows.row[0].b != 20) stop("a kept find anew");
  if (nr_find_kept(reader, 21, &rows) != NR_ROWS || rows.count != 2 || rows.row[0].a != 21) stop("another key's kept find");
  rows.count = 0;
  if (nr_copy(reader, &rows) != NR_ROWS || rows.count != 2 || rows.row[1].b != 9261) stop("a copy of a kept set");
  nr_release(reader);
  if (nr_find_kept(reader, 21, &rows) != NR_ROWS || nr_evict(writer, 21) != NR_EVICTED) stop("an eviction of a kept set");
  rows.count = 99;
  if (nr_find_kept(reader, 21, &rows) != NR_HOLE || rows.count != 99) stop("a kept find of a hole");
  if (nr_find(reader, 20, &rows) != NR_ROWS || rows.count != 3) stop("a find after kept ones");
}

/* A key that the map hasn't is refused by each call of a reader, the writer and a poster, and nothing is told. */
static void test_no_key(nr_writer *writer, nr_reader *reader, nr_poster *poster, uint32_t key) {
  const nr_row row = {1, 1};
  const nr_delta more = {{1, 1}, true};
  static nr_rows rows;
  uint64_t number = 88;
  uint32_t count = 77;
  rows.count = 99;
  if (nr_find(reader, key, &rows) != NR_NO_KEY || nr_find_kept(reader, key, &rows) != NR_NO_KEY) stop("a find of no key");
  if (nr_ask(reader, key, &number) != NR_NO_KEY || nr_pin(reader, key, &count) != NR_NO_KEY) stop("a pin of no key");
  if (nr_look(writer, key, &rows) != NR_NO_KEY || nr_number(writer, key, &number) != NR_NO_KEY) stop("a look at no key");
  if (nr_fill(writer, key, 0, &row, 1) != NR_NO_KEY || nr_update(writer, key, &more, 1) != NR_NO_KEY) stop("rows of no key");
  if (nr_evict(writer, key) != NR_NO_KEY || nr_cancel(writer, key) != NR_NO_KEY) stop("an eviction of no key");
  if (nr_state(writer, key) != NR_NO_KEY || nr_post(poster, key, 0) != NR_NO_KEY) stop("a post of no key");
  if (nr_pin(reader, 3, &count) != NR_ROWS || count != 2 || nr_again(reader, key) != NR_NO_KEY) stop("again at no key");
  if (nr_again(reader, 3) != NR_ROWS) stop("a pin after keys that the map hasn't");
  if (nr_release(reader) != NR_DONE) stop("a release");
  if (rows.count != 99 || number != 88) stop("what no key told");
}

/* The calls of one thread, at the end. */
static void test_calls(nr_writer *writer, nr_reader *one) {
  nr_delta batch[2] = {{{7, 49}, false}, {{9, 9}, true}};
  nr_rows rows;
  if (nr_update(writer, 7, batch, 2) != NR_DONE || nr_update(writer, 7, batch, 2) != NR_NO_ROW) stop("an update");
  if (nr_update(writer, 7, batch, 0) != NR_BAD_BATCH) stop("a batch of none");
  if (nr_look(writer, 7, &rows) != NR_ROWS || rows.count != 2 || rows.row[1].a != 9) stop("a look");
  if (nr_evict(writer, 7) != NR_EVICTED || nr_evict(writer, 7) != NR_NOTHING) stop("an eviction");
  uint64_t number;
  if (nr_ask(one, 7, &number) != NR_SEND || number != 0) stop("a request");
  if (nr_cancel(writer, 7) != NR_CANCELLED || nr_state(writer, 7) != NR_HOLE) stop("a cancel");
  if (nr_number(writer, 7, &number) != NR_DONE || number != 1) stop("a number");
  if (nr_ask(one, 7, &number) != NR_SEND || number != 1) stop("a request after a cancel");
  nr_row apart[2] = {{2, 0}, {1, 0}};
  if (nr_fill(writer, 7, 0, apart, 1) != NR_STALE || nr_fill(writer, 7, 1, apart, 2) != NR_NOT_SORTED) stop("a late fill");
  uint32_t held;
  if (nr_pin(one, 8, &held) != NR_ROWS || held != 2) stop("a pin at the end");
  if (nr_again(one, 8) != NR_ROWS || nr_again(one, 9) != NR_OTHER) stop("a find again");
  if (nr_update(writer, 8, batch + 1, 1) != NR_DONE || nr_again(one, 8) != NR_OTHER) stop("a find again after an update");
  nr_size sizes;
  nr_sizes(one, &sizes);
  if (sizes.keys != KEYS || sizes.slots != KEYS + READERS + 1 || sizes.readers != READERS || sizes.rows != 15) stop("sizes");
}

/* The dataflow: fills what is requested until the readers are done; how often. */
static int fills(nr_writer *writer, nr_taker *taker) {
  int filled = 0;
  while (atomic_load(&done) < READERS) {
    uint32_t key;
    uint64_t number;
    if (nr_take(taker, &key, &number) != NR_DONE) {
      sched_yield();
      continue;
    }
    uint64_t k = key;
    nr_row rows[2] = {{k, k * k}, {k, k * k * k}};
    if (nr_fill(writer, key, number, rows, 2) != NR_DONE) stop("a fill");
    filled++;
  }
  return filled;
}

static void open_all(nr_writer *writer, nr_taker *taker, client *clients) {
  nr_shape shape = {KEYS, KEYS + READERS + 1, READERS, 256, 0, 0};
  if (nr_open(&shape, writer) != NR_BAD_SIZE) stop("256 rows");
  shape.rows = 15;
  if (nr_open(&shape, writer) != NR_DONE) stop("an opening");
  if (nr_open_queue(KEYS, KEYS, READERS, taker) != NR_DONE) stop("a queue");
  for (int i = 0; i < READERS; i++) {
    if (nr_open_reader(writer, &clients[i].reader) != NR_DONE) stop("a reader");
    if (nr_open_poster(taker, &clients[i].poster) != NR_DONE) stop("a poster");
  }
  nr_reader no_reader = {0};
  nr_poster no_poster = {0};
  if (nr_open_reader(writer, &no_reader) != NR_NO_READER) stop("one reader too many");
  if (nr_open_poster(taker, &no_poster) != NR_NO_POSTER) stop("one poster too many");
}

int main(void) {
  nr_writer writer = {0};
  nr_taker taker = {0};
  client clients[READERS] = {{{0}, {0}}, {{0}, {0}}};
  open_all(&writer, &taker, clients);
  pthread_t threads[READERS];
  for (int i = 0; i < READERS; i++)
    if (pthread_create(&threads[i], NULL, reads, &clients[i])) stop("a thread");
  if (fills(&writer, &taker) != KEYS) stop("not each key was filled once");
  for (int i = 0; i < READERS; i++) pthread_join(threads[i], NULL);
  test_queue(&taker, &clients[0].poster);
  test_kept(&writer, &clients[1].reader);
  test_no_key(&writer, &clients[1].reader, &clients[0].poster, KEYS);
  test_no_key(&writer, &clients[1].reader, &clients[0].poster, UINT32_MAX);
  uint32_t key = 0;
  uint64_t number = 0;
  if (nr_take(&taker, &key, &number) != NR_EMPTY) stop("a take of no key");
  test_calls(&writer, &clients[0].reader);
  for (int i = 0; i < READERS; i++) {
    nr_close_reader(&clients[i].reader);
    nr_close_poster(&clients[i].poster);
  }
  nr_close_writer(&writer);
  nr_close_taker(&taker);
  puts("each key was sent and filled once");
  return 0;
}
