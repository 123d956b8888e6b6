/* Finds of many keys by one call give what finds of each give, in any order of the keys, with keys wanted twice and
   holes between: each key's own rows, in its own room, and the room of a hole as it was; and the same in one array for
   all keys' rows, of which each key has too few, as many as it needs, or more. The queue of a large map has
   room for the requests of all its keys. */
#include "../../include/nr.h"
#include <stdio.h>
#include <stdlib.h>
#include <string.h>

enum { KEYS = 100000, SEVERAL = 3, WANTED = 50 };

static void want(bool is_so, const char *what) {
  if (is_so) return;
  fprintf(stderr, "many: %s\n", what);
  exit(1);
}

/* A key has 0 to 3 rows, by its number, each of which names it; each third key is a hole. */
static bool is_hole(uint32_t key) {
  return key % 3 == 1;
}

static void fill_all(nr_writer *writer, nr_reader *reader, nr_poster *poster, nr_taker *taker) {
  uint32_t key;
  uint64_t number;
  for (key = 0; key < KEYS; key++) {
    want(nr_ask(reader, key, &number) == NR_SEND, "a request");
    want(nr_post(poster, key, number) == NR_DONE, "a post");
  }
  for (uint32_t next = 0; next < KEYS; next++) {
    want(nr_take(taker, &key, &number) == NR_DONE && key == next, "requests in their order");
    const nr_row rows[SEVERAL] = {{key, 0}, {key, 1}, {key, 2}};
    if (!is_hole(key)) want(nr_fill(writer, key, number, rows, key % 4) == NR_DONE, "a fill");
  }
  want(nr_take(taker, &key, &number) == NR_EMPTY, "no more requests than were posted");
}

/* Sets of that many keys, drawn, each fourth of which is the one before it. */
static void find(nr_reader *reader, size_t n, uint32_t *drawn) {
  static nr_wanted wanted[WANTED];
  for (size_t i = 0; i < n; i++) {
    *drawn = *drawn * 1664525 + 1013904223;
    wanted[i].key = i % 4 == 3 ? wanted[i - 1].key : (*drawn >> 8) % KEYS;
    wanted[i].answer = 66;
    wanted[i].rows.count = 99;
  }
  want(nr_find_each(reader, wanted, n) == NR_DONE, "finds of many keys");
  static nr_rows alone;
  for (size_t i = 0; i < n; i++) {
    const nr_wanted *one = &wanted[i];
    alone.count = 99;
    want(one->answer == (is_hole(one->key) ? NR_HOLE : NR_ROWS), "each answer beside its key");
    want(one->answer == nr_find(reader, one->key, &alone), "the answer of a find alone");
    want(one->rows.count == (is_hole(one->key) ? 99 : one->key % 4), "as many rows as the key has");
    if (is_hole(one->key)) continue;
    want(one->rows.count == alone.count, "as many rows as a find alone tells");
    want(!memcmp(one->rows.row, alone.row, alone.count * sizeof(nr_row)), "the rows of a find alone");
    for (uint64_t place = 0; place < alone.count; place++)
      want(one->rows.row[place].a == one->key && one->rows.row[place].b == place, "the key's own rows");
  }
}

/* The same into one array, whose last rows are too few for one more each. */
static void find_rows(nr_reader *reader, size_t n, size_t room, uint32_t *drawn) {
  enum { ROOM = SEVERAL + 2 };
  static nr_found found[WANTED];
  static nr_row rows[WANTED * ROOM];
  const nr_row before = {77, 78};
  const size_t all = n * room + (n ? n - 1 : 7);
  for (size_t at = 0; at < WANTED * ROOM; at++) rows[at] = before;
  for (size_t i = 0; i < n; i++) {
    *drawn = *drawn * 1664525 + 1013904223;
    found[i] = (nr_found){i % 4 == 3 ? found[i - 1].key : (*drawn >> 8) % KEYS, 66, 99};
  }
  want(nr_find_each_rows(reader, found, n, rows, all) == NR_DONE, "finds of many keys into one array");
  for (size_t i = 0; i < n; i++) {
    const uint32_t key = found[i].key, count = is_hole(key) ? 0 : key % 4;
    want(found[i].answer == (is_hole(key) ? NR_HOLE : NR_ROWS), "each answer beside its key, into one array");
    want(found[i].count == count, "how many rows the key has, however many its part takes");
    for (size_t place = 0; place < room; place++) {
      const nr_row wanted = place < count ? (nr_row){key, place} : before, *is = &rows[i * room + place];
      want(is->a == wanted.a && is->b == wanted.b, "the key's own rows in its part, and behind them what was there");
    }
  }
  for (size_t at = n * room; at < WANTED * ROOM; at++) want(rows[at].a == 77, "what is no key's part as it was");
}

int main(void) {
  const nr_shape shape = {KEYS, KEYS + 2, 1, SEVERAL, 0, 0};
  nr_writer writer = {0};
  nr_reader reader = {0};
  nr_taker taker = {0};
  nr_poster poster = {0};
  want(nr_open(&shape, &writer) == NR_DONE, "a map");
  want(nr_open_reader(&writer, &reader) == NR_DONE, "a reader");
  want(nr_open_queue(KEYS, KEYS, 1, &taker) == NR_DONE, "a queue for each key");
  want(nr_open_poster(&taker, &poster) == NR_DONE, "a poster");
  fill_all(&writer, &reader, &poster, &taker);
  uint32_t drawn = 1;
  for (size_t n = 0; n <= WANTED; n++)
    for (size_t round = 0; round < 20; round++) {
      find(&reader, n, &drawn);
      find_rows(&reader, n, round % (SEVERAL + 2), &drawn);
    }
  nr_close_reader(&reader);
  nr_close_writer(&writer);
  nr_close_poster(&poster);
  nr_close_taker(&taker);
  nr_taker other = {0};
  want(nr_open_queue(1, 4194303, 1, &other) == NR_DONE, "the largest queue");
  nr_close_taker(&other);
  want(nr_open_queue(1, 1, 65535, &other) == NR_DONE, "the most posters");
  nr_close_taker(&other);
  want(nr_open_queue(1, 4194304, 1, &other) == NR_BAD_SIZE, "a place too many");
  want(nr_open_queue(1, 1, 65536, &other) == NR_BAD_SIZE, "a poster too many");
  puts("finds of many keys gave what each gives alone");
  return 0;
}
