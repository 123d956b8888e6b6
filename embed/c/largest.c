/* The largest map and the largest queue open, in the memory that nr.h tells and little more; their last keys, readers
   and posters work. A map over ids takes what nr.h tells, too. Linked with --wrap for what the library asks by. */
#include "../../include/nr.h"
#include <stdio.h>
#include <stdlib.h>

enum { KEYS = 4194303, TOKENS = 65535, GROUPS = 20000, SLOTS = 10000, ROWS = 15, ID_READERS = 5000 };

/* How many bytes were asked for. */
static size_t asked;

void *__real_malloc(size_t size);
void *__real_realloc(void *old, size_t size);
int __real_posix_memalign(void **at, size_t align, size_t size);
void *__wrap_malloc(size_t size);
void *__wrap_realloc(void *old, size_t size);
int __wrap_posix_memalign(void **at, size_t align, size_t size);

void *__wrap_malloc(size_t size) {
  asked += size;
  return __real_malloc(size);
}

void *__wrap_realloc(void *old, size_t size) {
  asked += size;
  return __real_realloc(old, size);
}

int __wrap_posix_memalign(void **at, size_t align, size_t size) {
  asked += size;
  return __real_posix_memalign(at, align, size);
}

static void want(bool is_so, const char *what) {
  if (is_so) return;
  fprintf(stderr, "largest: %s\n", what);
  exit(1);
}

/* Since that count: at least so many bytes, and at most that many for each of the tokens beside them. */
static void took(size_t before, size_t bytes, size_t each, const char *what) {
  size_t taken = asked - before;
  if (taken >= bytes && taken <= bytes + each * TOKENS + 16384) return;
  fprintf(stderr, "largest: %s took %zu bytes, and not about %zu\n", what, taken, bytes);
  exit(1);
}

static void try_map(void) {
  const nr_shape shape = {KEYS, KEYS, TOKENS, 1, 0, 0};
  static nr_reader readers[TOKENS];
  static nr_rows rows;
  nr_writer writer = {0};
  size_t before = asked;
  want(nr_open(&shape, &writer) == NR_DONE, "the largest map");
  took(before, (size_t)KEYS * (2 * 8 + 8) + (size_t)KEYS * (2 * 32 + 19) + (size_t)TOKENS * 2 * 128, 16, "the largest map");
  before = asked;
  for (int i = 0; i < TOKENS; i++) want(nr_open_reader(&writer, &readers[i]) == NR_DONE, "a reader");
  took(before, TOKENS * sizeof(void *), 512, "its readers");
  nr_reader other = {0};
  want(nr_open_reader(&writer, &other) == NR_NO_READER, "a reader too many");
  uint64_t number;
  const nr_row row = {KEYS - 1, 7};
  want(nr_ask(&readers[TOKENS - 1], KEYS - 1, &number) == NR_SEND, "a request for the last key");
  want(nr_fill(&writer, KEYS - 1, number, &row, 1) == NR_DONE, "a fill of the last key");
  want(nr_find(&readers[0], KEYS - 1, &rows) == NR_ROWS && rows.count == 1 && rows.row[0].a == KEYS - 1, "the last key's row");
  want(nr_find(&readers[0], KEYS, &rows) == NR_NO_KEY, "the key after it");
  for (int i = 0; i < TOKENS; i++) nr_close_reader(&readers[i]);
  nr_close_writer(&writer);
}

/* Of what nr.h tells of a group 152 bytes are words, and of a slot all but 19, and of a reader 128. These are asked for
   again during the opening. */
static void try_ids(void) {
  const nr_id_shape shape = {GROUPS, SLOTS, ID_READERS, ROWS, 7, 0};
  static nr_id_reader readers[ID_READERS];
  const size_t slot = 16 * ROWS + 51, reader = 128 + 32, handle = 5592 - reader;
  nr_id_writer writer = {0};
  size_t before = asked;
  want(nr_open_ids(&shape, &writer) == NR_DONE, "a map over ids");
  took(before, GROUPS * (536 + 152) + SLOTS * (slot + slot - 19) + ID_READERS * (reader + 128), 0, "a map over ids");
  before = asked;
  for (int i = 0; i < ID_READERS; i++) want(nr_open_id_reader(&writer, &readers[i]) == NR_DONE, "a reader by id");
  took(before, ID_READERS * handle, 0, "its readers by id");
  for (int i = 0; i < ID_READERS; i++) nr_close_id_reader(&readers[i]);
  nr_close_id_writer(&writer);
}

static void try_queue(void) {
  static nr_poster posters[TOKENS];
  nr_taker taker = {0};
  size_t before = asked;
  want(nr_open_queue(UINT32_MAX, KEYS, TOKENS, &taker) == NR_DONE, "the largest queue");
  took(before, (size_t)KEYS * 2 * 48, 8, "the largest queue");
  before = asked;
  for (int i = 0; i < TOKENS; i++) want(nr_open_poster(&taker, &posters[i]) == NR_DONE, "a poster");
  took(before, TOKENS * sizeof(void *), 512, "its posters");
  nr_poster other = {0};
  want(nr_open_poster(&taker, &other) == NR_NO_POSTER, "a poster too many");
  for (uint32_t i = 0; i < KEYS; i++) want(nr_post(&posters[i % TOKENS], UINT32_MAX - 1 - i, i) == NR_DONE, "a post");
  want(nr_post(&posters[0], 0, 0) == NR_FULL, "a full queue");
  for (uint32_t i = 0; i < KEYS; i++) {
    uint32_t key;
    uint64_t number;
    want(nr_take(&taker, &key, &number) == NR_DONE && key == UINT32_MAX - 1 - i && number == i, "a take");
  }
  for (int i = 0; i < TOKENS; i++) nr_close_poster(&posters[i]);
  nr_close_taker(&taker);
}

int main(void) {
  try_map();
  try_ids();
  try_queue();
  puts("the largest map, a map over ids and the largest queue took the memory that they are to take");
  return 0;
}
