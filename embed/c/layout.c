/* The values of nr.h as they lie in memory: what a C compiler makes of them, and then, by calls that tell each
   field from the others, that the library reads and writes the same. The numbers of the answers come from the
   definitions that the library was proved with (embed/test makes answers.h of them). */
#include "../../include/nr.h"
#include "answers.h"
#include <stdio.h>
#include <stdlib.h>
#include <string.h>

#define LIES(type, field, at) _Static_assert(offsetof(type, field) == (at), #type "." #field)
#define TAKES(type, bytes) _Static_assert(sizeof(type) == (bytes), #type)

TAKES(nr_row, 16);
LIES(nr_row, a, 0);
LIES(nr_row, b, 8);
TAKES(nr_rows, 8 + 255 * 16);
LIES(nr_rows, count, 0);
LIES(nr_rows, row, 8);
TAKES(nr_wanted, 8 + 8 + 255 * 16);
LIES(nr_wanted, key, 0);
LIES(nr_wanted, answer, 4);
LIES(nr_wanted, rows, 8);
TAKES(nr_found, 12);
LIES(nr_found, key, 0);
LIES(nr_found, answer, 4);
LIES(nr_found, count, 8);
TAKES(nr_delta, 24);
LIES(nr_delta, row, 0);
LIES(nr_delta, plus, 16);
TAKES(nr_shape, 32);
LIES(nr_shape, keys, 0);
LIES(nr_shape, slots, 4);
LIES(nr_shape, readers, 8);
LIES(nr_shape, rows, 12);
LIES(nr_shape, first_count, 16);
LIES(nr_shape, first_number, 24);
TAKES(nr_size, 16);
LIES(nr_size, keys, 0);
LIES(nr_size, slots, 4);
LIES(nr_size, readers, 8);
LIES(nr_size, rows, 12);
TAKES(nr_slots, 12);
LIES(nr_slots, filled, 0);
LIES(nr_slots, retired, 4);
LIES(nr_slots, free, 8);
TAKES(nr_writer, 8);
TAKES(nr_reader, 8);
TAKES(nr_remains, 8);
TAKES(nr_taker, 8);
TAKES(nr_poster, 8);
TAKES(nr_id_shape, 32);
LIES(nr_id_shape, groups, 0);
LIES(nr_id_shape, slots, 4);
LIES(nr_id_shape, readers, 8);
LIES(nr_id_shape, rows, 12);
LIES(nr_id_shape, key, 16);
LIES(nr_id_shape, first_number, 24);
TAKES(nr_upquery, 40);
LIES(nr_upquery, id, 0);
LIES(nr_upquery, number, 8);
LIES(nr_upquery, way, 16);
LIES(nr_upquery, count, 24);
LIES(nr_upquery, map, 32);
TAKES(nr_id_writer, 8);
TAKES(nr_id_reader, 8);
TAKES(nr_wanted_id, 8 + 8 + 8 + 255 * 16);
LIES(nr_wanted_id, id, 0);
LIES(nr_wanted_id, answer, 8);
LIES(nr_wanted_id, rows, 16);
TAKES(nr_found_id, 16);
LIES(nr_found_id, id, 0);
LIES(nr_found_id, answer, 8);
LIES(nr_found_id, count, 12);
TAKES(nr_cache_shape, 40);
LIES(nr_cache_shape, groups, 0);
LIES(nr_cache_shape, capacity, 4);
LIES(nr_cache_shape, readers, 8);
LIES(nr_cache_shape, flights, 12);
LIES(nr_cache_shape, changes, 16);
LIES(nr_cache_shape, weight, 24);
LIES(nr_cache_shape, key, 32);
TAKES(nr_cache, 8);
TAKES(nr_cache_reader, 8);
TAKES(nr_cache_value, 16);
LIES(nr_cache_value, stamp, 0);
LIES(nr_cache_value, value, 8);
TAKES(nr_cache_counts, 32);
LIES(nr_cache_counts, values, 0);
LIES(nr_cache_counts, weight, 8);
LIES(nr_cache_counts, flights, 16);
LIES(nr_cache_counts, changes, 24);
TAKES(nr_flight, 16);
LIES(nr_flight, number, 0);
LIES(nr_flight, mark, 8);
TAKES(nr_given, 24);
LIES(nr_given, id, 0);
LIES(nr_given, stamp, 8);
LIES(nr_given, value, 16);

static void wants(const char *what, uint64_t wanted, uint64_t got) {
  if (wanted == got) return;
  fprintf(stderr, "layout: %s: wanted %llu, got %llu\n", what, (unsigned long long)wanted, (unsigned long long)got);
  exit(1);
}

/* The library's own sizes are those of this compiler. */
static void test_struct_sizes(void) {
  const size_t sizes[] = {sizeof(nr_row), sizeof(nr_rows), sizeof(nr_wanted), sizeof(nr_delta), sizeof(nr_shape),
    sizeof(nr_size), sizeof(nr_slots), sizeof(nr_writer), sizeof(nr_reader), sizeof(nr_remains), sizeof(nr_taker),
    sizeof(nr_poster), sizeof(nr_id_shape), sizeof(nr_upquery), sizeof(nr_id_writer), sizeof(nr_id_reader),
    sizeof(nr_wanted_id), sizeof(nr_cache_shape), sizeof(nr_cache), sizeof(nr_cache_reader), sizeof(nr_cache_value),
    sizeof(nr_cache_counts), sizeof(nr_flight), sizeof(nr_given), sizeof(nr_found), sizeof(nr_found_id)};
  const uint32_t structs = sizeof sizes / sizeof sizes[0];
  for (uint32_t place = 0; place < structs; place++) wants("a struct's size", sizes[place], nr_struct_size(place));
  wants("no struct's size", 0, nr_struct_size(structs));
  wants("no struct's size at the last place", 0, nr_struct_size(UINT32_MAX));
}

static uint32_t opens(nr_shape shape) {
  nr_writer writer = {0};
  uint32_t answer = nr_open(&shape, &writer);
  if (answer == NR_DONE) nr_close_writer(&writer);
  return answer;
}

/* Each field of a shape at its own limit, which no other field may have. */
static void test_shape(void) {
  const nr_shape least = {1, 1, 1, 1, 0, 0};
  wants("the least sizes", NR_DONE, opens(least));
  nr_shape shape = least;
  shape.keys = 65536;
  wants("the most keys of few slots", NR_DONE, opens(shape));
  shape.keys = 65537;
  wants("a key more, of few slots", NR_DONE, opens(shape));
  shape.keys = 1000000;
  wants("a million keys of few slots", NR_DONE, opens(shape));
  shape = least;
  shape.slots = 4194303;
  wants("the most slots", NR_DONE, opens(shape));
  shape.keys = 4194303;
  wants("as many keys", NR_DONE, opens(shape));
  shape.slots = 4194304;
  wants("a slot too many", NR_BAD_SIZE, opens(shape));
  shape = least;
  shape.readers = 65535;
  wants("the most readers", NR_DONE, opens(shape));
  shape.readers = 65536;
  wants("a reader too many", NR_BAD_SIZE, opens(shape));
  shape = least;
  shape.rows = 255;
  wants("the most rows", NR_DONE, opens(shape));
  shape.rows = 256;
  wants("a row too many", NR_BAD_SIZE, opens(shape));
  shape = least;
  shape.first_count = UINT64_MAX;
  wants("the last count", NR_DONE, opens(shape));
  shape.first_number = 4194304;
  wants("a number too high", NR_BAD_SIZE, opens(shape));
}

/* Four sizes of which none is another, told back each in its place. */
static void test_sizes(nr_reader *reader) {
  nr_size sizes;
  memset(&sizes, 0xff, sizeof sizes);
  wants("sizes", NR_DONE, nr_sizes(reader, &sizes));
  wants("keys", 3, sizes.keys);
  wants("slots", 5, sizes.slots);
  wants("readers", 2, sizes.readers);
  wants("rows", 4, sizes.rows);
}

/* Three counts of which none is another: a replacement takes a fourth slot of six, and retires its key's old one. */
static void test_slots(void) {
  const nr_shape shape = {3, 6, 1, 1, 0, 0};
  const nr_row row = {1, 1};
  nr_writer writer = {0};
  nr_reader reader = {0};
  nr_slots slots;
  wants("a map of six slots", NR_DONE, nr_open(&shape, &writer));
  wants("its reader", NR_DONE, nr_open_reader(&writer, &reader));
  for (uint32_t key = 0; key < 3; key++) {
    uint64_t number;
    wants("a request", NR_SEND, nr_ask(&reader, key, &number));
    wants("a fill", NR_DONE, nr_fill(&writer, key, number, &row, 1));
  }
  wants("a replacement", NR_DONE, nr_replace(&writer, 0, &row, 1));
  memset(&slots, 0xff, sizeof slots);
  wants("the slots", NR_DONE, nr_stats(&writer, &slots));
  wants("those of filled keys", 3, slots.filled);
  wants("the retired ones", 1, slots.retired);
  wants("the free ones", 2, slots.free);
  nr_close_reader(&reader);
  nr_close_writer(&writer);
}

/* Rows and signed rows come and go with their fields where they were. */
static void test_rows(nr_writer *writer, nr_reader *reader) {
  uint64_t number = 0;
  uint32_t count = 0;
  nr_row rows[5] = {{1, 9}, {2, 7}, {2, 8}, {3, 6}, {4, 5}}, row;
  nr_delta batch[2] = {{{2, 8}, false}, {{5, 4}, true}};
  nr_rows found;
  memset(&found, 0xff, sizeof found);
  wants("a request", NR_SEND, nr_ask(reader, 2, &number));
  wants("its number", 7, number);
  wants("a fill of a row too many", NR_TOO_MANY, nr_fill(writer, 2, 7, rows, 5));
  wants("a fill", NR_DONE, nr_fill(writer, 2, 7, rows, 4));
  wants("an update", NR_DONE, nr_update(writer, 2, batch, 2));
  const nr_row left[4] = {{1, 9}, {2, 7}, {3, 6}, {5, 4}};
  wants("a find", NR_ROWS, nr_find(reader, 2, &found));
  wants("how many it found", 4, found.count);
  wants("the rows that it found", 0, (uint64_t)memcmp(found.row, left, sizeof left));
  for (size_t byte = sizeof left; byte < sizeof found.row; byte++)
    wants("a cell that is not in use", 0xff, ((const unsigned char *)found.row)[byte]);
  wants("a pin", NR_ROWS, nr_pin(reader, 2, &count));
  wants("how many it holds", 4, count);
  wants("a held row", NR_ROWS, nr_row_at(reader, 3, &row));
  wants("its first number", 5, row.a);
  wants("its second number", 4, row.b);
  nr_release(reader);
}

/* The one slot of a map is held by a reader until that is closed. */
static void test_closing(void) {
  const nr_shape shape = {1, 1, 2, 1, 0, 0};
  nr_writer writer = {0};
  nr_reader holder = {0}, other = {0};
  nr_row row = {1, 1};
  uint64_t number = 0;
  uint32_t count = 0;
  wants("a map of one slot", NR_DONE, nr_open(&shape, &writer));
  wants("who holds", NR_DONE, nr_open_reader(&writer, &holder));
  wants("who asks", NR_DONE, nr_open_reader(&writer, &other));
  wants("a request", NR_SEND, nr_ask(&other, 0, &number));
  wants("a fill", NR_DONE, nr_fill(&writer, 0, number, &row, 1));
  wants("a pin", NR_ROWS, nr_pin(&holder, 0, &count));
  wants("an eviction", NR_EVICTED, nr_evict(&writer, 0));
  wants("a second request", NR_SEND, nr_ask(&other, 0, &number));
  wants("a fill while the slot is held", NR_NO_SLOT, nr_fill(&writer, 0, number, &row, 1));
  nr_close_reader(&holder);
  wants("a fill once its holder is closed", NR_DONE, nr_fill(&writer, 0, number, &row, 1));
  nr_close_reader(&other);
  nr_close_writer(&writer);
}

/* Each answer has words of its own, and the library is of this header's version. */
static void test_words(void) {
  const uint32_t answers = NR_OWN + 1;
  for (uint32_t one = 0; one < answers; one++)
    for (uint32_t other = one + 1; other <= answers; other++)
      wants("two answers in the same words", 1, strcmp(nr_strerror(one), nr_strerror(other)) != 0);
  wants("words of no answer", 0, (uint64_t)strcmp(nr_strerror(answers), nr_strerror(UINT32_MAX)));
  wants("the version", NR_VERSION, nr_version());
}

int main(void) {
  test_words();
  test_struct_sizes();
  test_shape();
  test_closing();
  test_slots();
  nr_shape shape = {3, 5, 2, 4, 11, 7};
  nr_writer writer = {0};
  nr_reader reader = {0}, second = {0}, third = {0};
  wants("an opening", NR_DONE, nr_open(&shape, &writer));
  wants("a reader", NR_DONE, nr_open_reader(&writer, &reader));
  wants("a second reader", NR_DONE, nr_open_reader(&writer, &second));
  wants("a third reader", NR_NO_READER, nr_open_reader(&writer, &third));
  uint64_t number = 0;
  wants("a number", NR_DONE, nr_number(&writer, 2, &number));
  wants("the first number", 7, number);
  test_sizes(&reader);
  test_rows(&writer, &reader);
  nr_close_reader(&reader);
  nr_close_reader(&second);
  nr_close_writer(&writer);
  puts("each field lies where the library has it");
  return 0;
}
