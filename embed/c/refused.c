/* Each request for memory is refused in turn: the opening that made it answers NR_NO_MEMORY, leaves its handle empty,
   and does its work when it is called again. No other call asks for memory. Linked with --wrap for what the library
   asks by. */
#include "../../include/nr.h"
#include <errno.h>
#include <stdio.h>
#include <stdlib.h>

/* How many requests are granted before one is refused. */
static long grants = -1;
static long requests;

void *__real_malloc(size_t size);
void *__real_realloc(void *old, size_t size);
int __real_posix_memalign(void **at, size_t align, size_t size);
void *__wrap_malloc(size_t size);
void *__wrap_realloc(void *old, size_t size);
int __wrap_posix_memalign(void **at, size_t align, size_t size);

static bool is_refused(void) {
  requests++;
  return grants >= 0 && grants-- == 0;
}

void *__wrap_malloc(size_t size) {
  return is_refused() ? NULL : __real_malloc(size);
}

void *__wrap_realloc(void *old, size_t size) {
  return is_refused() ? NULL : __real_realloc(old, size);
}

int __wrap_posix_memalign(void **at, size_t align, size_t size) {
  return is_refused() ? ENOMEM : __real_posix_memalign(at, align, size);
}

static void want(bool is_so, const char *what) {
  if (is_so) return;
  fprintf(stderr, "refused: %s\n", what);
  exit(1);
}

static int refusals;

/* Whether an opening is to be made again. Its handle leads nowhere then. */
static bool again(uint32_t answer, void *const *at, const char *what) {
  want(answer == NR_DONE || answer == NR_NO_MEMORY, what);
  want((answer == NR_DONE) == (*at != NULL), "a handle that is live where its opening is done and nowhere else");
  refusals += answer == NR_NO_MEMORY;
  return answer == NR_NO_MEMORY;
}

/* Every call that opens nothing. */
static void call_all(nr_writer *writer, nr_reader *reader, nr_taker *taker, nr_poster *poster) {
  const nr_row rows[2] = {{1, 1}, {2, 2}};
  const nr_delta batch = {{3, 3}, true};
  static nr_rows found;
  nr_row row;
  nr_size sizes;
  uint64_t number;
  uint32_t key, count;
  want(nr_ask(reader, 1, &number) == NR_SEND, "a request");
  want(nr_post(poster, 1, number) == NR_DONE, "a post");
  want(nr_take(taker, &key, &number) == NR_DONE, "a take");
  want(nr_fill(writer, key, number, rows, 2) == NR_DONE, "a fill");
  want(nr_update(writer, key, &batch, 1) == NR_DONE, "an update");
  want(nr_look(writer, key, &found) == NR_ROWS && nr_state(writer, key) == NR_ROWS, "a look");
  want(nr_find(reader, key, &found) == NR_ROWS && found.count == 3, "a find");
  want(nr_replace(writer, key, rows, 1) == NR_DONE && nr_replace(writer, key, rows, 2) == NR_DONE, "a replacement");
  want(nr_update(writer, key, &batch, 1) == NR_DONE, "an update of what was replaced");
  static nr_wanted wanted;
  wanted.key = key;
  want(nr_find_each(reader, &wanted, 1) == NR_DONE && wanted.answer == NR_ROWS, "finds by one call");
  nr_found one = {.key = key};
  want(nr_find_each_rows(reader, &one, 1, &row, 1) == NR_DONE && one.count == 3, "finds by one call into rows");
  want(nr_pin(reader, key, &count) == NR_ROWS && nr_row_at(reader, 2, &row) == NR_ROWS, "a pin");
  want(nr_copy(reader, &found) == NR_ROWS && found.count == 3, "a copy of a held set");
  want(nr_again(reader, key) == NR_ROWS, "a find again");
  nr_release(reader);
  want(nr_find_kept(reader, key, &found) == NR_ROWS, "a find that is kept");
  nr_release(reader);
  want(nr_replace_reclaiming(writer, key, rows, 1, &found) == NR_DONE, "a replacement in a new slot");
  want(nr_update_reclaiming(writer, key, &batch, 1, &found) == NR_GIVEN && found.count == 2, "an update that gives out");
  want(nr_reap(writer, &found) == NR_GIVEN, "a reap");
  want(nr_evict(writer, key) == NR_EVICTED, "an eviction");
  want(nr_ask(reader, key, &number) == NR_SEND && nr_cancel(writer, key) == NR_CANCELLED, "a cancel");
  uint64_t next;
  want(nr_number(writer, key, &next) == NR_DONE && next == number + 1, "the number of the next request");
  want(nr_sizes(reader, &sizes) == NR_DONE, "the sizes");
  nr_slots slots;
  want(nr_stats(writer, &slots) == NR_DONE && slots.filled + slots.free == 0, "no slot that isn't retired");
  want(slots.retired == sizes.slots, "retired slots, of which one was reaped");
}

/* And those by id. */
static void call_ids(nr_id_writer *writer, nr_id_reader *reader) {
  const nr_row rows[2] = {{1, 1}, {2, 2}};
  const nr_delta batch = {{3, 3}, true};
  static nr_rows found;
  nr_upquery upquery;
  want(nr_request_id(reader, 1) == NR_SEND && nr_admit(writer, 1, &upquery) == NR_SEND, "an admission");
  want(nr_withdraw_id(writer, &upquery) == NR_CANCELLED, "a withdrawal");
  want(nr_request_id(reader, 1) == NR_SEND && nr_admit(writer, 1, &upquery) == NR_SEND, "a second admission");
  want(nr_fill_id(writer, &upquery, rows, 2) == NR_DONE, "a fill by id");
  want(nr_update_id(writer, 1, &batch, 1) == NR_DONE && nr_replace_id(writer, 1, rows, 1) == NR_DONE, "writes by id");
  want(nr_look_id(writer, 1, &found) == NR_ROWS && nr_find_id(reader, 1, &found) == NR_ROWS, "finds by id");
  static nr_wanted_id wanted;
  wanted.id = 1;
  want(nr_find_each_id(reader, &wanted, 1) == NR_DONE && wanted.answer == NR_ROWS, "finds by one call by id");
  nr_found_id one = {.id = 1};
  nr_row each[2];
  want(nr_find_each_rows_id(reader, &one, 1, each, 2) == NR_DONE && one.count == 1, "finds by id into rows");
  uint32_t count;
  uint64_t chosen;
  nr_row row;
  want(nr_pin_id(reader, 1, &count) == NR_ROWS && nr_row_at_id(reader, 0, &row) == NR_ROWS, "a pin by id");
  want(nr_copy_id(reader, &found) == NR_ROWS && nr_again_id(reader, 1) == NR_ROWS, "a held set by id");
  want(nr_release_id(reader) == NR_DONE && nr_pin_row_id(reader, 1, &row) == NR_ROWS, "a pin that tells a row");
  want(nr_find_kept_id(reader, 1, &found) == NR_ROWS && nr_release_id(reader) == NR_DONE, "a find by id that is kept");
  want(nr_uses_id(writer, 1) == NR_DONE, "a mark");
  nr_choose_id(writer, 1, &chosen);
  want(nr_replace_id_reclaiming(writer, 1, rows, 2, &found) == NR_DONE, "a replacement by id in a new slot");
  want(nr_reap_id(writer, &found) == NR_GIVEN, "a reap by id");
  want(nr_evict_id(writer, 1) == NR_EVICTED, "an eviction by id");
}

static void call_cache(nr_cache *cache, nr_cache_reader *reader) {
  nr_cache_value found;
  nr_flight flight;
  nr_given given;
  want(nr_cache_begin(cache, 1, 1, &flight) == NR_SEND, "a load");
  want(nr_cache_land(cache, flight.number, 1, 5, 1, 0, &given) == NR_DONE, "a landing");
  want(nr_cache_find(reader, 1, &found) == NR_ROWS && nr_cache_release(reader) == NR_DONE, "a find in a cache");
  want(nr_cache_put(cache, 1, 1, 6, 1, 0, &given) == NR_DONE && nr_cache_reap(cache, &given) == NR_GIVEN, "a put");
  want(nr_cache_begin_change(cache, 1) == NR_DONE && nr_cache_end_change(cache, 1) == NR_DONE, "a change");
  want(nr_cache_invalidate(cache, 1) == NR_EVICTED && nr_cache_reap(cache, &given) == NR_GIVEN, "an invalidation");
  want(nr_cache_begin(cache, 1, 1, &flight) == NR_SEND, "a second load");
  want(nr_cache_fail(cache, flight.number, &flight) == NR_DONE, "a load that fails");
}

/* All openings with one refusal, after that many grants; whether there was one. */
static bool refuse(long after) {
  const nr_shape shape = {3, 6, 2, 4, 0, 0};
  nr_writer writer = {0};
  nr_reader readers[2] = {{0}, {0}};
  nr_taker taker = {0};
  nr_poster poster = {0};
  const nr_id_shape ids = {2, 8, 1, 4, 0, 0};
  nr_id_writer id_writer = {0};
  nr_id_reader id_reader = {0};
  const nr_cache_shape cached = {2, 16, 1, 1, 1, 100, 0};
  nr_cache cache = {0};
  nr_cache_reader cache_reader = {0};
  refusals = 0;
  grants = after;
  while (again(nr_open(&shape, &writer), &writer.at, "a map")) {
  }
  for (int i = 0; i < 2; i++)
    while (again(nr_open_reader(&writer, &readers[i]), &readers[i].at, "a reader")) {
    }
  while (again(nr_open_queue(3, 3, 1, &taker), &taker.at, "a queue")) {
  }
  while (again(nr_open_poster(&taker, &poster), &poster.at, "a poster")) {
  }
  while (again(nr_open_ids(&ids, &id_writer), &id_writer.at, "a map over ids")) {
  }
  while (again(nr_open_id_reader(&id_writer, &id_reader), &id_reader.at, "a reader by id")) {
  }
  while (again(nr_open_cache(&cached, &cache), &cache.at, "a cache")) {
  }
  while (again(nr_open_cache_reader(&cache, &cache_reader), &cache_reader.at, "a reader of a cache")) {
  }
  want(refusals == (grants < 0), "one answer of no memory for one refusal");
  long before = requests;
  call_all(&writer, &readers[0], &taker, &poster);
  call_ids(&id_writer, &id_reader);
  call_cache(&cache, &cache_reader);
  want(nr_return_reader(&writer, &readers[1]) == NR_DONE, "a reader that is returned");
  want(nr_return_poster(&taker, &poster) == NR_DONE, "a poster that is returned");
  want(requests == before, "calls that ask for no memory");
  for (int i = 0; i < 2; i++) nr_close_reader(&readers[i]);
  nr_close_writer(&writer);
  nr_close_poster(&poster);
  nr_close_taker(&taker);
  nr_close_id_reader(&id_reader);
  nr_close_id_writer(&id_writer);
  nr_close_cache_reader(&cache_reader);
  nr_close_cache(&cache);
  return refusals;
}

int main(void) {
  long refused = 0;
  while (refuse(refused)) refused++;
  want(refused >= 7, "a request for memory by each opening");
  puts("each refused request for memory was told, and was made again");
  return 0;
}
