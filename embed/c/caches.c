/* A cache of numbers by ids: each function gives each of its answers, and what an answer leaves as it was stays. */
#include "../../include/nr.h"
#include <stdbool.h>
#include <stdio.h>
#include <stdlib.h>

#define WANTS(answer, call) wants(answer, call, #call)
#define IS(what) is(what, #what)

enum { USER = 7, OTHER = 8, HELD = 5 };

static nr_cache cache;
static nr_cache_reader reader, second;
static nr_cache_value found;
static nr_flight flight;
static nr_given given;

static void wants(uint32_t wanted, uint32_t got, const char *call) {
  if (wanted == got) return;
  fprintf(stderr, "caches: %s: wanted \"%s\", got \"%s\"\n", call, nr_strerror(wanted), nr_strerror(got));
  exit(1);
}

static void is(bool is_so, const char *what) {
  if (is_so) return;
  fprintf(stderr, "caches: not so: %s\n", what);
  exit(1);
}

static bool has(uint64_t id, uint64_t stamp, uint64_t value) {
  bool is_there = nr_cache_find(&reader, id, &found) == NR_ROWS && found.stamp == stamp && found.value == value;
  if (is_there) WANTS(NR_DONE, nr_cache_release(&reader));
  return is_there;
}

static bool lacks(uint64_t id) {
  found = (nr_cache_value){1, 2};
  return nr_cache_find(&reader, id, &found) == NR_HOLE && found.stamp == 1 && found.value == 2;
}

static bool came_out(uint64_t id, uint64_t stamp, uint64_t value) {
  return given.id == id && given.stamp == stamp && given.value == value;
}

/* The load of an id that has neither value nor load. */
static uint64_t begun(uint64_t id, uint64_t mark) {
  WANTS(NR_SEND, nr_cache_begin(&cache, id, mark, &flight));
  IS(flight.mark == mark);
  return flight.number;
}

static void test_miss(void) {
  IS(lacks(USER));
  uint64_t number = begun(USER, 55);
  flight = (nr_flight){0, 0};
  WANTS(NR_WAITING, nr_cache_begin(&cache, USER, 66, &flight));
  IS(flight.number == number && flight.mark == 55);
  given = (nr_given){1, 2, 3};
  WANTS(NR_DONE, nr_cache_land(&cache, number, 9, 100, 1, 0, &given));
  IS(came_out(1, 2, 3) && has(USER, 9, 100));
  flight = (nr_flight){3, 4};
  WANTS(NR_ROWS, nr_cache_begin(&cache, USER, 66, &flight));
  IS(flight.number == 3 && flight.mark == 4);
  /* It has landed. */
  WANTS(NR_OWN, nr_cache_land(&cache, number, 9, 101, 1, 0, &given));
  WANTS(NR_NOTHING, nr_cache_fail(&cache, number, &flight));
  IS(came_out(1, 2, 3) && flight.number == 3 && has(USER, 9, 100));
}

static void test_failure(void) {
  uint64_t number = begun(OTHER, 5);
  flight = (nr_flight){0, 0};
  WANTS(NR_DONE, nr_cache_fail(&cache, number, &flight));
  IS(flight.number == number && flight.mark == 5 && lacks(OTHER));
  IS(begun(OTHER, 6) == number + 1);
  WANTS(NR_DONE, nr_cache_fail(&cache, number + 1, &flight));
}

/* Before a close: each load ends, as they began, and tells by which mark its waiters wake. */
static void test_ends(void) {
  flight = (nr_flight){3, 4};
  WANTS(NR_NOTHING, nr_cache_fail_oldest(&cache, &flight));
  IS(flight.number == 3 && flight.mark == 4);
  uint64_t first = begun(USER + 100, 8), second = begun(OTHER + 100, 7);
  WANTS(NR_DONE, nr_cache_fail_oldest(&cache, &flight));
  IS(flight.number == first && flight.mark == 8);
  /* One that ended is passed, and one that began since comes last. */
  uint64_t third = begun(USER + 100, 6);
  WANTS(NR_DONE, nr_cache_fail(&cache, second, &flight));
  uint64_t fourth = begun(OTHER + 100, 5);
  WANTS(NR_DONE, nr_cache_fail_oldest(&cache, &flight));
  IS(flight.number == third && flight.mark == 6);
  WANTS(NR_OWN, nr_cache_land(&cache, third, 9, 101, 1, 0, &given));
  WANTS(NR_DONE, nr_cache_fail_oldest(&cache, &flight));
  IS(flight.number == fourth && flight.mark == 5);
  WANTS(NR_NOTHING, nr_cache_fail_oldest(&cache, &flight));
  IS(flight.number == fourth && lacks(USER + 100) && lacks(OTHER + 100));
}

/* What was queried before a write in the base isn't held. */
static void test_invalidation(void) {
  WANTS(NR_EVICTED, nr_cache_invalidate(&cache, USER));
  IS(lacks(USER));
  WANTS(NR_NOTHING, nr_cache_invalidate(&cache, USER));
  uint64_t number = begun(USER, 1);
  WANTS(NR_NOTHING, nr_cache_invalidate(&cache, USER));
  WANTS(NR_OWN, nr_cache_land(&cache, number, 9, 102, 1, 0, &given));
  IS(lacks(USER));
  WANTS(NR_GIVEN, nr_cache_reap(&cache, &given));
  IS(came_out(USER, 9, 100));
  WANTS(NR_NOTHING, nr_cache_reap(&cache, &given));
  IS(came_out(USER, 9, 100));
}

static void test_change(void) {
  uint64_t before = begun(USER, 1);
  WANTS(NR_DONE, nr_cache_begin_change(&cache, USER));
  WANTS(NR_OWN, nr_cache_land(&cache, before, 9, 103, 1, 0, &given));
  uint64_t within = begun(USER, 2);
  WANTS(NR_OWN, nr_cache_land(&cache, within, 9, 104, 1, 0, &given));
  WANTS(NR_OWN, nr_cache_put(&cache, USER, 9, 105, 1, 0, &given));
  IS(lacks(USER));
  WANTS(NR_DONE, nr_cache_begin_change(&cache, OTHER));
  WANTS(NR_FULL, nr_cache_begin_change(&cache, OTHER));
  WANTS(NR_DONE, nr_cache_end_change(&cache, USER));
  WANTS(NR_NOTHING, nr_cache_end_change(&cache, USER));
  WANTS(NR_DONE, nr_cache_end_change(&cache, OTHER));
  WANTS(NR_DONE, nr_cache_land(&cache, begun(USER, 3), 9, 106, 1, 0, &given));
  IS(has(USER, 9, 106));
}

/* A value that a reader holds doesn't come out until it lets go, whatever happens to the id. */
static void test_hold(void) {
  WANTS(NR_NOT_HOLDING, nr_cache_release(&reader));
  WANTS(NR_ROWS, nr_cache_hold(&reader, USER, &found));
  WANTS(NR_DONE, nr_cache_put(&cache, USER, 10, 107, 1, 0, &given));
  WANTS(NR_HELD, nr_cache_reap(&cache, &given));
  WANTS(NR_ROWS, nr_cache_find(&second, USER, &found));
  IS(found.stamp == 10 && found.value == 107);
  WANTS(NR_DONE, nr_cache_release(&reader));
  WANTS(NR_GIVEN, nr_cache_reap(&cache, &given));
  IS(came_out(USER, 9, 106));
  /* A find, and a hold, let go what the reader held before. */
  WANTS(NR_HOLE, nr_cache_find(&second, OTHER, &found));
  WANTS(NR_NOT_HOLDING, nr_cache_release(&second));
  WANTS(NR_ROWS, nr_cache_hold(&second, USER, &found));
  found = (nr_cache_value){1, 2};
  WANTS(NR_HOLE, nr_cache_hold(&second, OTHER, &found));
  IS(found.stamp == 1 && found.value == 2);
  WANTS(NR_NOT_HOLDING, nr_cache_release(&second));
}

/* A value in place of one that is there still. */
static void test_swap(void) {
  given = (nr_given){1, 2, 3};
  WANTS(NR_HOLE, nr_cache_swap(&cache, OTHER, 1, 9, 2, 1, 0, &given));
  WANTS(NR_OTHER, nr_cache_swap(&cache, USER, 1, 9, 2, 1, 0, &given));
  IS(came_out(1, 2, 3) && has(USER, 10, 107) && lacks(OTHER));
  WANTS(NR_DONE, nr_cache_swap(&cache, USER, 107, 11, 108, 1, 0, &given));
  IS(has(USER, 11, 108));
  WANTS(NR_DONE, nr_cache_begin_change(&cache, USER));
  WANTS(NR_OWN, nr_cache_swap(&cache, USER, 108, 12, 109, 1, 0, &given));
  IS(lacks(USER));
  WANTS(NR_DONE, nr_cache_end_change(&cache, USER));
  WANTS(NR_DONE, nr_cache_put(&cache, USER, 13, 110, 1, 0, &given));
}

/* A look tells what is there, and a count how much. */
static void test_looks(void) {
  nr_cache_counts counts;
  found = (nr_cache_value){1, 2};
  WANTS(NR_HOLE, nr_cache_look(&cache, OTHER, &found));
  IS(found.stamp == 1 && found.value == 2);
  WANTS(NR_ROWS, nr_cache_look(&cache, USER, &found));
  IS(found.stamp == 13 && found.value == 110);
  uint64_t number = begun(OTHER, 1);
  WANTS(NR_DONE, nr_cache_begin_change(&cache, 9));
  WANTS(NR_DONE, nr_cache_count(&cache, &counts));
  IS(counts.values == 1 && counts.flights == 1 && counts.changes == 1);
  WANTS(NR_DONE, nr_cache_end_change(&cache, 9));
  /* An eviction leaves the load, whose value is held. */
  WANTS(NR_NOTHING, nr_cache_evict(&cache, OTHER));
  WANTS(NR_EVICTED, nr_cache_evict(&cache, USER));
  WANTS(NR_DONE, nr_cache_land(&cache, number, 1, 111, 1, 0, &given));
  IS(lacks(USER) && has(OTHER, 1, 111));
}

static void test_all(void) {
  nr_cache_counts counts;
  WANTS(NR_DONE, nr_cache_put(&cache, USER, 1, 112, 1, 0, &given));
  uint64_t number = begun(9, 1);
  WANTS(NR_DONE, nr_cache_invalidate_all(&cache));
  IS(lacks(USER) && lacks(OTHER));
  WANTS(NR_OWN, nr_cache_land(&cache, number, 1, 113, 1, 0, &given));
  while (nr_cache_reap(&cache, &given) == NR_GIVEN) {
  }
  WANTS(NR_DONE, nr_cache_count(&cache, &counts));
  IS(!counts.values && !counts.flights && !counts.changes);
}

static void test_room(void) {
  uint64_t first = begun(100, 1), other = begun(101, 2);
  flight = (nr_flight){3, 4};
  WANTS(NR_FULL, nr_cache_begin(&cache, 102, 3, &flight));
  IS(flight.number == 3 && flight.mark == 4);
  WANTS(NR_DONE, nr_cache_fail(&cache, first, &flight));
  WANTS(NR_DONE, nr_cache_fail(&cache, other, &flight));
}

/* Once the cache is full, a landing lets one value go, and each comes out once. */
static void test_full(void) {
  enum { VALUES = 100 };
  unsigned out[VALUES] = {0}, are_there = 0;
  nr_cache_counts counts;
  for (uint64_t id = 1; id <= VALUES; id++) {
    uint32_t answer = nr_cache_land(&cache, begun(id, id), 1, 1000 + id, 1, 0, &given);
    if (answer != NR_GIVEN) WANTS(NR_DONE, answer);
    if (answer == NR_GIVEN) out[given.id - 1]++;
    while (nr_cache_reap(&cache, &given) == NR_GIVEN) out[given.id - 1]++;
    WANTS(NR_DONE, nr_cache_count(&cache, &counts));
    IS(counts.values == (id < HELD ? id : HELD));
  }
  for (uint64_t id = 1; id <= VALUES; id++) {
    bool is_there = nr_cache_find(&reader, id, &found) == NR_ROWS;
    IS(!is_there || found.value == 1000 + id);
    IS(out[id - 1] == !is_there);
    are_there += is_there;
  }
  IS(are_there == HELD);
  nr_cache_release(&reader);
}

/* What is below the bound goes first, though it was found and the others were not. */
static void test_bound(void) {
  const nr_cache_shape shape = {.groups = 1, .capacity = 4, .readers = 1, .flights = 1, .changes = 1, .key = 0};
  for (uint64_t stale = 1; stale <= 4; stale++)
    for (uint64_t bound = 4; bound <= 5; bound++) {
      nr_cache small = {0};
      nr_cache_reader finder = {0};
      WANTS(NR_DONE, nr_open_cache(&shape, &small));
      WANTS(NR_DONE, nr_open_cache_reader(&small, &finder));
      for (uint64_t id = 1; id <= 4; id++)
        WANTS(NR_DONE, nr_cache_put(&small, id, id == stale ? 4 : 9, id, 1, 0, &given));
      WANTS(NR_ROWS, nr_cache_find(&finder, stale, &found));
      WANTS(NR_DONE, nr_cache_release(&finder));
      WANTS(NR_DONE, nr_cache_put(&small, 5, 9, 5, 1, bound, &given));
      WANTS(bound == 5 ? NR_HOLE : NR_ROWS, nr_cache_look(&small, stale, &found));
      nr_close_cache_reader(&finder);
      nr_close_cache(&small);
    }
}

/* As often as there are values one goes, which is told at once and comes out once nobody holds it. */
static void test_evict_one(void) {
  const nr_cache_shape shape = {.groups = 1, .capacity = 4, .readers = 1, .flights = 1, .changes = 1, .key = 0};
  nr_cache small = {0};
  nr_cache_reader finder = {0};
  nr_given taken = {1, 2, 3};
  WANTS(NR_DONE, nr_open_cache(&shape, &small));
  WANTS(NR_DONE, nr_open_cache_reader(&small, &finder));
  WANTS(NR_NOTHING, nr_cache_evict_one(&small, 9, &taken));
  IS(taken.id == 1 && taken.stamp == 2 && taken.value == 3);
  for (uint64_t id = 1; id <= 4; id++) WANTS(NR_DONE, nr_cache_put(&small, id, id == 3 ? 4 : 9, 10 * id, 1, 0, &given));
  /* What is below the bound goes first, though a reader holds it. */
  WANTS(NR_ROWS, nr_cache_find(&finder, 3, &found));
  WANTS(NR_EVICTED, nr_cache_evict_one(&small, 5, &taken));
  IS(taken.id == 3 && taken.stamp == 4 && taken.value == 30);
  WANTS(NR_HELD, nr_cache_reap(&small, &given));
  WANTS(NR_DONE, nr_cache_release(&finder));
  WANTS(NR_GIVEN, nr_cache_reap(&small, &given));
  IS(came_out(3, 4, 30));
  for (unsigned left = 3; left > 0; left--) {
    WANTS(NR_EVICTED, nr_cache_evict_one(&small, 0, &taken));
    WANTS(NR_HOLE, nr_cache_look(&small, taken.id, &found));
    WANTS(NR_GIVEN, nr_cache_reap(&small, &given));
    IS(came_out(taken.id, 9, 10 * taken.id) && taken.value == given.value);
  }
  WANTS(NR_NOTHING, nr_cache_evict_one(&small, 0, &taken));
  WANTS(NR_NOTHING, nr_cache_reap(&small, &given));
  nr_close_cache_reader(&finder);
  nr_close_cache(&small);
}

/* So many values are held, which weigh that. */
static int weighs(nr_cache *weighed, uint64_t values, uint64_t weight) {
  nr_cache_counts counts;
  WANTS(NR_DONE, nr_cache_count(weighed, &counts));
  return counts.values == values && counts.weight == weight;
}

/* Others go until a value fits, what is heavier than all may be is its caller's own, and what leaves weighs nothing. */
static void test_weights(void) {
  const nr_cache_shape shape = {
    .groups = 1, .capacity = 8, .readers = 1, .flights = 1, .changes = 1, .weight = 10, .key = 0};
  nr_cache small = {0};
  nr_flight load;
  WANTS(NR_DONE, nr_open_cache(&shape, &small));
  for (uint64_t id = 1; id <= 3; id++) WANTS(NR_DONE, nr_cache_put(&small, id, 9, 10 * id, 3, 0, &given));
  IS(weighs(&small, 3, 9));
  WANTS(NR_DONE, nr_cache_put(&small, 4, 9, 40, 1, 0, &given));
  IS(weighs(&small, 4, 10));
  /* In place of its own three it weighs four, for which another goes. */
  WANTS(NR_DONE, nr_cache_swap(&small, 2, 20, 9, 21, 4, 0, &given));
  WANTS(NR_ROWS, nr_cache_look(&small, 2, &found));
  nr_cache_counts counts;
  WANTS(NR_DONE, nr_cache_count(&small, &counts));
  IS(counts.values == 3 && (counts.weight == 8 || counts.weight == 10));
  WANTS(NR_SEND, nr_cache_begin(&small, 5, 1, &load));
  uint32_t landed = nr_cache_land(&small, load.number, 9, 50, 10, 0, &given);
  IS(landed == NR_DONE || landed == NR_GIVEN);
  IS(weighs(&small, 1, 10));
  WANTS(NR_ROWS, nr_cache_look(&small, 5, &found));
  WANTS(NR_OWN, nr_cache_put(&small, 5, 9, 51, 11, 0, &given));
  WANTS(NR_HOLE, nr_cache_look(&small, 5, &found));
  IS(weighs(&small, 0, 0));
  WANTS(NR_SEND, nr_cache_begin(&small, 6, 1, &load));
  WANTS(NR_OWN, nr_cache_land(&small, load.number, 9, 60, 11, 0, &given));
  nr_close_cache(&small);
}

static void test_refusals(void) {
  WANTS(NR_NO_KEY, nr_cache_find(&reader, 0, &found));
  WANTS(NR_NO_KEY, nr_cache_hold(&reader, 0, &found));
  WANTS(NR_NO_KEY, nr_cache_begin(&cache, 0, 1, &flight));
  WANTS(NR_NO_KEY, nr_cache_put(&cache, 0, 0, 1, 1, 0, &given));
  WANTS(NR_NO_KEY, nr_cache_swap(&cache, 0, 1, 0, 1, 1, 0, &given));
  WANTS(NR_NO_KEY, nr_cache_look(&cache, 0, &found));
  WANTS(NR_NO_KEY, nr_cache_evict(&cache, 0));
  WANTS(NR_NO_KEY, nr_cache_invalidate(&cache, 0));
  WANTS(NR_NO_KEY, nr_cache_begin_change(&cache, 0));
  WANTS(NR_NO_KEY, nr_cache_end_change(&cache, 0));
  WANTS(NR_BAD_ROW, nr_cache_put(&cache, 1, 0, 1, 1, 0, &given));
  WANTS(NR_BAD_ROW, nr_cache_swap(&cache, 1, 1, 0, 1, 1, 0, &given));
  uint64_t number = begun(200, 1);
  WANTS(NR_BAD_ROW, nr_cache_land(&cache, number, 0, 1, 1, 0, &given));
  WANTS(NR_DONE, nr_cache_fail(&cache, number, &flight));
}

static void test_openings(const nr_cache_shape *shape) {
  nr_cache_reader third = {0};
  nr_cache none = {0};
  WANTS(NR_LIVE, nr_open_cache(shape, &cache));
  WANTS(NR_LIVE, nr_open_cache_reader(&cache, &reader));
  WANTS(NR_NO_READER, nr_open_cache_reader(&cache, &third));
  WANTS(NR_CLOSED, nr_open_cache_reader(&none, &third));
  const nr_cache_shape bad[] = {{0, 1, 1, 1, 1, 0, 0}, {516001, 1, 1, 1, 1, 0, 0}, {1, 1, 0, 1, 1, 0, 0},
    {1, 1, 65534, 1, 1, 0, 0}, {1, 0, 1, 1, 1, 0, 0}, {1, 9, 1, 1, 1, 0, 0}};
  for (size_t at = 0; at < sizeof bad / sizeof *bad; at++) WANTS(NR_BAD_SIZE, nr_open_cache(&bad[at], &none));
  WANTS(NR_CLOSED, nr_cache_begin(&none, 1, 1, &flight));
  WANTS(NR_CLOSED, nr_cache_find(&third, 1, &found));
  WANTS(NR_CLOSED, nr_cache_hold(&third, 1, &found));
  WANTS(NR_CLOSED, nr_cache_hold(NULL, 1, &found));
  WANTS(NR_CLOSED, nr_cache_release(&third));
  WANTS(NR_CLOSED, nr_cache_release(NULL));
  WANTS(NR_CLOSED, nr_cache_invalidate(NULL, 1));
  WANTS(NR_CLOSED, nr_cache_evict_one(NULL, 0, &given));
  WANTS(NR_CLOSED, nr_cache_fail_oldest(NULL, &flight));
}

/* What readers find stays found, and no other id is. */
static void test_closed(void) {
  WANTS(NR_DONE, nr_cache_invalidate_all(&cache));
  while (nr_cache_reap(&cache, &given) == NR_GIVEN) {
  }
  WANTS(NR_DONE, nr_cache_put(&cache, USER, 1, 5, 1, 0, &given));
  nr_close_cache(&cache);
  nr_close_cache(&cache);
  IS(has(USER, 1, 5));
  WANTS(NR_CLOSED, nr_cache_find(&reader, OTHER, &found));
  WANTS(NR_CLOSED, nr_cache_hold(&reader, OTHER, &found));
  WANTS(NR_CLOSED, nr_cache_land(&cache, 1, 1, 1, 1, 0, &given));
  WANTS(NR_CLOSED, nr_cache_fail(&cache, 1, &flight));
  WANTS(NR_CLOSED, nr_cache_fail_oldest(&cache, &flight));
  WANTS(NR_CLOSED, nr_cache_put(&cache, 1, 1, 1, 1, 0, &given));
  WANTS(NR_CLOSED, nr_cache_swap(&cache, 1, 1, 1, 1, 1, 0, &given));
  WANTS(NR_CLOSED, nr_cache_look(&cache, 1, &found));
  WANTS(NR_CLOSED, nr_cache_evict(&cache, 1));
  WANTS(NR_CLOSED, nr_cache_evict_one(&cache, 0, &given));
  WANTS(NR_CLOSED, nr_cache_invalidate_all(&cache));
  WANTS(NR_CLOSED, nr_cache_count(&cache, &(nr_cache_counts){0}));
  WANTS(NR_CLOSED, nr_cache_begin_change(&cache, 1));
  WANTS(NR_CLOSED, nr_cache_end_change(&cache, 1));
  WANTS(NR_CLOSED, nr_cache_reap(&cache, &given));
  nr_close_cache_reader(&reader);
  nr_close_cache_reader(&second);
  nr_close_cache_reader(&second);
}

int main(void) {
  const nr_cache_shape shape = {.groups = 2, .capacity = HELD, .readers = 2, .flights = 2, .changes = 2, .key = 0};
  WANTS(NR_DONE, nr_open_cache(&shape, &cache));
  WANTS(NR_DONE, nr_open_cache_reader(&cache, &reader));
  WANTS(NR_DONE, nr_open_cache_reader(&cache, &second));
  test_openings(&shape);
  test_miss();
  test_failure();
  test_ends();
  test_invalidation();
  test_change();
  test_hold();
  test_swap();
  test_looks();
  test_all();
  test_room();
  test_full();
  test_bound();
  test_evict_one();
  test_weights();
  test_refusals();
  test_closed();
  puts("each answer of a cache came");
  return 0;
}
