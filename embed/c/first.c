/* An id is missing, is loaded once, is found, and goes when the base changes. README.md shows it. */
#include "../../include/nr.h"
#include <stdio.h>

static const char *query(void) {
  return "what the base has of alice";
}

int main(void) {
  nr_cache cache = {0};
  nr_cache_reader reader = {0};
  nr_cache_value found;
  nr_flight flight;
  nr_given given;
  uint64_t alice = 0xfeedfacecafebeef; /* a keyed hash of a name, say */
  nr_cache_shape shape = {.groups = 2000, .capacity = 10000, .readers = 8, .flights = 100, .changes = 100};
  if (nr_open_cache(&shape, &cache) != NR_DONE || nr_open_cache_reader(&cache, &reader) != NR_DONE) return 1;
  if (nr_cache_find(&reader, alice, &found) == NR_HOLE && nr_cache_begin(&cache, alice, 0, &flight) == NR_SEND)
    /* Who misses her meanwhile is told NR_WAITING. The value is an address; nothing expires here. */
    if (nr_cache_land(&cache, flight.number, 1, (uintptr_t)query(), 1, 0, &given) != NR_DONE) return 1;
  if (nr_cache_hold(&reader, alice, &found) != NR_ROWS) return 1; /* a find by who has just landed it */
  puts((const char *)(uintptr_t)found.value); /* it stays until this reader's next find or release */
  nr_cache_release(&reader);
  if (nr_cache_invalidate(&cache, alice) != NR_EVICTED) return 1; /* the base changed */
  if (nr_cache_reap(&cache, &given) != NR_GIVEN || given.id != alice) return 1; /* nobody sees the old value: free it */
  nr_close_cache_reader(&reader);
  nr_close_cache(&cache);
}
