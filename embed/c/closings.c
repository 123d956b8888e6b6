/* Opens a handle of each kind, and closes all: nothing is left of what they took. Given a number from 0 to 8, it leaves
   the handle of that kind open, of which something must be left then. */
#include "../../include/nr.h"
#include <stdio.h>
#include <stdlib.h>

static void done(uint32_t answer, const char *call) {
  if (answer == NR_DONE) return;
  fprintf(stderr, "closings: %s: %s\n", call, nr_strerror(answer));
  exit(2);
}

int main(int arguments, char **argument) {
  const nr_shape shape = {.keys = 2, .slots = 4, .readers = 1, .rows = 1};
  const nr_id_shape id_shape = {.groups = 1, .slots = 4, .readers = 1, .rows = 1};
  const nr_cache_shape cache_shape = {.groups = 1, .capacity = 8, .readers = 1, .flights = 1, .changes = 1};
  int open = arguments > 1 ? atoi(argument[1]) : -1;
  nr_writer writer = {0}, apart = {0};
  nr_reader reader = {0};
  nr_remains remains = {0};
  nr_taker taker = {0};
  nr_poster poster = {0};
  nr_id_writer id_writer = {0};
  nr_id_reader id_reader = {0};
  nr_cache cache = {0};
  nr_cache_reader cache_reader = {0};
  done(nr_open(&shape, &writer), "nr_open");
  done(nr_open_reader(&writer, &reader), "nr_open_reader");
  done(nr_open(&shape, &apart), "nr_open");
  done(nr_take_apart(&apart, &remains), "nr_take_apart");
  done(nr_open_queue(2, 2, 1, &taker), "nr_open_queue");
  done(nr_open_poster(&taker, &poster), "nr_open_poster");
  done(nr_open_ids(&id_shape, &id_writer), "nr_open_ids");
  done(nr_open_id_reader(&id_writer, &id_reader), "nr_open_id_reader");
  done(nr_open_cache(&cache_shape, &cache), "nr_open_cache");
  done(nr_open_cache_reader(&cache, &cache_reader), "nr_open_cache_reader");
  if (open != 0) nr_close_writer(&writer);
  if (open != 1) nr_close_reader(&reader);
  if (open != 2) nr_close_remains(&remains);
  if (open != 3) nr_close_taker(&taker);
  if (open != 4) nr_close_poster(&poster);
  if (open != 5) nr_close_id_writer(&id_writer);
  if (open != 6) nr_close_id_reader(&id_reader);
  if (open != 7) nr_close_cache(&cache);
  if (open != 8) nr_close_cache_reader(&cache_reader);
  return 0;
}
