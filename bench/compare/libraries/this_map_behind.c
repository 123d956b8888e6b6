/* This map where values lie outside of it: a key's one row refers to its value, which a reader copies while it holds the
   set, and which the writer frees once the set came back. */
#include "contestant.h"
#include "nr.h"

enum { SPARE = 64 };

typedef struct {
  nr_writer writer;
  nr_rows had;
} map;

typedef struct {
  nr_reader handle;
  value to;
} reader;

static nr_row row_of(uint64_t key, uint64_t version) {
  value *v = malloc(sizeof *v);
  if (!v) stop_for("there is no memory");
  make_value(key, version, v);
  return (nr_row){(uint64_t)(uintptr_t)v, 0};
}

static void free_had(map *m) { free((value *)(uintptr_t)m->had.row[0].a); }

static void *opened(const plan *p) {
  map *m = zeros(sizeof *m);
  uint32_t keys = (uint32_t)p->keys, readers = MOST_READERS;
  nr_shape shape = {keys, keys + readers + SPARE, readers, 1, 0, 0};
  nr_reader first = {0};
  if (nr_open(&shape, &m->writer) != NR_DONE || nr_open_reader(&m->writer, &first) != NR_DONE) stop_for("no map");
  for (uint64_t i = 0; i < p->keys; i++) {
    uint64_t number;
    uint32_t at = (uint32_t)i;
    nr_row row = row_of(i, 0);
    if (nr_ask(&first, at, &number) != NR_SEND) stop_for("a request");
    if (nr_fill(&m->writer, at, number, &row, 1) != NR_DONE) stop_for("a fill");
  }
  nr_return_reader(&m->writer, &first);
  return m;
}

static void *new_reader(void *of) {
  map *m = of;
  reader *r = zeros(sizeof *r);
  if (nr_open_reader(&m->writer, &r->handle) != NR_DONE) stop_for("a reader");
  return r;
}

static const uint64_t *find(void *of, void *by, uint64_t key) {
  (void)of;
  reader *r = by;
  uint32_t count;
  nr_row row;
  if (nr_pin(&r->handle, (uint32_t)key, &count) != NR_ROWS) return NULL;
  nr_row_at(&r->handle, 0, &row);
  r->to = *(const value *)(uintptr_t)row.a;
  nr_release(&r->handle);
  return r->to.word;
}

static void update(void *of, uint64_t key, uint64_t version) {
  map *m = of;
  nr_row row = row_of(key, version);
  uint32_t told = nr_replace_reclaiming(&m->writer, (uint32_t)key, &row, 1, &m->had);
  if (told == NR_GIVEN) free_had(m);
  else if (told != NR_DONE) stop_for("an update");
  while (nr_reap(&m->writer, &m->had) == NR_GIVEN) free_had(m);
}

const contestant this_map_behind = {.name = "this map, values outside", .keys = NUMBERS, .open = opened, .reader = new_reader,
  .begin = no_thread, .end = no_thread, .find = find, .update = update};
