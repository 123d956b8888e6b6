/* This map, by the calls of include/nr.h. */
#include "contestant.h"
#include "nr.h"

enum { SPARE = 64 };

typedef struct {
  nr_writer writer;
} map;

typedef struct {
  nr_reader handle;
  bool holds;
  nr_rows rows;
  nr_wanted wanted[GROUP];
  nr_found found[GROUP];
  nr_row row[GROUP][ROWS];
} reader;

static void rows_of(uint64_t key, uint64_t version, nr_row row[ROWS]) {
  value v;
  make_value(key, version, &v);
  memcpy(row, &v, sizeof v);
}

static void *opened(const plan *p) {
  map *m = zeros(sizeof *m);
  uint32_t keys = (uint32_t)p->keys, readers = 4 * MOST_READERS;
  nr_shape shape = {keys, keys + readers + SPARE, readers, ROWS, 0, 0};
  nr_reader first = {0};
  if (nr_open(&shape, &m->writer) != NR_DONE || nr_open_reader(&m->writer, &first) != NR_DONE) stop_for("no map");
  for (uint64_t i = 0; i < p->keys; i++) {
    nr_row row[ROWS];
    uint64_t number;
    uint32_t at = (uint32_t)i;
    rows_of(i, 0, row);
    if (nr_ask(&first, at, &number) != NR_SEND) stop_for("a request");
    if (nr_fill(&m->writer, at, number, row, ROWS) != NR_DONE) stop_for("a fill");
  }
  nr_return_reader(&m->writer, &first);
  return m;
}

static void *new_reader(void *of) {
  map *m = of;
  reader *r = zeros(sizeof *r);
  if (nr_open_reader(&m->writer, &r->handle) != NR_DONE) stop_for("a reader");
  return r;
}

static const uint64_t *find(void *of, void *by, uint64_t key) {
  (void)of;
  reader *r = by;
  if (nr_find(&r->handle, (uint32_t)key, &r->rows) != NR_ROWS) return NULL;
  return &r->rows.row[0].a;
}

static const uint64_t *find_kept(void *of, void *by, uint64_t key) {
  (void)of;
  reader *r = by;
  if (nr_find_kept(&r->handle, (uint32_t)key, &r->rows) != NR_ROWS) return NULL;
  r->holds = true;
  return &r->rows.row[0].a;
}

static void let_go(void *of, void *by) {
  (void)of;
  reader *r = by;
  if (r && r->holds) nr_release(&r->handle), r->holds = false;
}

static void find_each(void *of, void *by, const uint64_t *key, const uint64_t **found) {
  (void)of;
  reader *r = by;
  for (int i = 0; i < GROUP; i++) r->wanted[i].key = (uint32_t)key[i];
  if (nr_find_each(&r->handle, r->wanted, GROUP) != NR_DONE) stop_for("finds");
  for (int i = 0; i < GROUP; i++) found[i] = r->wanted[i].answer == NR_ROWS ? &r->wanted[i].rows.row[0].a : NULL;
}

static void find_each_rows(void *of, void *by, const uint64_t *key, const uint64_t **found) {
  (void)of;
  reader *r = by;
  for (int i = 0; i < GROUP; i++) r->found[i].key = (uint32_t)key[i];
  if (nr_find_each_rows(&r->handle, r->found, GROUP, r->row[0], GROUP * ROWS) != NR_DONE) stop_for("finds into one array");
  for (int i = 0; i < GROUP; i++) found[i] = r->found[i].answer == NR_ROWS ? &r->row[i][0].a : NULL;
}

static void update(void *of, uint64_t key, uint64_t version) {
  map *m = of;
  nr_row row[ROWS];
  rows_of(key, version, row);
  if (nr_replace(&m->writer, (uint32_t)key, row, ROWS) != NR_DONE) stop_for("an update");
}

const contestant this_map = {.name = "this map", .keys = NUMBERS, .open = opened, .reader = new_reader, .begin = no_thread,
  .end = no_thread, .find = find, .update = update};
const contestant this_map_kept = {.name = "this map, kept", .keys = NUMBERS, .map_of = &this_map, .open = opened, .reader = new_reader,
  .begin = no_thread, .end = let_go, .find = find_kept, .update = update};
const contestant this_map_each = {.name = "this map, 16 at once", .keys = NUMBERS, .map_of = &this_map, .open = opened,
  .reader = new_reader, .begin = no_thread, .end = no_thread, .find = find, .find_each = find_each, .update = update};
const contestant this_map_each_rows = {.name = "this map, 16 at once, rows of the caller's", .keys = NUMBERS, .map_of = &this_map,
  .open = opened, .reader = new_reader, .begin = no_thread, .end = no_thread, .find = find, .find_each = find_each_rows,
  .update = update};
