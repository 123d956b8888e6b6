/* This map over ids, by the calls of include/nr.h. */
#include "nr.h"
#include "ways.h"

enum { SPARE = 64 };

typedef struct {
  nr_id_writer writer;
} map;

typedef struct {
  nr_id_reader handle;
  nr_rows rows;
  nr_wanted_id wanted[GROUP];
  nr_found_id found[GROUP];
  nr_row row[GROUP][ROWS];
} reader;

static void rows_of(uint64_t id, uint64_t version, nr_row row[ROWS]) {
  value v;
  make_value(id, version, &v);
  memcpy(row, &v, sizeof v);
}

static nr_id_shape shape_of(grouping g, uint32_t keys) {
  uint32_t readers = 4 * MOST_READERS;
  return (nr_id_shape){g.groups, keys + readers + SPARE, readers, ROWS, g.key, 0};
}

static two_groups groups_here(grouping g, uint64_t id) {
  nr_id_shape shape = shape_of(g, 0);
  return (two_groups){nr_id_group(&shape, id), nr_id_second_group(&shape, id)};
}

static void *opened(const plan *p) {
  map *m = zeros(sizeof *m);
  nr_id_shape shape = shape_of(fewest_groups(p, groups_here), (uint32_t)p->keys);
  nr_id_reader first = {0};
  if (nr_open_ids(&shape, &m->writer) != NR_DONE || nr_open_id_reader(&m->writer, &first) != NR_DONE)
    stop_for("no map over ids");
  for (uint64_t i = 0; i < p->keys; i++) {
    nr_row row[ROWS];
    nr_upquery upquery;
    uint64_t id = key_at(p, i);
    rows_of(id, 0, row);
    if (nr_request_id(&first, id) != NR_SEND) stop_for("a request for an id");
    if (nr_admit(&m->writer, id, &upquery) != NR_SEND) stop_for("an id found no way in its group");
    if (nr_fill_id(&m->writer, &upquery, row, ROWS) != NR_DONE) stop_for("a fill of an id");
  }
  nr_close_id_reader(&first);
  return m;
}

static void *new_reader(void *of) {
  map *m = of;
  reader *r = zeros(sizeof *r);
  if (nr_open_id_reader(&m->writer, &r->handle) != NR_DONE) stop_for("a reader");
  return r;
}

static const uint64_t *find(void *of, void *by, uint64_t id) {
  (void)of;
  reader *r = by;
  if (nr_find_id(&r->handle, id, &r->rows) != NR_ROWS) return NULL;
  return &r->rows.row[0].a;
}

static void find_each(void *of, void *by, const uint64_t *id, const uint64_t **found) {
  (void)of;
  reader *r = by;
  for (int i = 0; i < GROUP; i++) r->wanted[i].id = id[i];
  if (nr_find_each_id(&r->handle, r->wanted, GROUP) != NR_DONE) stop_for("finds of ids");
  for (int i = 0; i < GROUP; i++) found[i] = r->wanted[i].answer == NR_ROWS ? &r->wanted[i].rows.row[0].a : NULL;
}

static void find_each_rows(void *of, void *by, const uint64_t *id, const uint64_t **found) {
  (void)of;
  reader *r = by;
  for (int i = 0; i < GROUP; i++) r->found[i].id = id[i];
  if (nr_find_each_rows_id(&r->handle, r->found, GROUP, r->row[0], GROUP * ROWS) != NR_DONE)
    stop_for("finds of ids into one array");
  for (int i = 0; i < GROUP; i++) found[i] = r->found[i].answer == NR_ROWS ? &r->row[i][0].a : NULL;
}

static void update(void *of, uint64_t id, uint64_t version) {
  map *m = of;
  nr_row row[ROWS];
  rows_of(id, version, row);
  if (nr_replace_id(&m->writer, id, row, ROWS) != NR_DONE) stop_for("an update of an id");
}

const contestant this_ids = {.name = "this map", .keys = IDS, .open = opened, .reader = new_reader,
  .begin = no_thread, .end = no_thread, .find = find, .update = update};
const contestant this_ids_each = {.name = "this map, 16 at once", .keys = IDS, .map_of = &this_ids, .open = opened,
  .reader = new_reader, .begin = no_thread, .end = no_thread, .find = find, .find_each = find_each, .update = update};
const contestant this_ids_each_rows = {.name = "this map, 16 at once, rows of the caller's", .keys = IDS, .map_of = &this_ids,
  .open = opened, .reader = new_reader, .begin = no_thread, .end = no_thread, .find = find, .find_each = find_each_rows,
  .update = update};
