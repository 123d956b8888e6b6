/* A cache by this map and its queue of requests. */
#include "cache.h"
#include "nr.h"

enum { SPARE = 64, AGAIN = 64 };

typedef struct {
  nr_writer writer;
  nr_taker taker;
  queue_of_keys there;
  uint64_t number, version;
} map;

typedef struct {
  nr_reader handle;
  nr_poster poster;
  nr_rows rows;
  /* A ticket that the queue was too full for. */
  bool kept;
  uint32_t kept_key;
  uint64_t kept_number;
  /* The key that was asked for last, and how often it was looked for since. */
  uint64_t asked, looks;
} reader;

static void *opened(const cache_plan *p) {
  map *m = zeros(sizeof *m);
  uint32_t keys = (uint32_t)p->keys, readers = 4 * MOST_READERS;
  nr_shape shape = {keys, (uint32_t)p->resident + readers + SPARE, readers, ROWS, 0, 0};
  if (nr_open(&shape, &m->writer) != NR_DONE) stop_for("no map");
  if (nr_open_queue(keys, keys, readers, &m->taker) != NR_DONE) stop_for("no queue");
  open_queue(&m->there, p->resident);
  return m;
}

static void *new_reader(void *of) {
  map *m = of;
  reader *r = zeros(sizeof *r);
  if (nr_open_reader(&m->writer, &r->handle) != NR_DONE) stop_for("a reader");
  if (nr_open_poster(&m->taker, &r->poster) != NR_DONE) stop_for("a poster");
  r->asked = UINT64_MAX;
  return r;
}

static void post(reader *r) {
  if (r->kept && nr_post(&r->poster, r->kept_key, r->kept_number) == NR_DONE) r->kept = false;
}

static void ask(reader *r, uint64_t key) {
  if (nr_ask(&r->handle, (uint32_t)key, &r->kept_number) == NR_SEND) {
    r->kept = true, r->kept_key = (uint32_t)key;
    post(r);
  }
  r->asked = key, r->looks = 0;
}

static const uint64_t *find(void *of, void *by, uint64_t key) {
  (void)of;
  reader *r = by;
  if (nr_find(&r->handle, (uint32_t)key, &r->rows) == NR_ROWS) return &r->rows.row[0].a;
  post(r);
  /* What was asked for is only looked for, and asked for again now and then, since it may have come and gone. */
  if (!r->kept && (key != r->asked || ++r->looks == AGAIN)) ask(r, key);
  return NULL;
}

static bool take(void *of, uint64_t *key) {
  map *m = of;
  uint32_t it;
  if (nr_take(&m->taker, &it, &m->number) != NR_DONE) return false;
  *key = it;
  return true;
}

static void put(void *of, uint64_t key) {
  map *m = of;
  value v;
  nr_row row[ROWS];
  if (is_full(&m->there)) nr_evict(&m->writer, (uint32_t)pop_key(&m->there));
  make_value(key, ++m->version, &v);
  memcpy(row, &v, sizeof v);
  if (nr_fill(&m->writer, (uint32_t)key, m->number, row, ROWS) != NR_DONE) stop_for("a fill");
  push_key(&m->there, key);
}

const cache this_cache = {"this map", opened, new_reader, no_thread, no_thread, find, take, put};
