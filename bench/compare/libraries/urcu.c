/* liburcu by the flavor QSBR or MEMB: an array of pointers, and a hash table (rculfhash). The writer puts a new value
   and frees the old ones, many at a time, after a grace period. */
#define _GNU_SOURCE
#define _LGPL_SOURCE
#if QSBR
#include <urcu/urcu-qsbr.h>
#else
#include <urcu/urcu-memb.h>
#endif
#include "contestant.h"
#include <urcu/rculfhash.h>

#if QSBR
#define RCU(call) urcu_qsbr_##call
#define FLAVOR urcu_qsbr_flavor
#define NAME(kind) "liburcu QSBR, " kind
#define IT(kind) qsbr_##kind
#else
#define RCU(call) urcu_memb_##call
#define FLAVOR urcu_memb_flavor
#define NAME(kind) "liburcu memb, " kind
#define IT(kind) memb_##kind
#endif

enum { BATCH = 1024, QUIET = 64 };

typedef struct {
  struct cds_lfht_node node;
  uint64_t key;
  value value;
} entry;

typedef struct {
  struct cds_lfht *table;
  value **at;
  void *old[BATCH];
  int count;
} map;

typedef struct {
  int finds;
  value to;
} reader;

static void *new_value(uint64_t key, uint64_t version) {
  value *v = malloc(sizeof *v);
  if (!v) stop_for("there is no memory");
  make_value(key, version, v);
  return v;
}

static entry *new_entry(uint64_t key, uint64_t version) {
  entry *e = malloc(sizeof *e);
  if (!e) stop_for("there is no memory");
  cds_lfht_node_init(&e->node);
  e->key = key;
  make_value(key, version, &e->value);
  return e;
}

static int is_key(struct cds_lfht_node *node, const void *key) {
  return caa_container_of(node, entry, node)->key == *(const uint64_t *)key;
}

static void *opened_array(const plan *p) {
  map *m = zeros(sizeof *m);
  m->at = zeros(p->keys * sizeof *m->at);
  for (uint64_t i = 0; i < p->keys; i++) m->at[i] = new_value(i, 0);
  return m;
}

static void *opened_table(const plan *p) {
  map *m = zeros(sizeof *m);
  uint64_t room = 1;
  while (room < p->keys) room *= 2;
  m->table = cds_lfht_new_flavor(room, room, 0, 0, &FLAVOR, NULL);
  if (!m->table) stop_for("no table");
  RCU(register_thread)();
  for (uint64_t i = 0; i < p->keys; i++) {
    entry *e = new_entry(key_at(p, i), 0);
    RCU(read_lock)();
    cds_lfht_add(m->table, hash_of(e->key), &e->node);
    RCU(read_unlock)();
  }
  RCU(unregister_thread)();
  return m;
}

static void *new_reader(void *of) {
  (void)of;
  return zeros(sizeof(reader));
}

static void begin(void *of, void *by) {
  (void)of, (void)by;
  RCU(register_thread)();
}

static void end(void *of, void *by) {
  (void)of, (void)by;
  RCU(unregister_thread)();
}

/* Of QSBR, that the reader holds nothing, now and then. */
static inline void rest(reader *r) {
#if QSBR
  if (++r->finds % QUIET == 0) RCU(quiescent_state)();
#else
  (void)r;
#endif
}

static const uint64_t *find_in_array(void *of, void *by, uint64_t key) {
  map *m = of;
  reader *r = by;
  RCU(read_lock)();
  r->to = *rcu_dereference(m->at[key]);
  RCU(read_unlock)();
  rest(r);
  return r->to.word;
}

static const uint64_t *find_in_table(void *of, void *by, uint64_t key) {
  map *m = of;
  reader *r = by;
  struct cds_lfht_iter at;
  RCU(read_lock)();
  cds_lfht_lookup(m->table, hash_of(key), is_key, &key, &at);
  struct cds_lfht_node *node = cds_lfht_iter_get_node(&at);
  if (node) r->to = caa_container_of(node, entry, node)->value;
  RCU(read_unlock)();
  rest(r);
  return node ? r->to.word : NULL;
}

static void free_later(map *m, void *old) {
  m->old[m->count++] = old;
  if (m->count < BATCH) return;
  RCU(synchronize_rcu)();
  for (int i = 0; i < BATCH; i++) free(m->old[i]);
  m->count = 0;
}

static void update_array(void *of, uint64_t key, uint64_t version) {
  map *m = of;
  free_later(m, rcu_xchg_pointer(&m->at[key], new_value(key, version)));
}

static void update_table(void *of, uint64_t key, uint64_t version) {
  map *m = of;
  entry *e = new_entry(key, version);
  RCU(read_lock)();
  struct cds_lfht_node *old = cds_lfht_add_replace(m->table, hash_of(key), is_key, &key, &e->node);
  RCU(read_unlock)();
  if (!old) stop_for("a key that wasn't there");
  free_later(m, caa_container_of(old, entry, node));
}

const contestant IT(array) = {.name = NAME("array"), .keys = NUMBERS, .open = opened_array, .reader = new_reader,
  .begin = begin, .end = end, .find = find_in_array, .update = update_array};
const contestant IT(table) = {.name = NAME("rculfhash"), .keys = IDS, .open = opened_table, .reader = new_reader,
  .begin = begin, .end = end, .find = find_in_table, .update = update_table};
