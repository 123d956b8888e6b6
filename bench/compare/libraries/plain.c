/* The memory's limit: values in an array, copied and written with no care for other threads. */
#include "names.h"

typedef struct {
  names names;
  value *values;
} map;

static void *opened(const plan *p) {
  map *m = zeros(sizeof *m);
  open_names(&m->names, p);
  m->values = zeros(p->keys * sizeof *m->values);
  for (uint64_t i = 0; i < p->keys; i++) make_value(key_at(p, i), 0, &m->values[i]);
  return m;
}

static void *new_reader(void *of) {
  (void)of;
  return zeros(sizeof(value));
}

static const uint64_t *find(void *of, void *by, uint64_t key) {
  map *m = of;
  value *to = by;
  memcpy(to, &m->values[number_of(&m->names, key)], sizeof *to);
  __asm__ volatile("" : : "r"(to) : "memory");
  return to->word;
}

static void find_each(void *of, void *by, const uint64_t *key, const uint64_t **found) {
  map *m = of;
  value *to = by;
  for (int i = 0; i < GROUP; i++) memcpy(&to[i], &m->values[number_of(&m->names, key[i])], sizeof *to);
  __asm__ volatile("" : : "r"(to) : "memory");
  for (int i = 0; i < GROUP; i++) found[i] = to[i].word;
}

static void *room_of_16(void *of) {
  (void)of;
  return zeros(GROUP * sizeof(value));
}

static void update(void *of, uint64_t key, uint64_t version) {
  map *m = of;
  make_value(key, version, &m->values[number_of(&m->names, key)]);
}

const contestant plain = {.name = "the limit", .reads_only = true, .open = opened, .reader = new_reader,
  .begin = no_thread, .end = no_thread, .find = find, .update = update};
const contestant plain_each = {.name = "the limit, 16 at once", .reads_only = true, .map_of = &plain, .open = opened,
  .reader = room_of_16, .begin = no_thread, .end = no_thread, .find = find, .find_each = find_each, .update = update};
