/* A lock a key, beside its value. */
#include "names.h"
#include <mutex>
#include <new>
#include <shared_mutex>

namespace {

struct locked {
  std::shared_mutex lock;
  value now;
};

struct map {
  names index;
  locked *at;
};

void *opened(const plan *p) {
  map *m = new map{};
  open_names(&m->index, p);
  m->at = static_cast<locked *>(zeros(p->keys * sizeof(locked)));
  for (uint64_t i = 0; i < p->keys; i++) make_value(key_at(p, i), 0, &(new (&m->at[i]) locked)->now);
  return m;
}

void *new_reader(void *) { return zeros(sizeof(value)); }

const uint64_t *find(void *of, void *by, uint64_t key) {
  map *m = static_cast<map *>(of);
  locked &l = m->at[number_of(&m->index, key)];
  value *to = static_cast<value *>(by);
  std::shared_lock<std::shared_mutex> hold(l.lock);
  *to = l.now;
  return to->word;
}

void update(void *of, uint64_t key, uint64_t version) {
  map *m = static_cast<map *>(of);
  locked &l = m->at[number_of(&m->index, key)];
  std::unique_lock<std::shared_mutex> hold(l.lock);
  make_value(key, version, &l.now);
}

}  // namespace

extern "C" const contestant lock_a_key = {"a lock a key", contestant::BOTH, false, nullptr, opened, new_reader,
  no_thread, no_thread, find, nullptr, update};
