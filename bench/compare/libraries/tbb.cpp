/* TBB's concurrent_hash_map. */
#include "contestant.h"
#include <tbb/concurrent_hash_map.h>

namespace {

struct by_hash {
  static size_t hash(uint64_t key) { return hash_of(key); }
  static bool equal(uint64_t one, uint64_t other) { return one == other; }
};

using table = tbb::concurrent_hash_map<uint64_t, value, by_hash>;

void *opened(const plan *p) {
  table *t = new table(p->keys);
  for (uint64_t i = 0; i < p->keys; i++) {
    value v;
    make_value(key_at(p, i), 0, &v);
    t->insert({key_at(p, i), v});
  }
  return t;
}

void *new_reader(void *) { return zeros(sizeof(value)); }

const uint64_t *find(void *of, void *by, uint64_t key) {
  table::const_accessor at;
  if (!static_cast<table *>(of)->find(at, key)) return nullptr;
  value *to = static_cast<value *>(by);
  *to = at->second;
  return to->word;
}

void update(void *of, uint64_t key, uint64_t version) {
  table::accessor at;
  if (!static_cast<table *>(of)->find(at, key)) stop_for("a key that isn't there");
  make_value(key, version, &at->second);
}

}  // namespace

extern "C" const contestant tbb_map = {"TBB", contestant::IDS, false, nullptr, opened, new_reader, no_thread,
  no_thread, find, nullptr, update};
