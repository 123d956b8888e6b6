/* libcuckoo. */
#include "contestant.h"
#include <libcuckoo/cuckoohash_map.hh>

namespace {

struct by_hash {
  size_t operator()(uint64_t key) const { return hash_of(key); }
};

using table = libcuckoo::cuckoohash_map<uint64_t, value, by_hash>;

void *opened(const plan *p) {
  table *t = new table(p->keys);
  for (uint64_t i = 0; i < p->keys; i++) {
    value v;
    make_value(key_at(p, i), 0, &v);
    t->insert(key_at(p, i), v);
  }
  return t;
}

void *new_reader(void *) { return zeros(sizeof(value)); }

const uint64_t *find(void *of, void *by, uint64_t key) {
  value *to = static_cast<value *>(by);
  return static_cast<table *>(of)->find_fn(key, [to](const value &v) { *to = v; }) ? to->word : nullptr;
}

void update(void *of, uint64_t key, uint64_t version) {
  auto put = [=](value &v) { make_value(key, version, &v); };
  if (!static_cast<table *>(of)->update_fn(key, put)) stop_for("a key that isn't there");
}

}  // namespace

extern "C" const contestant cuckoo = {"libcuckoo", contestant::IDS, false, nullptr, opened, new_reader, no_thread,
  no_thread, find, nullptr, update};
