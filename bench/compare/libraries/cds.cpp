/* libcds: Michael's hash map, whose nodes each have a pointer to a value that the writer swaps, by hazard pointers. */
#include "contestant.h"
#include <atomic>
#include <cds/container/michael_kvlist_hp.h>
#include <cds/container/michael_map.h>
#include <cds/gc/hp.h>
#include <cds/init.h>

namespace {

using hazards = cds::gc::HP;

/* A pointer that is moved only while its map opens. */
struct cell {
  std::atomic<value *> now{nullptr};
  cell() = default;
  cell(cell &&other) : now(other.now.load()) {}
};

struct by_size {
  bool operator()(uint64_t one, uint64_t other) const { return one < other; }
};

struct by_hash {
  size_t operator()(uint64_t key) const { return hash_of(key); }
};

struct list_traits : public cds::container::michael_list::traits {
  typedef by_size less;
};

struct map_traits : public cds::container::michael_map::traits {
  typedef by_hash hash;
};

using list = cds::container::MichaelKVList<hazards, uint64_t, cell, list_traits>;
using table = cds::container::MichaelHashMap<hazards, list, map_traits>;

struct freed {
  void operator()(value *v) const { delete v; }
};

value *new_value(uint64_t key, uint64_t version) {
  value *v = new value;
  make_value(key, version, v);
  return v;
}

void attach(void *, void *) { cds::threading::Manager::attachThread(); }
void detach(void *, void *) { cds::threading::Manager::detachThread(); }

void *opened(const plan *p) {
  static bool is_begun = false;
  if (!is_begun) {
    cds::Initialize();
    new hazards(16);
    is_begun = true;
  }
  attach(nullptr, nullptr);
  table *t = new table(p->keys, 1);
  for (uint64_t i = 0; i < p->keys; i++) {
    uint64_t key = key_at(p, i);
    t->insert_with(key, [=](table::value_type &at) { at.second.now = new_value(key, 0); });
  }
  detach(nullptr, nullptr);
  return t;
}

void *new_reader(void *) { return zeros(sizeof(value)); }

std::atomic<value *> *pointer_of(void *of, uint64_t key) {
  std::atomic<value *> *found = nullptr;
  static_cast<table *>(of)->find(key, [&found](table::value_type &at) { found = &at.second.now; });
  return found;
}

const uint64_t *find(void *of, void *by, uint64_t key) {
  std::atomic<value *> *at = pointer_of(of, key);
  if (!at) return nullptr;
  hazards::Guard guard;
  value *to = static_cast<value *>(by);
  *to = *guard.protect(*at);
  return to->word;
}

void update(void *of, uint64_t key, uint64_t version) {
  std::atomic<value *> *at = pointer_of(of, key);
  if (!at) stop_for("a key that isn't there");
  hazards::retire<freed>(at->exchange(new_value(key, version)));
}

}  // namespace

extern "C" const contestant michael = {"libcds", contestant::IDS, false, nullptr, opened, new_reader, attach, detach,
  find, nullptr, update};
