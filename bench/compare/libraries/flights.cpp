/* liburcu's hash table before a table of flights: who misses a key first loads it, and others wait for the flight's end.
   What has been there longest goes. */
#define _LGPL_SOURCE
#include "cache.h"
#include <future>
#include <mutex>
#include <unordered_map>
#include <urcu/urcu-memb.h>
#include <urcu/rculfhash.h>
#include <vector>

namespace {

struct entry {
  cds_lfht_node node;
  uint64_t key;
  value now;
};

int is_key(cds_lfht_node *node, const void *key) {
  return caa_container_of(node, entry, node)->key == *static_cast<const uint64_t *>(key);
}

struct by_hash {
  size_t operator()(uint64_t key) const { return hash_of(key); }
};

struct alignas(128) part {
  std::mutex lock;
  std::unordered_map<uint64_t, std::shared_future<value>, by_hash> flights;
};

class table {
  static constexpr uint64_t PARTS = 64;
  static constexpr size_t BATCH = 1024;

  cds_lfht *entries;
  part parts[PARTS];
  std::mutex lock;
  queue_of_keys there;
  std::vector<entry *> old;

  /* Only where the caller is a reader of RCU. */
  entry *entry_of(uint64_t key) {
    cds_lfht_iter at;
    cds_lfht_lookup(entries, hash_of(key), is_key, &key, &at);
    cds_lfht_node *node = cds_lfht_iter_get_node(&at);
    return node ? caa_container_of(node, entry, node) : nullptr;
  }

  bool is_there(uint64_t key, value *to) {
    urcu_memb_read_lock();
    entry *e = entry_of(key);
    if (e) *to = e->now;
    urcu_memb_read_unlock();
    return e;
  }

  void add(entry *e) {
    urcu_memb_read_lock();
    cds_lfht_add(entries, hash_of(e->key), &e->node);
    urcu_memb_read_unlock();
  }

  entry *taken(uint64_t key) {
    urcu_memb_read_lock();
    entry *e = entry_of(key);
    if (cds_lfht_del(entries, &e->node)) stop_for("an entry that is gone already");
    urcu_memb_read_unlock();
    return e;
  }

  /* Frees many at a time. */
  void hold(uint64_t key) {
    std::vector<entry *> freed;
    {
      std::lock_guard<std::mutex> hold(lock);
      if (is_full(&there)) old.push_back(taken(pop_key(&there)));
      push_key(&there, key);
      if (old.size() == BATCH) freed.swap(old);
    }
    if (freed.empty()) return;
    urcu_memb_synchronize_rcu();
    for (entry *e : freed) delete e;
  }

  void load(uint64_t key, value *to) {
    entry *e = new entry;
    cds_lfht_node_init(&e->node);
    e->key = key;
    load_value(key, &e->now);
    *to = e->now;
    add(e);
    hold(key);
  }

  void fly(uint64_t key, value *to) {
    part &p = parts[hash_of(key) >> 40 & (PARTS - 1)];
    std::promise<value> landing;
    std::shared_future<value> flight;
    {
      std::lock_guard<std::mutex> hold(p.lock);
      if (is_there(key, to)) return;
      auto at = p.flights.find(key);
      if (at != p.flights.end()) flight = at->second;
      else p.flights.emplace(key, landing.get_future().share());
    }
    if (flight.valid()) {
      *to = flight.get();
      return;
    }
    load(key, to);
    {
      std::lock_guard<std::mutex> hold(p.lock);
      p.flights.erase(key);
    }
    landing.set_value(*to);
  }

public:
  explicit table(const cache_plan *p) {
    uint64_t room = 1;
    while (room < p->resident) room *= 2;
    entries = cds_lfht_new_flavor(room, room, 0, 0, &urcu_memb_flavor, nullptr);
    if (!entries) stop_for("no table");
    open_queue(&there, p->resident);
  }

  void get(uint64_t key, value *to) {
    if (!is_there(key, to)) fly(key, to);
  }
};

void *opened(const cache_plan *p) { return new table(p); }
void *new_reader(void *) { return zeros(sizeof(value)); }
void begin(void *, void *) { urcu_memb_register_thread(); }
void end(void *, void *) { urcu_memb_unregister_thread(); }

const uint64_t *find(void *of, void *by, uint64_t key) {
  value *to = static_cast<value *>(by);
  static_cast<table *>(of)->get(key, to);
  return to->word;
}

}  // namespace

extern "C" const cache flights = {"liburcu memb, rculfhash, flights", opened, new_reader, begin, end, find, nullptr, nullptr};
