/* Caches as one would make them of other parts: an array of pointers under liburcu, whose null word is marked by the
   first that asks, with TBB's queue or a locked one; TBB's map, where who asks first adds a key without a value; and a
   hash table in 64 parts, each under a lock. */
#define _LGPL_SOURCE
#include "cache.h"
#include <deque>
#include <mutex>
#include <shared_mutex>
#include <tbb/concurrent_hash_map.h>
#include <tbb/concurrent_queue.h>
#include <unordered_map>
#include <urcu/urcu-memb.h>
#include <vector>

namespace {

struct locked_queue {
  std::mutex lock;
  std::deque<uint64_t> keys;

  void push(uint64_t key) {
    std::lock_guard<std::mutex> hold(lock);
    keys.push_back(key);
  }

  bool try_pop(uint64_t &key) {
    std::lock_guard<std::mutex> hold(lock);
    if (keys.empty()) return false;
    key = keys.front();
    keys.pop_front();
    return true;
  }
};

using ready_queue = tbb::concurrent_queue<uint64_t>;

struct by_hash {
  static size_t hash(uint64_t key) { return hash_of(key); }
  static bool equal(uint64_t one, uint64_t other) { return one == other; }
  size_t operator()(uint64_t key) const { return hash_of(key); }
};

/* An array of pointers: null, or ASKED, or to a value. */
template <class Queue> struct pointers {
  static constexpr size_t BATCH = 1024;
  static inline value *const ASKED = reinterpret_cast<value *>(1);

  value **at;
  Queue asked;
  queue_of_keys there;
  std::vector<value *> old;
  uint64_t version = 0;

  explicit pointers(const cache_plan *p) : at(static_cast<value **>(zeros(p->keys * sizeof *at))) {
    open_queue(&there, p->resident);
  }

  bool find(uint64_t key, value *to) {
    urcu_memb_read_lock();
    value *v = rcu_dereference(at[key]);
    bool is = reinterpret_cast<uintptr_t>(v) > 1;
    if (is) *to = *v;
    urcu_memb_read_unlock();
    if (!v && !uatomic_cmpxchg(&at[key], static_cast<value *>(nullptr), ASKED)) asked.push(key);
    return is;
  }

  void put(uint64_t key) {
    if (is_full(&there)) free_later(rcu_xchg_pointer(&at[pop_key(&there)], static_cast<value *>(nullptr)));
    value *v = new value;
    make_value(key, ++version, v);
    rcu_xchg_pointer(&at[key], v);
    push_key(&there, key);
  }

  void free_later(value *v) {
    old.push_back(v);
    if (old.size() < BATCH) return;
    urcu_memb_synchronize_rcu();
    for (value *each : old) delete each;
    old.clear();
  }

  static void begin(void *, void *) { urcu_memb_register_thread(); }
  static void end(void *, void *) { urcu_memb_unregister_thread(); }
};

struct entry {
  bool is = false;
  value now;
};

struct tbb_table {
  tbb::concurrent_hash_map<uint64_t, entry, by_hash> table;
  ready_queue asked;
  queue_of_keys there;
  uint64_t version = 0;

  explicit tbb_table(const cache_plan *p) : table(p->resident) { open_queue(&there, p->resident); }

  bool find(uint64_t key, value *to) {
    decltype(table)::const_accessor at;
    if (table.find(at, key)) {
      if (at->second.is) *to = at->second.now;
      return at->second.is;
    }
    if (table.insert(at, key)) asked.push(key);
    return false;
  }

  void put(uint64_t key) {
    if (is_full(&there)) table.erase(pop_key(&there));
    decltype(table)::accessor at;
    if (!table.find(at, key)) stop_for("a key that nobody asked for");
    make_value(key, ++version, &at->second.now);
    at->second.is = true;
    push_key(&there, key);
  }

  static void begin(void *, void *) {}
  static void end(void *, void *) {}
};

struct parts {
  static constexpr uint64_t PARTS = 64;

  struct alignas(128) part {
    std::shared_mutex lock;
    std::unordered_map<uint64_t, entry, by_hash> table;
  };

  part at[PARTS];
  locked_queue asked;
  queue_of_keys there;
  uint64_t version = 0;

  explicit parts(const cache_plan *p) { open_queue(&there, p->resident); }

  part &part_of(uint64_t key) { return at[hash_of(key) >> 32 & (PARTS - 1)]; }

  bool find(uint64_t key, value *to) {
    part &p = part_of(key);
    {
      std::shared_lock<std::shared_mutex> hold(p.lock);
      auto found = p.table.find(key);
      if (found != p.table.end()) {
        if (found->second.is) *to = found->second.now;
        return found->second.is;
      }
    }
    bool is_first;
    {
      std::unique_lock<std::shared_mutex> hold(p.lock);
      is_first = p.table.emplace(key, entry{}).second;
    }
    if (is_first) asked.push(key);
    return false;
  }

  void put(uint64_t key) {
    if (is_full(&there)) {
      uint64_t oldest = pop_key(&there);
      part &p = part_of(oldest);
      std::unique_lock<std::shared_mutex> hold(p.lock);
      p.table.erase(oldest);
    }
    part &p = part_of(key);
    std::unique_lock<std::shared_mutex> hold(p.lock);
    entry &e = p.table[key];
    make_value(key, ++version, &e.now);
    e.is = true;
    push_key(&there, key);
  }

  static void begin(void *, void *) {}
  static void end(void *, void *) {}
};

void *new_reader(void *) { return zeros(sizeof(value)); }

template <class Cache> cache cache_of(const char *name) {
  return {name, [](const cache_plan *p) -> void * { return new Cache(p); }, new_reader, Cache::begin, Cache::end,
    [](void *of, void *by, uint64_t key) -> const uint64_t * {
      value *to = static_cast<value *>(by);
      return static_cast<Cache *>(of)->find(key, to) ? to->word : nullptr;
    },
    [](void *of, uint64_t *key) { return static_cast<Cache *>(of)->asked.try_pop(*key); },
    [](void *of, uint64_t key) { static_cast<Cache *>(of)->put(key); }};
}

}  // namespace

extern "C" const cache peer_caches[] = {cache_of<pointers<ready_queue>>("liburcu memb, array, TBB's queue"),
  cache_of<pointers<locked_queue>>("liburcu memb, array, locked queue"), cache_of<tbb_table>("TBB"),
  cache_of<parts>("64 locked parts"), {}};
