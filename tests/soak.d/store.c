/* A cache's store through C under load: rounds, each with a store and threads of its own, until SIGTERM.
     store KEYS SEED
   Readers find without a lock, and share one with the writer for all other calls. A reader that is to load a key reads its
   newest version, and lands it later, unless its load fails. The writer changes keys, and has the store know. */
#include "sets.h"
#include <pthread.h>
#include <signal.h>
#include <stdlib.h>

enum { GETS = 2000, WRITES = 4000, FLIGHTS = 4, LARGEST = 40 };

typedef struct client {
  nr_cache_reader reader;
  uint64_t dice;
  uint32_t place;
} client;

/* What the store is to know of a key's load: 0 where none is under way, and whether its value may not be held. */
typedef struct load {
  uint64_t number;
  bool is_void;
} load;

static pthread_mutex_t lock = PTHREAD_MUTEX_INITIALIZER;
static pthread_cond_t ended = PTHREAD_COND_INITIALIZER;
static nr_cache cache;
static nr_cache_shape shape;
static uint64_t dice;
static load loads[KEYS];
static bool is_changing[KEYS];
static client clients[READERS];
static volatile sig_atomic_t is_over;

static uint64_t id_of(uint32_t key) { return (key + 1) * 0x9e3779b97f4a7c15; }

/* A value of a version has the key and a number of the model's, and as its stamp the version and one. */
static uint64_t value_of(uint32_t key) { return (uint64_t)key << 32 | model_makes(); }
static uint32_t key_of(uint64_t value) { return (uint32_t)(value >> 32); }
static void drop(uint64_t value) { model_drops((uint32_t)value); }

/* A value of some versions is heavier than all together may be, where that has a bound. */
static uint32_t weight_of(uint64_t version) { return (uint32_t)(version % 16); }
static bool is_too_heavy(uint64_t version) { return shape.weight && weight_of(version) > shape.weight; }

static void see(uint32_t key, uint64_t floor, const nr_cache_value *found) {
  model_answers(key, key_of(found->value), found->stamp - 1, floor);
  model_reads((uint32_t)found->value);
}

/* UNDER THE LOCK */

static void comes_out(const nr_given *given) {
  model_wants(given->id == id_of(key_of(given->value)), "another key", "a value came out by another id");
  drop(given->value);
}

static void reap(uint32_t wanted, const char *what) {
  nr_given given;
  uint32_t answer;
  while ((answer = nr_cache_reap(&cache, &given)) == NR_GIVEN) comes_out(&given);
  if (answer != NR_NOTHING && answer != wanted) model_fails("slot leaked", "%s", what);
}

static uint64_t held(void) {
  nr_cache_counts counts;
  model_wants(nr_cache_count(&cache, &counts) == NR_DONE, "answer", "of nr_cache_count");
  model_wants(counts.values <= shape.capacity, "too many values", "more than the capacity");
  model_wants(!shape.weight || counts.weight <= shape.weight, "too heavy", "more than the bound");
  return counts.values;
}

/* A call that puts: whether the store has the value, which is dropped otherwise. */
static bool has_put(uint32_t answer, uint64_t value, const nr_given *given) {
  if (answer == NR_GIVEN) comes_out(given);
  held();
  reap(NR_HELD, "an answer of nr_cache_reap");
  if (answer == NR_GIVEN || answer == NR_DONE) return true;
  drop(value);
  return false;
}

/* A load's end, which those that wait for it hear. */
static void ends(uint32_t key) {
  loads[key].number = 0;
  model_has_loaded(key);
  pthread_cond_broadcast(&ended);
}

/* What a key has now outdates its load. Those that wait need not wait for its end, where the store ends it first. */
static void outdate(uint32_t key, bool is_ended) {
  nr_flight flight;
  loads[key].is_void = true;
  if (!is_ended || !loads[key].number) return;
  model_wants(nr_cache_fail(&cache, loads[key].number, &flight) == NR_DONE && flight.mark == key, "answer", "of nr_cache_fail");
  ends(key);
}

/* READERS */

static void fail(uint32_t key, uint64_t number) {
  nr_flight flight;
  pthread_mutex_lock(&lock);
  uint32_t answer = nr_cache_fail(&cache, number, &flight);
  model_wants(answer == (loads[key].number == number ? NR_DONE : NR_NOTHING), "answer", "of nr_cache_fail");
  if (answer == NR_DONE) ends(key);
  pthread_mutex_unlock(&lock);
  model_counts("load failed", 1);
}

/* Half of those whose value is held hold it themselves before another may take it. */
static void land(client *client, uint32_t key, uint64_t number, uint64_t version, uint64_t bound) {
  nr_cache_value found;
  nr_given given;
  pthread_mutex_lock(&lock);
  uint64_t value = value_of(key), before = held();
  bool is_first = loads[key].number == number, may_stay = is_first && !loads[key].is_void && !is_too_heavy(version);
  uint32_t answer = nr_cache_land(&cache, number, version + 1, value, weight_of(version), bound, &given);
  bool is_held = has_put(answer, value, &given);
  if (is_held && !may_stay) model_fails("stale fill", "of key %u by load %lu", key, number);
  if (!is_held && may_stay) model_fails("answer", "a load of key %u that nothing outdated isn't held", key);
  if (is_first) ends(key);
  if (is_held && model_rolls(&client->dice) % 2)
    model_wants(nr_cache_hold(&client->reader, id_of(key), &found) == NR_ROWS && found.value == value, "answer", "of nr_cache_hold");
  pthread_mutex_unlock(&lock);
  if (!is_held) model_counts("late load refused", 1);
  if (is_held && before == shape.capacity) model_counts("room made for a value", 1);
  if (is_first && is_too_heavy(version)) model_counts("too heavy to be held", 1);
}

static void load_key(client *client, uint32_t key, uint64_t number, uint64_t floor) {
  uint64_t version = model_newest(key);
  model_wants(version >= floor, "older value", "what is loaded");
  if (model_rolls(&client->dice) % 2) model_sleeps(client->place, (unsigned)(model_rolls(&client->dice) % 3));
  if (model_rolls(&client->dice) % 16 == 0) fail(key, number);
  else land(client, key, number, version, model_rolls(&client->dice) % 4 ? 0 : version / 2);
}

/* What a miss comes to: the number of the load that this reader is to do; or 0 once it is to find again, or may load by
   itself where there is room for no more. */
static uint64_t begin(uint32_t key, bool *is_alone) {
  nr_flight flight;
  pthread_mutex_lock(&lock);
  uint32_t answer = nr_cache_begin(&cache, id_of(key), key, &flight);
  if (answer == NR_SEND) {
    model_loads(key);
    loads[key] = (load){flight.number, is_changing[key]};
  }
  if (answer == NR_WAITING) {
    model_wants(flight.number == loads[key].number && flight.mark == key, "answer", "whose load is under way");
    while (loads[key].number == flight.number) pthread_cond_wait(&ended, &lock);
  }
  pthread_mutex_unlock(&lock);
  model_wants(answer == NR_SEND || answer == NR_WAITING || answer == NR_ROWS || answer == NR_FULL, "answer", "of nr_cache_begin");
  *is_alone = answer == NR_FULL;
  return answer == NR_SEND ? flight.number : 0;
}

static void get(client *client, uint32_t key, unsigned milliseconds) {
  nr_cache_value found;
  uint64_t floor = model_floor(key);
  for (bool is_alone = false; !is_alone;) {
    if (nr_cache_find(&client->reader, id_of(key), &found) == NR_ROWS) {
      if (milliseconds) model_sleeps(client->place, milliseconds), model_counts("holder stopped", 1);
      see(key, floor, &found);
      if (model_rolls(&client->dice) % 4) model_wants(nr_cache_release(&client->reader) == NR_DONE, "answer", "of nr_cache_release");
      return;
    }
    uint64_t number = begin(key, &is_alone);
    if (number) return load_key(client, key, number, floor);
  }
  model_counts("no room for a load", 1);
}

static void *read_all(void *place) {
  client *client = &clients[(uintptr_t)place];
  model_begins(client->place);
  for (unsigned turn = 0; turn < GETS; turn++) {
    uint32_t key = model_key(&client->dice, KEYS);
    get(client, key, turn % 128 ? 0 : 2);
    if (turn % 64 == 0) model_sleeps(client->place, 2);
    if (model_rolls(&client->dice) % (READERS * GETS * 4) == 0) get(client, key, 1000 + (unsigned)(model_rolls(&client->dice) % 2000));
  }
  nr_cache_release(&client->reader);
  ends_reading(client->place);
  return NULL;
}

/* THE WRITER */

/* Puts a value, in place of the one that is there or of any: whether the key has it. */
static bool put(uint32_t key, uint64_t version, bool is_swap) {
  nr_cache_value old;
  nr_given given;
  uint64_t value = value_of(key), id = id_of(key);
  uint32_t weight = weight_of(version);
  if (!is_swap) return has_put(nr_cache_put(&cache, id, version + 1, value, weight, 0, &given), value, &given);
  if (nr_cache_look(&cache, id, &old) != NR_ROWS) return drop(value), false;
  uint32_t answer = nr_cache_swap(&cache, id, old.value + 1, version + 1, value, weight, 0, &given);
  model_wants(answer == NR_OTHER, "answer", "of nr_cache_swap");
  return has_put(nr_cache_swap(&cache, id, old.value, version + 1, value, weight, 0, &given), value, &given);
}

/* A key that was written has a new value, or none. */
static void tell_store(uint32_t key, uint64_t version, uint32_t roll) {
  bool is_put = roll % 3 && put(key, version, roll % 3 == 1);
  if (!is_put) nr_cache_invalidate(&cache, id_of(key));
  outdate(key, roll / 3 % 2);
}

static void change(uint32_t key, uint32_t roll) {
  pthread_mutex_lock(&lock);
  model_wants(nr_cache_begin_change(&cache, id_of(key)) == NR_DONE, "answer", "of nr_cache_begin_change");
  model_wants(nr_cache_begin_change(&cache, id_of(key)) == NR_FULL, "answer", "of one change more than there is room for");
  is_changing[key] = true;
  outdate(key, false);
  pthread_mutex_unlock(&lock);
  uint64_t version = model_writes(key);
  if (roll % 8 == 0) model_sleeps(READERS, 1);
  pthread_mutex_lock(&lock);
  is_changing[key] = false;
  model_wants(nr_cache_end_change(&cache, id_of(key)) == NR_DONE, "answer", "of nr_cache_end_change");
  tell_store(key, version, roll / 8);
  pthread_mutex_unlock(&lock);
  model_has_written(key, version);
  model_counts("changed", 1);
}

static void write_key(uint32_t key, uint32_t roll) {
  uint64_t version = model_writes(key);
  pthread_mutex_lock(&lock);
  tell_store(key, version, roll);
  pthread_mutex_unlock(&lock);
  model_has_written(key, version);
}

/* Takes what may go at any time. */
static void evict(uint32_t key, uint32_t roll) {
  nr_given taken;
  pthread_mutex_lock(&lock);
  uint64_t before = held();
  uint32_t answer = roll % 2 ? nr_cache_evict(&cache, id_of(key)) : nr_cache_evict_one(&cache, model_newest(key) / 2, &taken);
  model_wants(held() + (answer == NR_EVICTED) == before, "answer", "how many values an eviction takes");
  reap(NR_HELD, "an answer of nr_cache_reap");
  pthread_mutex_unlock(&lock);
}

/* As after a write of which nobody knows the keys. */
static void invalidate_all(void) {
  pthread_mutex_lock(&lock);
  model_wants(nr_cache_invalidate_all(&cache) == NR_DONE && held() == 0, "answer", "of nr_cache_invalidate_all");
  for (uint32_t key = 0; key < KEYS; key++) outdate(key, false);
  reap(NR_HELD, "an answer of nr_cache_reap");
  pthread_mutex_unlock(&lock);
  model_counts("all invalidated", 1);
}

static void *write_all(void *place) {
  (void)place;
  model_begins(READERS);
  for (unsigned turn = 0; turn < WRITES && reading; turn++) {
    uint32_t key = model_key(&dice, KEYS), roll = (uint32_t)model_rolls(&dice);
    switch (roll % 8) {
      case 0: case 1: change(key, roll / 8); break;
      case 2: case 3: evict(key, roll / 8); break;
      default: write_key(key, roll / 8);
    }
    if (turn % 512 == 0) invalidate_all();
    if (turn % 32 == 0) model_sleeps(READERS, 1);
  }
  model_ends(READERS);
  return NULL;
}

/* ROUNDS */

static void open_all(unsigned number) {
  uint32_t capacity = 1 + (uint32_t)(model_rolls(&dice) % LARGEST), groups = 1 + capacity / (number % 2 ? 5 : 8);
  uint64_t weights[] = {0, 10, 8 + 4 * capacity};
  shape = (nr_cache_shape){.groups = groups, .capacity = capacity, .readers = READERS, .flights = 1 + number % FLIGHTS,
    .changes = 1, .weight = weights[number % 3], .key = model_rolls(&dice)};
  DONE_AT_LAST(nr_open_cache(&shape, &cache));
  for (uint32_t place = 0; place < READERS; place++) {
    clients[place] = (client){.dice = model_rolls(&dice) + 1, .place = place};
    DONE_AT_LAST(nr_open_cache_reader(&cache, &clients[place].reader));
  }
}

/* At rest each value that no key has comes back, and at the end all do. */
static void close_all(void) {
  reap(NR_NOTHING, "a value is held at rest");
  model_lives(held());
  invalidate_all();
  reap(NR_NOTHING, "a value is held at the end");
  model_lives(0);
  for (uint32_t place = 0; place < READERS; place++) nr_close_cache_reader(&clients[place].reader);
  nr_close_cache(&cache);
}

static void end(int number) { is_over = number; }

int main(int count, char **words) {
  model_wants(count == 3, "setup", "store KEYS SEED");
  model_opens_keys(words[1]);
  dice = strtoull(words[2], NULL, 10) * 2 + 1;
  signal(SIGTERM, end);
  /* The later stores live longer. */
  for (unsigned stores = 1; !is_over; stores++) {
    open_all(stores);
    for (unsigned turn = 0; turn < stores && !is_over; turn++) run_round(read_all, write_all);
    close_all();
  }
  model_tells_counts();
  return 0;
}
