#define _GNU_SOURCE
#include "model.h"
#include <fcntl.h>
#include <pthread.h>
#include <stdarg.h>
#include <stdatomic.h>
#include <stdio.h>
#include <stdlib.h>
#include <string.h>
#include <sys/mman.h>
#include <sys/stat.h>
#include <unistd.h>

_Noreturn void model_fails(const char *check, const char *format, ...) {
  va_list given;
  va_start(given, format);
  printf("failed %s: ", check);
  vprintf(format, given);
  putchar('\n');
  fflush(stdout);
  _exit(1);
}

void model_wants(bool is_so, const char *check, const char *what) {
  if (!is_so) model_fails(check, "%s", what);
}

static struct key {
  _Atomic uint64_t newest, floor;
  atomic_bool loads;
} keys[MOST_KEYS];

uint64_t model_writes(uint32_t key) { return atomic_fetch_add(&keys[key].newest, 1) + 1; }
uint64_t model_newest(uint32_t key) { return keys[key].newest; }
uint64_t model_floor(uint32_t key) { return keys[key].floor; }

void model_has_written(uint32_t key, uint64_t version) {
  uint64_t floor = keys[key].floor;
  while (floor < version && !atomic_compare_exchange_weak(&keys[key].floor, &floor, version)) {}
}

void model_answers(uint32_t key, uint32_t its_key, uint64_t version, uint64_t floor) {
  if (its_key != key) model_fails("another key", "key %u was answered with a value of key %u", key, its_key);
  if (version < floor) model_fails("older value", "key %u has version %lu, after %lu", key, version, floor);
  if (version > keys[key].newest) model_fails("older value", "key %u has version %lu, which nobody wrote", key, version);
}

void model_loads(uint32_t key) {
  if (atomic_exchange(&keys[key].loads, true)) model_fails("two loads", "key %u is loaded twice at a time", key);
}

void model_has_loaded(uint32_t key) { keys[key].loads = false; }

/* A value's number is used again once it was dropped, after all others. */
enum { FREE, LIVES };
static struct value {
  _Atomic uint8_t state;
} values[MOST_VALUES];
static uint32_t free_values[MOST_VALUES];
static uint64_t first_free, last_free, made;
static pthread_mutex_t lock = PTHREAD_MUTEX_INITIALIZER;

uint32_t model_makes(void) {
  pthread_mutex_lock(&lock);
  uint32_t value = made < MOST_VALUES ? (uint32_t)made++ : free_values[first_free++ % MOST_VALUES];
  if (first_free > last_free) model_fails("dropped late", "%d values live", MOST_VALUES);
  pthread_mutex_unlock(&lock);
  values[value].state = LIVES;
  return value;
}

void model_reads(uint32_t value) {
  if (value >= MOST_VALUES || values[value].state != LIVES) model_fails("dropped early", "value %u is read", value);
}

void model_drops(uint32_t value) {
  if (value >= MOST_VALUES || atomic_exchange(&values[value].state, FREE) != LIVES)
    model_fails("dropped twice", "value %u", value);
  pthread_mutex_lock(&lock);
  free_values[last_free++ % MOST_VALUES] = value;
  pthread_mutex_unlock(&lock);
}

void model_lives(uint64_t wanted) {
  uint64_t living = made - (last_free - first_free);
  if (living != wanted) model_fails("dropped late", "%lu values live at rest, where %lu are held", living, wanted);
}

static struct thread {
  atomic_int process;
  enum { ENDED, CALLS, SLEEPS } _Atomic doing;
} threads[MOST_THREADS];

void model_spawns(uint32_t place) {
  threads[place].process = 0;
  threads[place].doing = CALLS;
}

void model_begins(uint32_t place) { threads[place].process = gettid(); }

void model_sleeps(uint32_t place, unsigned milliseconds) {
  threads[place].doing = SLEEPS;
  usleep(1000 * milliseconds);
  threads[place].doing = CALLS;
}

void model_ends(uint32_t place) { threads[place].doing = ENDED; }

/* Whether a thread sleeps, by the system, and how often it has slept before. */
static bool is_asleep(int process, uint64_t *before) {
  char name[64], line[128];
  bool sleeps = false;
  snprintf(name, sizeof name, "/proc/self/task/%d/status", process);
  FILE *status = fopen(name, "r");
  if (!status) return false;
  while (fgets(line, sizeof line, status)) {
    if (!strncmp(line, "State:\tS", 8)) sleeps = true;
    sscanf(line, "voluntary_ctxt_switches: %lu", before);
  }
  fclose(status);
  return sleeps;
}

/* How many of the places have not ended; of those who sleep within a call, *sleeps is the sum of their times. */
static uint32_t look(uint32_t from, uint32_t to, bool *all_asleep, uint64_t *sleeps) {
  uint32_t left = 0;
  *all_asleep = true;
  *sleeps = 0;
  for (uint32_t place = from; place < to; place++) {
    uint64_t before = 0;
    if (threads[place].doing == ENDED) continue;
    left++;
    if (threads[place].doing != CALLS || !is_asleep(threads[place].process, &before)) *all_asleep = false;
    *sleeps += before;
  }
  return left;
}

void model_awaits(uint32_t from, uint32_t to) {
  uint64_t sleeps, last = 0;
  bool all_asleep;
  /* A thread that was woken, or that waits for a processor, doesn't sleep for the system: so looks are enough. */
  for (unsigned looks = 0; look(from, to, &all_asleep, &sleeps); usleep(5000)) {
    looks = all_asleep && sleeps == last ? looks + 1 : 0;
    last = sleeps;
    if (looks == 300) model_fails("asleep", "the threads that are left sleep within calls");
  }
}

static const uint32_t *drawn;
static uint64_t draws;

void model_opens_keys(const char *path) {
  struct stat told;
  int file = open(path, O_RDONLY);
  model_wants(file >= 0 && !fstat(file, &told), "setup", "the keys that were drawn");
  draws = (uint64_t)told.st_size / sizeof *drawn;
  drawn = mmap(NULL, (size_t)told.st_size, PROT_READ, MAP_PRIVATE, file, 0);
  model_wants(drawn != MAP_FAILED, "setup", "the keys that were drawn");
  close(file);
}

uint64_t model_rolls(uint64_t *dice) {
  *dice ^= *dice << 13;
  *dice ^= *dice >> 7;
  *dice ^= *dice << 17;
  return *dice * 0x2545f4914f6cdd1d >> 16;
}

uint32_t model_key(uint64_t *dice, uint32_t keys) { return drawn[model_rolls(dice) % draws] % keys; }

static struct fault {
  const char *name;
  uint64_t times;
} faults[32];

void model_counts(const char *fault, uint64_t times) {
  pthread_mutex_lock(&lock);
  struct fault *at = faults;
  while (at->name && strcmp(at->name, fault)) at++;
  at->name = fault;
  at->times += times;
  pthread_mutex_unlock(&lock);
}

void model_tells_counts(void) {
  for (struct fault *at = faults; at->name; at++) printf("%s: %lu\n", at->name, at->times);
  fflush(stdout);
}
