/* Measures maps of several libraries in one process: bursts of reads by pinned threads, in rounds, each of which has them
   in another order of chance; in which order they are opened, chance decides too, by the seed. Prints lines of fields
   between tabs: what was measured, rows, kind and number of the keys, how they are drawn, reading threads, the writer's
   updates a second (0: none, -1: as many as it can), the map, the median, and the quartiles.
   Usage: libraries reads|bytes|checks keys=N [ids] [rounds=N] [burst=MS] [threads=1,2,3,4] [writer=0|-1|N]
     [drawn=even,zipf,hot,absent] [timed] [fifo] [cpus=0,2,1,3] [seed=N] [NAME ..] */
#define _GNU_SOURCE
#include "bursts.h"
#include <sys/wait.h>

enum { MOST = 32 };

/* Of a library that isn't there the object isn't linked. */
#define MAYBE __attribute__((weak))
extern const contestant this_map, this_map_kept, this_map_each, this_map_each_rows, plain, plain_each, lock_a_key, counted,
    counted_each, announcing, announcing_each, handled, releasing, releasing_each, versioned;
extern const contestant this_ids, this_ids_each, this_ids_each_rows, counted_ids, counted_each_ids, announcing_ids,
    announcing_each_ids, handled_ids, releasing_ids, releasing_each_ids;
extern const contestant this_map_behind MAYBE, qsbr_array MAYBE, qsbr_table MAYBE, memb_array MAYBE, memb_table MAYBE,
    arc_swaps MAYBE, dashmaps MAYBE, tbb_map MAYBE, cuckoo MAYBE, michael MAYBE;

static const contestant *const all[] = {&this_map, &this_map_kept, &this_map_each, &this_map_each_rows, &counted,
    &counted_each, &announcing, &announcing_each, &handled, &releasing, &releasing_each, &versioned, &this_ids, &this_ids_each,
    &this_ids_each_rows, &counted_ids, &counted_each_ids, &announcing_ids, &announcing_each_ids, &handled_ids, &releasing_ids,
    &releasing_each_ids, &qsbr_array, &memb_array, &arc_swaps, &lock_a_key, &plain, &plain_each, &qsbr_table, &memb_table,
    &dashmaps, &tbb_map, &cuckoo, &michael, &this_map_behind};

typedef enum { EVEN, ZIPF, HOT, ABSENT, DRAWS } draw;
static const char *const drawn_so[DRAWS] = {"even", "zipf", "hot", "absent"};

typedef struct {
  const contestant *is;
  void *map;
  void *reader[MOST_READERS];
  uint64_t version;
} running;

static running runs[MOST];
static int count;
static plan keys;
static uint64_t *order[DRAWS][MOST_READERS + 1];

static uint64_t drawn_at(draw how) {
  switch (how) {
    case ZIPF: return scattered(zipf_drawn(keys.keys), keys.keys);
    case HOT: return scattered(17, keys.keys);
    case ABSENT: return keys.keys + chance(keys.keys);
    default: return chance(keys.keys);
  }
}

static void draw_keys(draw how) {
  for (int t = 0; t <= MOST_READERS; t++) {
    if (order[how][t]) return;
    order[how][t] = malloc(DRAWN * sizeof(uint64_t));
    for (int i = 0; i < DRAWN; i++) {
      order[how][t][i] = key_at(&keys, drawn_at(how));
    }
  }
}

/* A thread's part of a burst, apart from the other threads' lines. */
typedef struct {
  _Alignas(256) running *run;
  const uint64_t *keys;
  int id;
  uint64_t from;
  double each;
  uint64_t made, wrong, samples;
} job;

static bool timed, checked, absent;
static double per_second;
static uint32_t *sample[MOST_READERS];

/* Whether a find was wrong: of an absent id by finding it, and else by its first and its last row, and by all of them where
   that is what is measured. */
static inline uint64_t is_wrong(uint64_t key, const uint64_t *word) {
  if (absent || !word) return absent == !word ? 0 : 1;
  if (checked) return !is_whole(key, word);
  return (word[0] ^ key) | (word[WORDS - 2] ^ key) | ((word[1] ^ word[WORDS - 1]) >> 8) ? 1 : 0;
}

/* How many of 64 finds were wrong. */
static uint64_t find_64(job *j, const uint64_t *key) {
  const contestant *c = j->run->is;
  void *map = j->run->map, *reader = j->run->reader[j->id];
  uint64_t bad = 0;
  if (c->find_each) {
    const uint64_t *found[GROUP];
    for (int g = 0; g < 64; g += GROUP) {
      c->find_each(map, reader, &key[g], found);
      for (int i = 0; i < GROUP; i++) bad += is_wrong(key[g + i], found[i]);
    }
  } else
    for (int i = 0; i < 64; i++) bad += is_wrong(key[i], c->find(map, reader, key[i]));
  return bad;
}

static uint64_t find_64_timed(job *j, const uint64_t *key) {
  const contestant *c = j->run->is;
  void *map = j->run->map, *reader = j->run->reader[j->id];
  uint64_t bad = 0;
  for (int i = 0; i < 64; i++) {
    uint64_t began = ticks();
    const uint64_t *word = c->find(map, reader, key[i]);
    uint64_t took = ticks() - began;
    if (j->samples < SAMPLES) sample[j->id][j->samples++] = (uint32_t)(took > UINT32_MAX ? UINT32_MAX : took);
    bad += is_wrong(key[i], word);
  }
  return bad;
}

static void *reads(void *given) {
  job *j = given;
  j->run->is->begin(j->run->map, j->run->reader[j->id]);
  double began = begun(j->id);
  while (now() < until) {
    const uint64_t *key = &j->keys[(j->from + j->made) % DRAWN];
    j->wrong += timed ? find_64_timed(j, key) : find_64(j, key);
    j->made += 64;
  }
  j->each = (now() - began) / (double)j->made;
  j->run->is->end(j->run->map, j->run->reader[j->id]);
  return NULL;
}

static void *writes(void *given) {
  job *j = given;
  j->run->is->begin(j->run->map, NULL);
  double began = begun(j->id), is;
  while ((is = now()) < until) {
    if (per_second > 0 && is - began < (double)j->made * 1e9 / per_second) {
      _mm_pause();
      continue;
    }
    j->run->is->update(j->run->map, j->keys[(j->from + j->made) % DRAWN], ++j->run->version & 0xffffffffffff);
    j->made++;
  }
  j->each = (now() - began) / (double)(j->made ? j->made : 1);
  j->run->is->end(j->run->map, NULL);
  return NULL;
}

typedef enum { TIME, UPDATES, P50, P99, P999, MEASURES } measure;
static const char *const measured[MEASURES] = {"ns", "updates", "p50", "p99", "p99.9"};
static double told[MEASURES][MOST][MOST_ROUNDS];
static uint64_t wrong[MOST];

static void tell_samples(int m, int round, int threads, const job jobs[]) {
  static double merged[MOST_READERS * SAMPLES];
  int n = 0;
  for (int t = 0; t < threads; t++)
    for (uint64_t i = 0; i < jobs[t].samples; i++) merged[n++] = sample[t][i] / ticks_of_ns;
  if (!n) return;
  qsort(merged, (size_t)n, sizeof *merged, by_size);
  told[P50][m][round] = merged[n / 2];
  told[P99][m][round] = merged[(int)(0.99 * n)];
  told[P999][m][round] = merged[(int)(0.999 * n)];
}

/* Whether each thread came to run. */
static bool burst(int m, int round, draw how, int threads) {
  pthread_t thread[MOST_READERS + 1];
  job jobs[MOST_READERS + 1];
  int all_threads = threads + (per_second ? 1 : 0);
  expect(all_threads);
  for (int t = 0; t < all_threads; t++) {
    jobs[t] = (job){&runs[m], order[how][t], t, chance(DRAWN / 64) * 64, 0, 0, 0, 0};
    if (pthread_create(&thread[t], NULL, t < threads ? reads : writes, &jobs[t])) stop_for("a thread");
  }
  bool all_ran = true;
  told[TIME][m][round] = told[UPDATES][m][round] = 0;
  for (int t = 0; t < all_threads; t++) {
    pthread_join(thread[t], NULL);
    all_ran &= jobs[t].made > 0;
    if (t < threads) told[TIME][m][round] += jobs[t].each / threads, wrong[m] += jobs[t].wrong;
    else told[UPDATES][m][round] = 1e9 / jobs[t].each;
  }
  if (timed) tell_samples(m, round, threads, jobs);
  if (first_come) usleep((useconds_t)(burst_ns / 1000));
  return all_ran;
}

static bool is_measured(const contestant *c) { return !(c->reads_only && per_second) && !((timed || absent) && c->find_each); }

static void tell(measure what, draw how, int threads, int m, int rounds) {
  double *of = told[what][m], middle = at_part(of, rounds, 0.5);
  printf("%s\t%d\t%s\t%llu\t%s\t%d\t%g\t%s\t%.4g\t%.4g\t%.4g\n", measured[what], ROWS, keys.ids ? "ids" : "numbers",
    (unsigned long long)keys.keys, drawn_so[how], threads, per_second, runs[m].is->name, middle, at_part(of, rounds, 0.25),
    at_part(of, rounds, 0.75));
}

static bool is_told(measure what, int threads) {
  switch (what) {
  case TIME: return !timed && !checked && threads;
  case UPDATES: return per_second < 0 && !timed && !checked;
  default: return timed && threads;
  }
}

static void measure_all(draw how, int threads, int rounds) {
  absent = how == ABSENT;
  for (int r = 0; r < rounds; r++) {
    int place[MOST];
    in_chance_order(place, count);
    for (int i = 0; i < count; i++)
      if (is_measured(runs[place[i]].is))
        while (!burst(place[i], r, how, threads)) continue;
  }
  for (int m = 0; m < count; m++) {
    if (!is_measured(runs[m].is)) continue;
    if (wrong[m]) {
      fprintf(stderr, "libraries: %s: %llu wrong answers\n", runs[m].is->name, (unsigned long long)wrong[m]);
      exit(1);
    }
    for (measure what = TIME; what < MEASURES; what++)
      if (is_told(what, threads)) tell(what, how, threads, m, rounds);
  }
  fflush(stdout);
}

static bool is_named(const contestant *c, char **name) {
  if (!*name) return true;
  for (; *name; name++)
    if (!strcmp(*name, c->name)) return true;
  return false;
}

static bool fits(const contestant *c) { return c->keys == BOTH || (c->keys == IDS) == keys.ids; }

/* Whose map it reads: another's, if that is measured too. */
static running *owner_of(running *r) {
  for (int m = 0; m < count && r->is->map_of; m++)
    if (runs[m].is == r->is->map_of) return &runs[m];
  return r;
}

/* In an order of chance, since the first may get huge pages that the last one doesn't. */
static void open_all(char **name) {
  for (size_t i = 0; i < sizeof all / sizeof *all; i++)
    if (all[i] && fits(all[i]) && is_named(all[i], name)) runs[count++].is = all[i];
  if (!count) stop_for("there is no such map");
  int place[MOST];
  in_chance_order(place, count);
  for (int i = 0; i < count; i++) {
    running *r = &runs[place[i]], *owner = owner_of(r);
    if (!owner->map) owner->map = owner->is->open(&keys);
    r->map = owner->map;
    for (int t = 0; t < MOST_READERS; t++) r->reader[t] = r->is->reader(r->map);
  }
}

static double resident(void) {
  long pages = 0, is = 0;
  FILE *from = fopen("/proc/self/statm", "r");
  if (!from || fscanf(from, "%ld %ld", &pages, &is) != 2) stop_for("/proc/self/statm");
  fclose(from);
  return (double)is * (double)sysconf(_SC_PAGESIZE);
}

/* Of each map in a process of its own: the memory that it has once each key was updated. */
static void tell_bytes(char **name) {
  for (size_t i = 0; i < sizeof all / sizeof *all; i++) {
    const contestant *c = all[i];
    if (!c || !fits(c) || c->map_of || !is_named(c, name)) continue;
    fflush(stdout);
    pid_t child = fork();
    if (!child) {
      double before = resident();
      void *map = c->open(&keys);
      c->begin(map, NULL);
      for (uint64_t k = 0; k < keys.keys; k++) c->update(map, key_at(&keys, k), 1);
      double bytes = (resident() - before) / (double)keys.keys;
      printf("bytes\t%d\t%s\t%llu\t\t0\t0\t%s\t%.0f\t%.0f\t%.0f\n", ROWS, keys.ids ? "ids" : "numbers",
        (unsigned long long)keys.keys, c->name, bytes, bytes, bytes);
      fflush(stdout);
      _exit(0);
    }
    int status;
    if (waitpid(child, &status, 0) < 0 || status) stop_for(c->name);
  }
}

int main(int words, char **word) {
  int rounds = 5, thread[MOST_READERS] = {1}, threads = 1;
  bool is_drawn[DRAWS] = {true};
  char **name = &word[words];
  const char *mode = words > 1 ? word[1] : "";
  for (int i = 2; i < words; i++) {
    const char *w = word[i];
    if (!strncmp(w, "keys=", 5)) keys.keys = strtoull(w + 5, NULL, 10);
    else if (!strcmp(w, "ids")) keys.ids = true;
    else if (!strcmp(w, "timed")) timed = true;
    else if (!strncmp(w, "rounds=", 7)) rounds = atoi(w + 7);
    else if (!strcmp(w, "fifo")) first_come = true;
    else if (!strncmp(w, "seed=", 5)) seed ^= mixed(strtoull(w + 5, NULL, 10));
    else if (!strncmp(w, "burst=", 6)) burst_ns = atof(w + 6) * 1e6;
    else if (!strncmp(w, "threads=", 8)) threads = numbers(w + 8, thread, MOST_READERS);
    else if (!strncmp(w, "writer=", 7)) per_second = atof(w + 7);
    else if (!strncmp(w, "cpus=", 5)) cpu_count = numbers(w + 5, cpus, MOST_CPUS);
    else if (!strncmp(w, "drawn=", 6))
      for (draw d = 0; d < DRAWS; d++) is_drawn[d] = strstr(w, drawn_so[d]) != NULL;
    else {
      name = &word[i];
      break;
    }
  }
  if (!keys.keys || rounds < 1 || rounds > MOST_ROUNDS) stop_for("usage: libraries reads|bytes|checks keys=N ..");
  if (is_drawn[ABSENT] && (!keys.ids || per_second)) stop_for("absent keys are ids, and nobody writes");
  if (!strcmp(mode, "bytes")) {
    tell_bytes(name);
    return 0;
  }
  checked = !strcmp(mode, "checks");
  time_ticks();
  for (int t = 0; t < MOST_READERS; t++) sample[t] = malloc(SAMPLES * sizeof(uint32_t));
  open_all(name);
  for (draw d = 0; d < DRAWS; d++)
    if (is_drawn[d]) draw_keys(d);
  go_first();
  for (draw how = 0; how < DRAWS; how++)
    for (int t = 0; t < threads && is_drawn[how]; t++) measure_all(how, thread[t], rounds);
  return 0;
}
