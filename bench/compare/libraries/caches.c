/* Measures caches of some of the keys' values, in bursts as libraries.c does. Readers get keys: by Zipf's law; evenly, of
   half as many as the cache may have, so that all are there; or a new one each time, so that none is. In one kind of cache
   a thread beside the readers loads what they miss, and in the other they load it themselves. Prints lines as libraries.c
   does, with who loads, and how long, in place of the keys' kind, and the values that the cache may have in place of the
   writer's updates: gets a second, and how many of them found no value; with `timed` the median, p99 and p99.9 of one
   get, waiting and all.
   Usage: caches keys=N resident=N [loads] [timed] [drawn=zipf|there|new] [threads=1,3] [rounds=N] [burst=MS] [load=NS]
     [fifo] [cpus=0,2,1,3] [NAME ..]; with `loads` those whose readers load. */
#define _GNU_SOURCE
#include "bursts.h"
#include "cache.h"

enum { MOST = 8 };

#define MAYBE __attribute__((weak))
extern const cache this_cache;
extern const cache peer_caches[] MAYBE, rust_cache MAYBE, dashmap_cells MAYBE, lru_parts MAYBE, flights MAYBE;

typedef enum { ZIPF, THERE, NEW, DRAWS } draw;
static const char *const drawn_so[DRAWS] = {"zipf", "there", "new"};

static struct {
  cache is;
  void *at;
  void *reader[MOST_READERS];
} runs[MOST];
static int count;
static cache_plan plan_of;
static double load_ns;
static bool timed, readers_load;
static draw drawn;
static uint64_t *order[MOST_READERS];
static uint32_t *sample[MOST_READERS];
static uint64_t drawn_new[MOST_READERS];
static _Thread_local uint64_t loaded;

typedef struct {
  _Alignas(256) int run;
  int id;
  uint64_t from, made, wrong, samples, misses;
} job;

static void spend(double from) {
  while (load_ns > 0 && now() - from < load_ns) _mm_pause();
}

void load_value(uint64_t key, value *to) {
  spend(load_ns > 0 ? now() : 0);
  make_value(key, ++loaded, to);
}

static uint64_t key_for(const job *j, uint64_t i) {
  return drawn == NEW ? mixed(((uint64_t)j->id << 48) + ++drawn_new[j->id]) : order[j->id][i % DRAWN];
}

/* A get: of the rows that the key had, whenever they came. */
static const uint64_t *found(job *j, uint64_t key) {
  const cache *c = &runs[j->run].is;
  const uint64_t *word = c->find(runs[j->run].at, runs[j->run].reader[j->id], key);
  if (!word) j->misses++;
  while (!word && now() < until) {
    _mm_pause();
    word = c->find(runs[j->run].at, runs[j->run].reader[j->id], key);
  }
  return word;
}

static void get(job *j, uint64_t key) {
  uint64_t began = timed ? ticks() : 0;
  const uint64_t *word = found(j, key);
  if (!word) return;
  uint64_t took = timed ? ticks() - began : 0;
  if (timed && j->samples < SAMPLES) sample[j->id][j->samples++] = (uint32_t)(took > UINT32_MAX ? UINT32_MAX : took);
  j->wrong += !is_whole(key, word);
  j->made++;
}

static void *gets(void *given) {
  job *j = given;
  runs[j->run].is.begin(runs[j->run].at, runs[j->run].reader[j->id]);
  begun(j->id);
  loaded = 0;
  for (uint64_t i = j->from; now() < until; i += 16)
    for (uint64_t k = i; k < i + 16; k++) get(j, key_for(j, k));
  j->misses += loaded;
  runs[j->run].is.end(runs[j->run].at, runs[j->run].reader[j->id]);
  return NULL;
}

static void *loads(void *given) {
  job *j = given;
  const cache *c = &runs[j->run].is;
  c->begin(runs[j->run].at, NULL);
  begun(j->id);
  double is;
  while ((is = now()) < until) {
    uint64_t key;
    if (!c->take(runs[j->run].at, &key)) continue;
    spend(is);
    c->put(runs[j->run].at, key);
    j->made++;
  }
  c->end(runs[j->run].at, NULL);
  return NULL;
}

typedef enum { GETS, MISSES, P50, P99, P999, MEASURES } measure;
static const char *const measured[MEASURES] = {"gets", "misses", "get p50", "get p99", "get p99.9"};
static double told[MEASURES][MOST][MOST_ROUNDS];
static uint64_t wrong[MOST];

static void tell_samples(int m, int round, int readers, const job jobs[]) {
  static double merged[MOST_READERS * SAMPLES];
  int n = 0;
  for (int t = 0; t < readers; t++)
    for (uint64_t i = 0; i < jobs[t].samples; i++) merged[n++] = sample[t][i] / ticks_of_ns;
  qsort(merged, (size_t)n, sizeof *merged, by_size);
  told[P50][m][round] = merged[n / 2];
  told[P99][m][round] = merged[(int)(0.99 * n)];
  told[P999][m][round] = merged[(int)(0.999 * n)];
}

/* Whether each reader came to run. */
static bool burst(int m, int round, int readers) {
  pthread_t thread[MOST_READERS + 1];
  job jobs[MOST_READERS + 1];
  int threads = readers + !readers_load;
  expect(threads);
  for (int t = 0; t < threads; t++) {
    jobs[t] = (job){.run = m, .id = t, .from = chance(DRAWN)};
    if (pthread_create(&thread[t], NULL, t < readers ? gets : loads, &jobs[t])) stop_for("a thread");
  }
  for (int t = 0; t < threads; t++) pthread_join(thread[t], NULL);
  if (first_come) usleep((useconds_t)(burst_ns / 1000));
  uint64_t made = 0, misses = 0;
  for (int t = 0; t < readers; t++) {
    if (!jobs[t].made) return false;
    made += jobs[t].made, misses += jobs[t].misses, wrong[m] += jobs[t].wrong;
  }
  told[GETS][m][round] = (double)made * 1e9 / burst_ns;
  told[MISSES][m][round] = (double)misses / (double)made;
  if (timed) tell_samples(m, round, readers, jobs);
  return true;
}

static void begin(const cache *c, char **name) {
  bool is_named = !*name;
  for (; *name; name++) is_named |= !strcmp(*name, c->name);
  if (!is_named || readers_load == (c->take != NULL)) return;
  runs[count].is = *c;
  runs[count].at = c->open(&plan_of);
  for (int t = 0; t < MOST_READERS; t++) runs[count].reader[t] = c->reader(runs[count].at);
  count++;
}

static void begin_all(char **name) {
  const cache *const alone[] = {&this_cache, &rust_cache, &dashmap_cells, &lru_parts, &flights};
  for (size_t i = 0; i < sizeof alone / sizeof *alone; i++)
    if (alone[i]) begin(alone[i], name);
  for (const cache *c = peer_caches; c && c->name; c++) begin(c, name);
  if (!count) stop_for("there is no such cache");
}

static void draw_keys(void) {
  for (int t = 0; t < MOST_READERS; t++) {
    sample[t] = malloc(SAMPLES * sizeof(uint32_t));
    order[t] = malloc(DRAWN * sizeof(uint64_t));
    for (int i = 0; i < DRAWN; i++) {
      uint64_t at = drawn == ZIPF ? scattered(zipf_drawn(plan_of.keys), plan_of.keys) : chance(plan_of.resident / 2);
      order[t][i] = at;
    }
  }
}

/* Each cache is filled before it is measured. */
static void fill_all(void) {
  double ns = burst_ns;
  burst_ns = 3e8;
  for (int m = 0; m < count; m++)
    while (!burst(m, 0, 3)) continue;
  burst_ns = ns;
}

static void measure_all(int readers, int rounds) {
  for (int r = 0; r < rounds; r++) {
    int place[MOST];
    in_chance_order(place, count);
    for (int i = 0; i < count; i++)
      while (!burst(place[i], r, readers)) continue;
  }
  for (int m = 0; m < count; m++) {
    if (wrong[m]) {
      fprintf(stderr, "caches: %s: %llu wrong answers\n", runs[m].is.name, (unsigned long long)wrong[m]);
      exit(1);
    }
    for (measure what = timed ? P50 : GETS; what < (timed ? MEASURES : P50); what++) {
      double *of = told[what][m], middle = at_part(of, rounds, 0.5);
      printf("%s\t%d\t%s, load %g ns\t%llu\t%s\t%d\t%llu\t%s\t%.4g\t%.4g\t%.4g\n", measured[what], ROWS,
        readers_load ? "readers load" : "a thread loads", load_ns, (unsigned long long)plan_of.keys, drawn_so[drawn], readers,
        (unsigned long long)plan_of.resident, runs[m].is.name, middle, at_part(of, rounds, 0.25), at_part(of, rounds, 0.75));
    }
  }
  fflush(stdout);
}

int main(int words, char **word) {
  int rounds = 5, thread[MOST_READERS] = {3}, threads = 1;
  char **name = &word[words];
  for (int i = 1; i < words; i++) {
    const char *w = word[i];
    if (!strncmp(w, "keys=", 5)) plan_of.keys = strtoull(w + 5, NULL, 10);
    else if (!strncmp(w, "resident=", 9)) plan_of.resident = strtoull(w + 9, NULL, 10);
    else if (!strncmp(w, "rounds=", 7)) rounds = atoi(w + 7);
    else if (!strncmp(w, "burst=", 6)) burst_ns = atof(w + 6) * 1e6;
    else if (!strncmp(w, "load=", 5)) load_ns = atof(w + 5);
    else if (!strcmp(w, "loads")) readers_load = true;
    else if (!strcmp(w, "timed")) timed = true;
    else if (!strncmp(w, "threads=", 8)) threads = numbers(w + 8, thread, MOST_READERS);
    else if (!strncmp(w, "drawn=", 6))
      for (draw d = 0; d < DRAWS; d++) drawn = strcmp(w + 6, drawn_so[d]) ? drawn : d;
    else if (!strcmp(w, "fifo")) first_come = true;
    else if (!strncmp(w, "cpus=", 5)) cpu_count = numbers(w + 5, cpus, MOST_CPUS);
    else {
      name = &word[i];
      break;
    }
  }
  if (!plan_of.keys || plan_of.resident < 2 || rounds < 1 || rounds > MOST_ROUNDS) stop_for("usage: caches keys=N resident=N ..");
  if (drawn == NEW && !readers_load) stop_for("new keys are for readers that load");
  time_ticks();
  draw_keys();
  begin_all(name);
  go_first();
  fill_all();
  for (int t = 0; t < threads; t++) measure_all(thread[t], rounds);
  return 0;
}
