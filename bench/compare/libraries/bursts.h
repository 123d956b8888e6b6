/* Bursts: threads pinned to processors, which begin together and end at one time; what they take, and the keys that
   they draw. */
#ifndef BURSTS_H
#define BURSTS_H

#include "contestant.h"
#include <math.h>
#include <pthread.h>
#include <sched.h>
#include <time.h>
#include <unistd.h>
#include <x86intrin.h>

enum { DRAWN = 1 << 20, MOST_ROUNDS = 99, MOST_CPUS = 64, SAMPLES = 1 << 18 };

static int cpus[MOST_CPUS] = {0, 1, 2, 3}, cpu_count = 4;
static uint64_t seed = 88172645463325252u;
static double ticks_of_ns, until, burst_ns = 8e6;
static pthread_barrier_t gate;
/* Before all other threads, where the system lets it. */
static bool first_come;

static uint64_t chance(uint64_t below) {
  seed ^= seed << 13, seed ^= seed >> 7, seed ^= seed << 17;
  return (uint64_t)(((unsigned __int128)seed * below) >> 64);
}

static void in_chance_order(int *place, int count) {
  for (int i = 0; i < count; i++) {
    int other = (int)chance((uint64_t)i + 1);
    place[i] = place[other], place[other] = i;
  }
}

static double now(void) {
  struct timespec t;
  clock_gettime(CLOCK_MONOTONIC, &t);
  return (double)t.tv_sec * 1e9 + (double)t.tv_nsec;
}

static void pin(int place) {
  cpu_set_t set;
  CPU_ZERO(&set);
  CPU_SET(cpus[place % cpu_count], &set);
  pthread_setaffinity_np(pthread_self(), sizeof set, &set);
}

static int by_size(const void *a, const void *b) {
  double x = *(const double *)a, y = *(const double *)b;
  return (x > y) - (x < y);
}

static double at_part(double *values, int n, double part) {
  qsort(values, (size_t)n, sizeof *values, by_size);
  return values[(int)(part * (n - 1) + 0.5)];
}

/* Indices by Zipf's law with 0.99: Gray's method, by the sums of the powers. */
static uint64_t zipf_drawn(uint64_t keys) {
  static double sum, eta, half;
  const double skew = 0.99;
  if (!sum) {
    for (uint64_t i = 1; i <= keys; i++) sum += pow((double)i, -skew);
    half = 1 + pow(0.5, skew);
    eta = (1 - pow(2.0 / (double)keys, 1 - skew)) / (1 - half / sum);
  }
  double u = (double)chance((uint64_t)1 << 53) / 9007199254740992.0, by = u * sum;
  if (by < 1) return 0;
  if (by < half) return 1;
  uint64_t i = (uint64_t)((double)keys * pow(eta * u - eta + 1, 1 / (1 - skew)));
  return i < keys ? i : keys - 1;
}

/* The hottest keys lie anywhere among the numbers. */
static uint64_t scattered(uint64_t i, uint64_t keys) { return mixed(i) % keys; }

/* The processor's clock, once all before it is done and before anything after it begins. */
static inline uint64_t ticks(void) {
  _mm_lfence();
  uint64_t is = __rdtsc();
  _mm_lfence();
  return is;
}

/* A burst of so many threads. */
static void expect(int threads) { pthread_barrier_init(&gate, NULL, (unsigned)threads); }

/* Where that is asked for, this thread and those that it makes go before all other threads. */
static void go_first(void) {
  struct sched_param first = {.sched_priority = 1};
  if (first_come && pthread_setschedparam(pthread_self(), SCHED_FIFO, &first)) stop_for("fifo isn't allowed");
}

/* On its own processor. The burst begins once all are ready; who waits for that sleeps, so that none keeps another out. */
static double begun(int place) {
  pin(place);
  if (pthread_barrier_wait(&gate) == PTHREAD_BARRIER_SERIAL_THREAD) until = now() + burst_ns;
  pthread_barrier_wait(&gate);
  return now();
}

static int numbers(const char *text, int *to, int most) {
  int n = 0;
  for (char *end; *text && n < most; text = *end ? end + 1 : end) to[n++] = (int)strtol(text, &end, 10);
  return n;
}

static void time_ticks(void) {
  double began = now();
  uint64_t first = __rdtsc();
  while (now() - began < 2e7) {
  }
  ticks_of_ns = (double)(__rdtsc() - first) / (now() - began);
}

#endif
