/* Refuses memory and threads, fills the disk and sets the clock back, in the program that it is loaded into. The driver
   says when by the words of the page that SOAK_CONTROL names, and reads there how often each came. */
#define _GNU_SOURCE
#include <dlfcn.h>
#include <errno.h>
#include <fcntl.h>
#include <pthread.h>
#include <stdatomic.h>
#include <stdint.h>
#include <stdlib.h>
#include <sys/mman.h>
#include <sys/stat.h>
#include <time.h>
#include <unistd.h>

enum { MEMORY, THREADS, DISK, CLOCK, KINDS };

/* Of memory and threads one request in so many is refused, none at 0. The disk is full at 1. The clock is so many
   nanoseconds back. */
typedef struct page {
  _Atomic uint64_t wanted[KINDS], counts[KINDS];
} page;

static page none, *control = &none;
static _Atomic uint64_t dice;

__attribute__((constructor)) static void begin(void) {
  const char *name = getenv("SOAK_CONTROL");
  int file = name ? open(name, O_RDWR | O_CLOEXEC) : -1;
  void *at = file < 0 ? MAP_FAILED : mmap(NULL, sizeof(page), PROT_READ | PROT_WRITE, MAP_SHARED, file, 0);
  dice = (uint64_t)getpid() << 32;
  if (at != MAP_FAILED) control = at;
}

static int comes(int kind) {
  uint64_t wanted = control->wanted[kind];
  if (!wanted) return 0;
  uint64_t roll = atomic_fetch_add(&dice, 1) * 0x9e3779b97f4a7c15;
  roll = (roll ^ roll >> 30) * 0xbf58476d1ce4e5b9;
  if ((roll ^ roll >> 31) % wanted) return 0;
  control->counts[kind]++;
  return 1;
}

#define NEXT(result, name, ...) \
  static result (*next)(__VA_ARGS__); \
  if (!next) next = (result (*)(__VA_ARGS__))dlsym(RTLD_NEXT, name)

void *malloc(size_t bytes) {
  NEXT(void *, "malloc", size_t);
  return comes(MEMORY) ? NULL : next(bytes);
}

void *realloc(void *block, size_t bytes) {
  NEXT(void *, "realloc", void *, size_t);
  return comes(MEMORY) ? NULL : next(block, bytes);
}

int posix_memalign(void **block, size_t align, size_t bytes) {
  NEXT(int, "posix_memalign", void **, size_t, size_t);
  return comes(MEMORY) ? ENOMEM : next(block, align, bytes);
}

int pthread_create(pthread_t *thread, const pthread_attr_t *how, void *(*work)(void *), void *given) {
  NEXT(int, "pthread_create", pthread_t *, const pthread_attr_t *, void *(*)(void *), void *);
  return comes(THREADS) ? EAGAIN : next(thread, how, work, given);
}

static int is_full(int file) {
  struct stat told;
  if (!control->wanted[DISK] || file < 3 || fstat(file, &told) || !S_ISREG(told.st_mode)) return 0;
  errno = ENOSPC;
  return comes(DISK);
}

ssize_t write(int file, const void *bytes, size_t count) {
  NEXT(ssize_t, "write", int, const void *, size_t);
  return is_full(file) ? -1 : next(file, bytes, count);
}

ssize_t pwrite64(int file, const void *bytes, size_t count, off64_t from) {
  NEXT(ssize_t, "pwrite64", int, const void *, size_t, off64_t);
  return is_full(file) ? -1 : next(file, bytes, count, from);
}

ssize_t pwrite(int file, const void *bytes, size_t count, off_t from) {
  return pwrite64(file, bytes, count, from);
}

/* What was told last of each clock, to count the times at which it went back. */
static _Atomic int64_t told_last[2];

int clock_gettime(clockid_t clock, struct timespec *time) {
  NEXT(int, "clock_gettime", clockid_t, struct timespec *);
  int answer = next(clock, time);
  if (answer || (clock != CLOCK_REALTIME && clock != CLOCK_MONOTONIC)) return answer;
  int64_t back = (int64_t)control->wanted[CLOCK];
  int64_t now = time->tv_sec * 1000000000 + time->tv_nsec - back;
  /* The other clock should never go back, and on some machines goes back a little. */
  if (clock == CLOCK_REALTIME) now -= 3600 * back;
  if (now < atomic_exchange(&told_last[clock == CLOCK_MONOTONIC], now) && back) control->counts[CLOCK]++;
  *time = (struct timespec){now / 1000000000, now % 1000000000};
  return 0;
}
