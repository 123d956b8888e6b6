/* Bare finds of filled keys drawn by chance, as many by each of so many threads: the seconds that all take.
   Usage: finds LIBRARY.so READERS KEYS FINDS-EACH */
#include "library.h"

static library it;
static uint32_t keys;
static long each;
static pthread_barrier_t begin;

/* Of a map's 1,024 readers the first are opened with the library. */
static nr_reader *reader_at(uint32_t i) { return i < READERS ? &it.reader[i].handle : &it.hand[i - READERS]; }

static void *finds(void *reader) {
  static _Thread_local nr_rows found;
  uint64_t s = 88172645463325252u ^ ((uint64_t)(uintptr_t)reader << 7);
  pthread_barrier_wait(&begin);
  for (long i = 0; i < each; i++) {
    s ^= s << 13, s ^= s >> 7, s ^= s << 17;
    if (it.find(reader, (uint32_t)(s >> 20) % keys, &found) != NR_ROWS) stop("a find");
  }
  return NULL;
}

int main(int count, char **words) {
  if (count != 5) stop("usage: finds LIBRARY.so READERS KEYS FINDS-EACH");
  uint32_t readers = (uint32_t)atol(words[2]);
  keys = (uint32_t)atol(words[3]);
  each = atol(words[4]);
  if (readers < 1 || readers > READERS + MOST_HANDS || keys < 1) stop("1 to 2052 readers, at least 1 key");
  uint32_t all = readers < READERS ? READERS : readers;
  load(&it, "nr", words[1], (nr_shape){keys, keys + all + 1, all, 15, 0, 0});
  for (uint32_t i = READERS; i < readers; i++)
    if (it.open_reader(&it.writer, reader_at(i)) != NR_DONE) stop("a reader");
  for (uint32_t key = 0; key < keys; key++) {
    nr_row row = {key, 0};
    uint64_t number = 0;
    if (it.ask(&it.reader[0].handle, key, &number) != NR_SEND) stop("an ask");
    if (it.fill(&it.writer, key, number, &row, 1) != NR_DONE) stop("a fill");
  }
  pthread_t threads[READERS + MOST_HANDS];
  pthread_barrier_init(&begin, NULL, readers + 1);
  for (uint32_t i = 0; i < readers; i++)
    if (pthread_create(&threads[i], NULL, finds, reader_at(i))) stop("a thread");
  pthread_barrier_wait(&begin);
  double began = now();
  for (uint32_t i = 0; i < readers; i++) pthread_join(threads[i], NULL);
  printf("%.6f\n", (now() - began) / 1e9);
  return 0;
}
