/* Ten thousand threads over a map of 64 readers, some at a time: each opens a reader, and gives it back. So the map is
   opened once for all threads of a server, however many there are after one another. */
#include "../../include/nr.h"
#include <pthread.h>
#include <stdio.h>
#include <stdlib.h>

enum { READERS = 64, AT_ONCE = 8, THREADS = 10000 };

typedef struct visit {
  nr_reader reader;
  uint32_t key;
} visit;

static void want(bool is_so, const char *what) {
  if (is_so) return;
  fprintf(stderr, "threads: %s\n", what);
  exit(1);
}

/* A reader may still hold what it pinned when it is given back. */
static void *visits(void *given) {
  visit *visit = given;
  static _Thread_local nr_rows rows;
  uint32_t count = 0;
  want(nr_find(&visit->reader, visit->key, &rows) == NR_ROWS && rows.row[0].a == visit->key, "the rows of a key");
  want(nr_pin(&visit->reader, visit->key, &count) == NR_ROWS && count == 1, "a pin");
  return NULL;
}

static void fill(nr_writer *writer) {
  nr_reader reader = {0};
  want(nr_open_reader(writer, &reader) == NR_DONE, "the first reader");
  for (uint32_t key = 0; key < AT_ONCE; key++) {
    const nr_row row = {key, 0};
    uint64_t number;
    want(nr_ask(&reader, key, &number) == NR_SEND, "a request");
    want(nr_fill(writer, key, number, &row, 1) == NR_DONE, "a fill");
  }
  want(nr_return_reader(writer, &reader) == NR_DONE, "the first reader back");
}

/* All readers are opened at once, since none was lost and none is handed out twice; each is another one. */
static void open_all(nr_writer *writer) {
  nr_reader readers[READERS] = {{0}}, more = {0};
  for (int i = 0; i < READERS; i++) want(nr_open_reader(writer, &readers[i]) == NR_DONE, "each reader");
  want(nr_open_reader(writer, &more) == NR_NO_READER, "no reader more");
  for (int i = 0; i < READERS; i++) want(nr_return_reader(writer, &readers[i]) == NR_DONE, "each reader back");
}

int main(void) {
  const nr_shape shape = {AT_ONCE, AT_ONCE + READERS + 1, READERS, 1, 0, 0};
  nr_writer writer = {0};
  static visit visit[AT_ONCE];
  pthread_t threads[AT_ONCE];
  want(nr_open(&shape, &writer) == NR_DONE, "a map");
  fill(&writer);
  for (int done = 0; done < THREADS; done += AT_ONCE) {
    for (uint32_t i = 0; i < AT_ONCE; i++) {
      visit[i].key = i;
      want(nr_open_reader(&writer, &visit[i].reader) == NR_DONE, "a reader for each thread");
      want(pthread_create(&threads[i], NULL, visits, &visit[i]) == 0, "a thread");
    }
    for (uint32_t i = 0; i < AT_ONCE; i++) {
      want(pthread_join(threads[i], NULL) == 0, "a thread's end");
      want(nr_return_reader(&writer, &visit[i].reader) == NR_DONE, "a reader back");
    }
  }
  open_all(&writer);
  nr_close_writer(&writer);
  printf("threads: %d had one of %d readers each\n", THREADS, READERS);
  return 0;
}
