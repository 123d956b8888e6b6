/* How a client waits for a key's rows, by a condition variable and by an eventfd, and how the dataflow waits
   for requests. A thread that waits keeps one order: note how often it was woken, look, request, sleep. So a fill or
   a cancel that comes after the look ends the sleep. */
#define _GNU_SOURCE
#include <inttypes.h>
#include <pthread.h>
#include <stdio.h>
#include <stdlib.h>
#include <sys/eventfd.h>
#include <unistd.h>

#include "../../include/nr.h"

enum { KEYS = 4 };

/* How often the dataflow woke, under a lock; an eventfd for the client that sleeps on one, and the dataflow's. */
static pthread_mutex_t lock = PTHREAD_MUTEX_INITIALIZER;
static pthread_cond_t woken = PTHREAD_COND_INITIALIZER;
static uint64_t wakes;
static int answer, bell;

typedef struct client {
  nr_reader reader;
  nr_poster poster;
} client;

static void want(bool is_so, const char *what) {
  if (!is_so) {
    fprintf(stderr, "wait: %s\n", what);
    exit(1);
  }
}

static void ring(int fd) {
  want(write(fd, &(uint64_t){1}, 8) == 8, "a ring");
}

/* Sleeps until the eventfd was rung since the last time. */
static void sleep_on(int fd) {
  uint64_t rings;
  want(read(fd, &rings, 8) == 8, "a sleep");
}

/* Requests a key that was a hole, and rings for the dataflow. Somebody else's request does as well. */
static void request(client *client, uint32_t key) {
  uint64_t number;
  if (nr_ask(&client->reader, key, &number) == NR_SEND) {
    while (nr_post(&client->poster, key, number) != NR_DONE) sched_yield();
    ring(bell);
  }
}

static uint64_t wakes_so_far(void) {
  pthread_mutex_lock(&lock);
  uint64_t seen = wakes;
  pthread_mutex_unlock(&lock);
  return seen;
}

/* By a condition variable. */
static void get(client *client, uint32_t key, nr_rows *rows) {
  for (;;) {
    uint64_t seen = wakes_so_far();
    if (nr_find(&client->reader, key, rows) == NR_ROWS) return;
    request(client, key);
    pthread_mutex_lock(&lock);
    while (wakes == seen) pthread_cond_wait(&woken, &lock);
    pthread_mutex_unlock(&lock);
  }
}

/* By an eventfd, which remembers that it was rung. */
static void get_by_eventfd(client *client, uint32_t key, nr_rows *rows) {
  while (nr_find(&client->reader, key, rows) != NR_ROWS) {
    request(client, key);
    sleep_on(answer);
  }
}

static void *gets(void *at) {
  nr_rows rows;
  for (uint32_t key = 0; key < KEYS; key++) {
    get(at, key, &rows);
    want(rows.count == 1 && rows.row[0].a == key, "the rows of a get");
  }
  return NULL;
}

static void *gets_by_eventfd(void *at) {
  nr_rows rows;
  for (uint32_t key = KEYS; key-- > 0;) {
    get_by_eventfd(at, key, &rows);
    want(rows.count == 1 && rows.row[0].a == key, "the rows of a get by an eventfd");
  }
  return NULL;
}

/* After a fill the key is there to be found, and after a cancel it is to be requested again. */
static void wake(void) {
  pthread_mutex_lock(&lock);
  wakes++;
  pthread_cond_broadcast(&woken);
  pthread_mutex_unlock(&lock);
  ring(answer);
}

/* Each key's first request is cancelled, as where its rows can't be had, and its second is filled: then the dataflow's
   work is done. */
static void serve(nr_writer *writer, nr_taker *taker) {
  bool cancelled[KEYS] = {false};
  for (uint32_t filled = 0; filled < KEYS;) {
    uint32_t key;
    uint64_t number;
    while (nr_take(taker, &key, &number) != NR_DONE) sleep_on(bell);
    nr_row row = {key, 0};
    if (cancelled[key]) {
      want(nr_fill(writer, key, number, &row, 1) == NR_DONE, "a fill");
      filled++;
    } else {
      want(nr_cancel(writer, key) == NR_CANCELLED, "a cancel");
      cancelled[key] = true;
    }
    wake();
  }
}

int main(void) {
  nr_shape shape = {KEYS, KEYS + 3, 2, 15, 0, 0};
  nr_writer writer = {0};
  nr_taker taker = {0};
  want(nr_open(&shape, &writer) == NR_DONE, "a map");
  want(nr_open_queue(KEYS, KEYS, 2, &taker) == NR_DONE, "a queue");
  client clients[2] = {{{0}, {0}}, {{0}, {0}}};
  for (int i = 0; i < 2; i++) {
    want(nr_open_reader(&writer, &clients[i].reader) == NR_DONE, "a reader");
    want(nr_open_poster(&taker, &clients[i].poster) == NR_DONE, "a poster");
  }
  answer = eventfd(0, 0);
  bell = eventfd(0, 0);
  want(answer >= 0 && bell >= 0, "two eventfds");
  pthread_t threads[2];
  want(pthread_create(&threads[0], NULL, gets, &clients[0]) == 0, "a thread");
  want(pthread_create(&threads[1], NULL, gets_by_eventfd, &clients[1]) == 0, "a thread");
  serve(&writer, &taker);
  for (int i = 0; i < 2; i++) {
    want(pthread_join(threads[i], NULL) == 0, "a thread's end");
    nr_close_reader(&clients[i].reader);
    nr_close_poster(&clients[i].poster);
  }
  nr_close_writer(&writer);
  nr_close_taker(&taker);
  close(answer);
  close(bell);
  printf("wait: each of two clients got %d keys\n", KEYS);
  return 0;
}
