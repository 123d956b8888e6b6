#include "sets.h"
#include <pthread.h>

static pthread_mutex_t lock = PTHREAD_MUTEX_INITIALIZER;

struct bell {
  pthread_cond_t changed;
  uint64_t count;
};

bell posted = {PTHREAD_COND_INITIALIZER, 0}, filled = {PTHREAD_COND_INITIALIZER, 0};

uint64_t count_of(bell *bell) {
  pthread_mutex_lock(&lock);
  uint64_t count = bell->count;
  pthread_mutex_unlock(&lock);
  return count;
}

void tell(bell *bell) {
  pthread_mutex_lock(&lock);
  bell->count++;
  pthread_cond_broadcast(&bell->changed);
  pthread_mutex_unlock(&lock);
}

void sleep_while(bell *bell, uint64_t seen) {
  pthread_mutex_lock(&lock);
  while (bell->count == seen) pthread_cond_wait(&bell->changed, &lock);
  pthread_mutex_unlock(&lock);
}

/* ROWS */

uint32_t make_rows(uint32_t key, uint64_t version, nr_row *rows) {
  uint32_t count = 1 + (uint32_t)(version % ROWS);
  uint32_t values[ROWS];
  for (uint32_t i = 0; i < count; i++) values[i] = model_makes();
  for (uint32_t i = 0; i < count; i++)
    for (uint32_t j = i + 1; j < count; j++)
      if (values[j] < values[i]) { uint32_t value = values[i]; values[i] = values[j]; values[j] = value; }
  for (uint32_t i = 0; i < count; i++) rows[i] = (nr_row){version + 1, (uint64_t)key << 32 | values[i]};
  return count;
}

void drop_rows(const nr_row *rows, uint64_t count) {
  for (uint64_t i = 0; i < count; i++) model_drops((uint32_t)rows[i].b);
}

void look(uint32_t key, uint64_t floor, const nr_row *rows, uint64_t count, bool is_held) {
  model_wants(count > 0 && count == 1 + (rows[0].a - 1) % ROWS, "torn", "a set has other rows than its version");
  for (uint64_t i = 0; i < count; i++) {
    model_wants(rows[i].a == rows[0].a, "torn", "a set has rows of two versions");
    model_answers(key, (uint32_t)(rows[i].b >> 32), rows[i].a - 1, floor);
    if (is_held) model_reads((uint32_t)rows[i].b);
  }
}

/* THE RING */

static nr_taker taker;
static uint32_t places;
static uint64_t taken;

void open_ring(uint64_t *dice, nr_poster *(*poster)(uint32_t place)) {
  places = 1 + (uint32_t)(model_rolls(dice) % 4);
  taken = 0;
  DONE_AT_LAST(nr_open_queue(KEYS, places, READERS, &taker));
  for (uint32_t place = 0; place < READERS; place++) DONE_AT_LAST(nr_open_poster(&taker, poster(place)));
}

void post(nr_poster *poster, uint32_t place, uint32_t key, uint64_t number) {
  uint32_t answer;
  while ((answer = nr_post(poster, key, number)) != NR_DONE) {
    model_wants(answer == NR_FULL || answer == NR_IN_THE_WAY, "answer", "of nr_post");
    if (answer == NR_FULL) model_counts("queue full", 1), model_sleeps(place, 1);
  }
  tell(&posted);
}

bool take_posted(uint32_t *key, uint64_t *number) {
  if (nr_take(&taker, key, number) != NR_DONE) return false;
  taken++;
  return true;
}

void close_ring(nr_poster *(*poster)(uint32_t place)) {
  for (uint32_t place = 0; place < READERS; place++) nr_close_poster(poster(place));
  nr_close_taker(&taker);
  model_counts("ring gone round", taken / places);
}

/* THREADS */

atomic_uint reading;

void ends_reading(uint32_t place) {
  reading--;
  tell(&posted);
  model_ends(place);
}

/* Whether a thread was made; where not, there is one less. */
static bool is_made(pthread_t *thread, void *(*work)(void *), uint32_t place) {
  model_spawns(place);
  if (!pthread_create(thread, NULL, work, (void *)(uintptr_t)place)) return true;
  model_ends(place);
  return false;
}

void run_round(void *(*read)(void *), void *(*write)(void *)) {
  pthread_t threads[READERS + 1];
  bool are_made[READERS + 1];
  reading = READERS;
  for (uint32_t place = 0; place < READERS; place++)
    if (!(are_made[place] = is_made(&threads[place], read, place))) reading--;
  while (!(are_made[READERS] = is_made(&threads[READERS], write, READERS))) {}
  model_awaits(0, READERS + 1);
  for (uint32_t place = 0; place <= READERS; place++)
    if (are_made[place]) pthread_join(threads[place], NULL);
  model_counts("rounds", 1);
}
