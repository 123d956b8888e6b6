/* What the tests of the map, of ids and of a store through C share: sets of rows, of which the model knows each value,
   requests on their way, and threads that sleep and wake. */
#ifndef SETS_H
#define SETS_H
#include "../../include/nr.h"
#include "model.h"
#include <stdatomic.h>

enum { KEYS = 48, READERS = 6, ROWS = 3 };
static const uint64_t LAST = 4194303;

/* Where memory is refused nothing has changed, and the call is made again. */
#define DONE_AT_LAST(call) \
  for (uint32_t answer; (answer = (call)) != NR_DONE;) \
    if (answer != NR_NO_MEMORY) model_fails(answer == NR_NO_READER ? "slot leaked" : "answer", "%u of " #call, answer)

/* What was posted, or has ended, and how often readers were woken: who sleeps waits for one of them to change. */
typedef struct bell bell;
extern bell posted, filled;
uint64_t count_of(bell *bell);
void tell(bell *bell);
void sleep_while(bell *bell, uint64_t seen);

/* A set of version v has 1 + v % ROWS rows (v + 1, key << 32 | value). */
uint32_t make_rows(uint32_t key, uint64_t version, nr_row *rows);
void drop_rows(const nr_row *rows, uint64_t count);
/* Rows that were found, whole and right; their values live where they are held. */
void look(uint32_t key, uint64_t floor, const nr_row *rows, uint64_t count, bool is_held);

/* The requests on their way: a queue with few places. */
void open_ring(uint64_t *dice, nr_poster *(*poster)(uint32_t place));
void post(nr_poster *poster, uint32_t place, uint32_t key, uint64_t number);
bool take_posted(uint32_t *key, uint64_t *number);
void close_ring(nr_poster *(*poster)(uint32_t place));

/* Threads come and go: that many readers, but for those that are refused, and one writer. Each is given its place. */
extern atomic_uint reading;
void run_round(void *(*read)(void *), void *(*write)(void *));
void ends_reading(uint32_t place);
#endif
