/* SPDX-License-Identifier: MIT OR Apache-2.0 */
/* A reader map for a partially stateful dataflow: many threads look keys up without a lock while one
   fills, updates and evicts them. On it, a map over ids, a queue of requests, and a cache.

   Each function calls the proved map of this repository. Its contract in crates/nr_c says what it does to the
   history that all callers share.

   A handle starts as zeros. It is live from the opening that answered NR_DONE until you close it, which leaves
   zeros in it. A call answers NR_CLOSED if a handle that it takes isn't live or is NULL, and NR_NO_KEY if the map, or
   the queue, has no such key. It has then made no step and changed nothing, not even the caller's own values. Once
   the map's writer was closed, a reader's finds and requests answer NR_CLOSED too, but a find still gives rows that
   are there.

   The caller owes this to each function, and nothing tests it:
   - You may move a live handle: copy it once, and from then on use only the copy. Nobody else copies it or writes to
     it.
   - Only one call at a time uses a handle, and a call that takes two handles takes two different ones. A handle goes
     to another thread by that thread's start or join, by a lock, or by a sequentially consistent atomic.
   - Any other pointer leads to one value of its type that nobody else uses during the call. `rows` and `deltas`
     lead to as many values as the number after them says, and nobody writes these during the call.
   - Neither a signal handler nor the forked child of a process with threads makes a call.

   A step is one atomic operation on one 64-bit word. No call takes a lock or waits. Only openings, nr_return_reader
   and nr_return_poster take memory. Link libnr.a or libnr.so, and the C library, and nothing else. The library is for
   Linux on x86-64-v2, which has SSE4.2 and POPCNT, and nothing tests the processor. C11 or C++11. */
#ifndef NR_H
#define NR_H

#include <stdbool.h>
#include <stddef.h>
#include <stdint.h>

#ifdef __cplusplus
extern "C" {
#endif

/* ANSWERS. No two of them have the same number. Some of them answer several calls. */

#define NR_ROWS 0u       /* the key is filled, and its rows are in the caller's buffer, if the call takes one */
#define NR_HOLE 1u       /* the key is not filled */
#define NR_SEND 2u       /* this is the first request: the caller sends it to the dataflow */
#define NR_WAITING 3u    /* a request is under way */
#define NR_FILLED 4u     /* the key is filled */
#define NR_DONE 5u       /* done; of an opening: the handle is live */
#define NR_NOT_ASKED 6u  /* nobody asked for the key */
#define NR_ALREADY 7u    /* the key is filled */
#define NR_STALE 8u      /* the fill names another ticket number than the request's, such as a cancelled one's */
#define NR_DROPPED 9u    /* the key is not filled, so the update or the replacement is dropped */
#define NR_NO_ROW 10u    /* the set lacks a row that was to be taken away, or has none at this index */
#define NR_TOO_MANY 11u  /* more rows than a key may have */
#define NR_NO_SLOT 12u   /* each slot is a filled key's or held by a reader, and readers hold some */
#define NR_EVICTED 13u   /* the key was filled and is a hole now */
#define NR_CANCELLED 14u /* the request is cancelled; the key's next one gets the next ticket number */
#define NR_NOTHING 15u   /* there was nothing to evict or to cancel, or nothing more to give out */
#define NR_WORN 16u      /* the request has the last ticket number, 4,194,303: only its own fill ends it */
#define NR_ASKED 17u     /* a request is under way */
#define NR_BAD_BATCH 18u /* no signed rows, or more than 64 */
#define NR_NOT_SORTED 19u /* a row is below the one before it */
#define NR_BAD_SIZE 20u  /* a size is out of its limits */
#define NR_NO_MEMORY 21u /* there is no memory */
#define NR_NO_READER 22u /* each reader had a handle already */
#define NR_NO_POSTER 23u /* each poster had a handle already */
#define NR_FULL 24u      /* the queue is full */
#define NR_EMPTY 25u     /* the queue is empty */
#define NR_OTHER 26u     /* the key doesn't have the set that the reader holds */
#define NR_NO_KEY 27u    /* the map, or the queue, has no such key */
#define NR_HOLDING 28u   /* the reader holds a set, which must be released first */
#define NR_NOT_HOLDING 29u /* the reader holds nothing */
#define NR_ALL_FILLED 30u /* each slot is a filled key's, and no reader holds another */
#define NR_CLOSED 31u    /* a handle isn't live: it was closed or never opened, or is NULL. A find without rows and a
                            request answer it also if their map's writer was closed */
#define NR_LIVE 32u      /* the handle to open is live already */
#define NR_IN_THE_WAY 33u /* another thread is within a call of its own: repeat this one */
#define NR_GIVEN 34u     /* done, and a set came back, which nobody holds or can find: its rows are in `had` */
#define NR_HELD 35u      /* sets wait, and a reader holds each of them */
#define NR_READERS_OUT 36u /* some reader was not returned */
#define NR_NAMED 37u     /* the id has a way: rows, or an upquery under way */
#define NR_BAD_ROW 38u   /* a row of an id has an `a` of 0 */
#define NR_STRANGER 39u  /* the handles are of two maps, or of two queues, or the upquery is another map's */
#define NR_ALL_ASKED 40u /* each way of the id's group has an open upquery */
#define NR_OWN 41u /* the value is the caller's own */

/* An answer as text. */
static inline const char *nr_strerror(uint32_t answer) {
  switch (answer) {
  case NR_ROWS: return "the key has rows";
  case NR_HOLE: return "the key is not filled";
  case NR_SEND: return "the request is to be sent";
  case NR_WAITING: return "a request is under way";
  case NR_FILLED: return "the key is filled";
  case NR_DONE: return "done";
  case NR_NOT_ASKED: return "nobody asked for the key";
  case NR_ALREADY: return "the key is filled already";
  case NR_STALE: return "the fill names another request than the key's";
  case NR_DROPPED: return "the key is not filled, so the call is dropped";
  case NR_NO_ROW: return "no such row";
  case NR_TOO_MANY: return "more rows than a key may have";
  case NR_NO_SLOT: return "readers hold the slots that are no filled key's";
  case NR_EVICTED: return "the key is a hole now";
  case NR_CANCELLED: return "the request is taken back";
  case NR_NOTHING: return "there was nothing to do it to";
  case NR_WORN: return "the request has the last number";
  case NR_ASKED: return "the key is asked for";
  case NR_BAD_BATCH: return "no signed rows, or more than 64";
  case NR_NOT_SORTED: return "the rows are not in order";
  case NR_BAD_SIZE: return "a size is out of its limits";
  case NR_NO_MEMORY: return "there is no memory";
  case NR_NO_READER: return "each reader has a handle";
  case NR_NO_POSTER: return "each poster has a handle";
  case NR_FULL: return "the queue is full";
  case NR_EMPTY: return "the queue is empty";
  case NR_OTHER: return "the key hasn't the set that is held";
  case NR_NO_KEY: return "there is no such key";
  case NR_HOLDING: return "the reader holds a set";
  case NR_NOT_HOLDING: return "the reader holds nothing";
  case NR_ALL_FILLED: return "each slot is a filled key's";
  case NR_CLOSED: return "a handle is not live";
  case NR_LIVE: return "the handle is live already";
  case NR_IN_THE_WAY: return "another thread is in the way";
  case NR_GIVEN: return "done, and a set came back";
  case NR_HELD: return "readers hold the sets that wait";
  case NR_READERS_OUT: return "some reader was not returned";
  case NR_NAMED: return "the id has a way";
  case NR_BAD_ROW: return "a row's first number is 0";
  case NR_STRANGER: return "what was given is of two maps or queues";
  case NR_ALL_ASKED: return "each way of the group is asked for";
  case NR_OWN: return "the value is the caller's own";
  default: return "no answer of this library";
  }
}

/* The version of this header, 0.3.0, with 8 bits for each number, and the version of the library. Their first two
   numbers have to agree. */
#define NR_VERSION 0x000300
uint32_t nr_version(void);

/* How many bytes a struct takes in the library. A program in another language, or one that may be linked to another
   library, compares this with its own size. The structs below are numbered from 0, which is nr_row, to 23, which is
   nr_given. For any other number the answer is 0. */
uint32_t nr_struct_size(uint32_t place);

/* VALUES */

/* A row: two numbers, ordered by the first and then by the second. */
typedef struct nr_row {
  uint64_t a;
  uint64_t b;
} nr_row;

/* A buffer for the rows of a key. The first `count` are in use, in ascending order. */
typedef struct nr_rows {
  uint64_t count;
  nr_row row[255];
} nr_rows;

/* A key that nr_find_each finds, the answer, and the buffer for its rows. */
typedef struct nr_wanted {
  uint32_t key;
  uint32_t answer;
  nr_rows rows;
} nr_wanted;

/* A key that nr_find_each_rows finds, the answer, and how many rows its set has. */
typedef struct nr_found {
  uint32_t key;
  uint32_t answer;
  uint32_t count;
} nr_found;

/* A signed row. It is to be added if `plus` is true, and otherwise to be taken away. */
typedef struct nr_delta {
  nr_row row;
  bool plus;
} nr_delta;

/* The sizes of a map to open: 1 to 4,294,967,295 keys, which may be more than slots, 1 to 4,194,303 slots and 1 to
   65,535 readers. A key may have `rows` rows, 1 to 255. The slots' counts of departures begin at `first_count`, and the
   keys' ticket numbers at `first_number`, at most 4,194,303. Set both to 0, except to test the end of a count.
   With keys + readers + 1 slots no fill, update or replacement answers NR_NO_SLOT or NR_ALL_FILLED.
   The map's words take 8 bytes for each key, 16 * rows + 16 for each slot, 128 for each reader and 2,048 more, and as
   much again during the opening. The writer's lists take another 8 bytes for each key, 19 for each slot and 16 for each
   reader. */
typedef struct nr_shape {
  uint32_t keys;
  uint32_t slots;
  uint32_t readers;
  uint32_t rows;
  uint64_t first_count;
  uint64_t first_number;
} nr_shape;

typedef struct nr_size {
  uint32_t keys;
  uint32_t slots;
  uint32_t readers;
  uint32_t rows;
} nr_size;

/* How many of a map's slots have the set of a filled key, how many are retired, and how many no write ever took. A
   retired slot has a set that its key no longer has, whether a reader holds it or not. */
typedef struct nr_slots {
  uint32_t filled;
  uint32_t retired;
  uint32_t free;
} nr_slots;

/* Handles. A map has one writer, and a queue has one taker. nr_remains is a map that was taken apart. */
typedef struct nr_writer {
  void *at;
} nr_writer;

typedef struct nr_reader {
  void *at;
} nr_reader;

typedef struct nr_remains {
  void *at;
} nr_remains;

typedef struct nr_taker {
  void *at;
} nr_taker;

typedef struct nr_poster {
  void *at;
} nr_poster;

/* The sizes of a map over ids: 1 to 536,870,911 groups of eight ways, 1 to 4,194,303 slots and 1 to 65,534
   readers. An id may have `rows` rows, 1 to 254. `key` decides which groups an id has, so draw it at random where
   strangers choose ids. Ticket numbers begin at `first_number`, which you set to 0. With 8 * groups + readers + 2 slots
   no fill or replacement answers NR_NO_SLOT or NR_ALL_FILLED. A group takes 536 bytes, a slot 16 * rows + 51, a
   reader 5,592, and the map 2,048 more. */
typedef struct nr_id_shape {
  uint32_t groups;
  uint32_t slots;
  uint32_t readers;
  uint32_t rows;
  uint64_t key;
  uint64_t first_number;
} nr_id_shape;

/* An upquery that nr_admit opened. Its numbers say whose rows it asks for, and which answer fits. `count` says which of
   the map's admissions opened it: it is 1 for the first, and stays at 2^64 - 1. `map` says which of the program's maps
   over ids that was. */
typedef struct nr_upquery {
  uint64_t id;
  uint64_t number;
  uint32_t way;
  uint64_t count;
  uint64_t map;
} nr_upquery;

typedef struct nr_id_writer {
  void *at;
} nr_id_writer;

typedef struct nr_id_reader {
  void *at;
} nr_id_reader;

/* An id that nr_find_each_id finds, the answer, and the buffer for its rows. */
typedef struct nr_wanted_id {
  uint64_t id;
  uint32_t answer;
  nr_rows rows;
} nr_wanted_id;

/* An id that nr_find_each_rows_id finds, the answer, and how many rows it has. */
typedef struct nr_found_id {
  uint64_t id;
  uint32_t answer;
  uint32_t count;
} nr_found_id;

/* The sizes of a cache: 1 to 516,000 groups of eight places, at most `capacity` values, of which each group can have
   eight at most, and 1 to 65,533 readers. `flights` is how many loads may be under way at a time, and `changes` how many
   changes of the base. All values together weigh `weight` at most; where that is 0 nothing is weighed. `key` is as in
   an nr_id_shape. */
typedef struct nr_cache_shape {
  uint32_t groups;
  uint32_t capacity;
  uint32_t readers;
  uint32_t flights;
  uint32_t changes;
  uint64_t weight;
  uint64_t key;
} nr_cache_shape;

typedef struct nr_cache {
  void *at;
} nr_cache;

typedef struct nr_cache_reader {
  void *at;
} nr_cache_reader;

/* A value that was found, with the stamp that it came with. */
typedef struct nr_cache_value {
  uint64_t stamp;
  uint64_t value;
} nr_cache_value;

/* How many values a cache holds, what they weigh, and how many loads and changes are under way. */
typedef struct nr_cache_counts {
  uint64_t values;
  uint64_t weight;
  uint64_t flights;
  uint64_t changes;
} nr_cache_counts;

/* A load of an id that is under way: which of all it is, from 1 on, and the number that it was begun with. */
typedef struct nr_flight {
  uint64_t number;
  uint64_t mark;
} nr_flight;

/* A value that came out of a cache or was taken, the id that had it, and its stamp. */
typedef struct nr_given {
  uint64_t id;
  uint64_t stamp;
  uint64_t value;
} nr_given;

/* WORKING WITH IT

   A get. Find the key. At a hole request it by nr_ask. The caller that gets NR_SEND passes the key and its ticket
   number to the thread that writes, for instance by nr_post. That thread gets the key's rows and fills the key by that
   ticket number.

   Waiting for a key. Read how often you were woken, then find, request, and sleep, in this order. The thread that writes
   wakes you after each fill. It also wakes you after each nr_cancel, since the key then stays a hole until somebody who
   waits requests it again. This is done by a condition variable, with a count of wake-ups under its lock:

     for (;;) {
       uint64_t seen = wakes_so_far();
       if (nr_find(&client->reader, key, rows) == NR_ROWS) return;
       request(client, key);
       pthread_mutex_lock(&lock);
       while (wakes == seen) pthread_cond_wait(&woken, &lock);
       pthread_mutex_unlock(&lock);
     }

   This is done by an eventfd for each reader, which counts the wake-ups itself:

     while (nr_find(&client->reader, key, rows) != NR_ROWS) {
       request(client, key);
       sleep_on(answer);
     }

   Both are from embed/c/wait.c, a whole program whose dataflow also sleeps while nothing is posted. If the writer may be
   closed before its readers, end the wait at NR_CLOSED too.

   No slot. Nothing has changed. After NR_NO_SLOT have readers release what they hold, or evict a key. After
   NR_ALL_FILLED evict a key. Then repeat the call. nr_stats counts the slots of either kind.

   Hot keys. A find writes its reader's own word, and nothing that readers share. A reader that serves only one hot key
   finds it by nr_find_kept, which writes nothing while the key keeps its set.

   Slots. With keys + readers + 1 slots every write finds one. If many readers hold sets for long, each write then loads
   every reader's word to find a slot, so open keys + 2 readers.

   Before anybody reads. To fill a key, request it by a reader (nr_ask), and fill it by the ticket number that nr_ask
   gave.

   Large maps. With GLIBC_TUNABLES=glibc.malloc.hugetlb=1 in the environment, glibc from 2.35 on asks for huge pages,
   which save a third of a find's time in a map of a million keys.

   Your own data. A thread that finds a set sees everything that the writer's thread had written to memory before it put
   the set. The thread that gets a set back (NR_GIVEN) sees everything that readers had done before they released it.
   The thread that takes a request sees everything that the posting thread had written before it posted that request.

   Rows that refer to data, for instance by an index in a store. A reader may use the data while it holds the set
   (nr_pin, nr_find_kept). Free the data once the set comes back. Each set comes back once: from a call that takes its
   slot (nr_fill_reclaiming, nr_update_reclaiming, nr_replace_reclaiming), from nr_reap, or from nr_next once you took
   the map apart. Rows that an update kept are in its new set too. A plain nr_fill, nr_update or nr_replace
   loses the set that its slot had. embed/c/texts.c is a whole program.
   To keep few sets waiting, open few slots beyond keys + readers, since a write first takes slots that no write took
   before, and call nr_reap after each write while it answers NR_GIVEN. Then only sets that readers hold wait.
   At most as many sets wait as there are slots.

   Dropping a key's rows, because the base changed and you don't update them. Call nr_cancel and then nr_evict. An
   eviction alone leaves an asked key as it is, and the fill under way brings rows that were read before the change.
   After NR_CANCELLED wake those who wait.

   Several maps behind one queue. Open the queue for the sum of their keys. To each key that you post, add the number of
   keys of the maps before its own. */

/* OPENING AND CLOSING. Tests, and no proof, show that NR_NO_MEMORY comes only where there was no memory. */

/* Opens a map, and makes the writer's handle live.
     NR_DONE: the handle is live.
     NR_LIVE if it is live already, NR_BAD_SIZE, or NR_NO_MEMORY. The handle stays as it was. */
uint32_t nr_open(const nr_shape *shape, nr_writer *writer);

/* Makes a reader's handle live. It takes the reader that was returned last, or else a new one.
     NR_DONE: the handle is live.
     NR_LIVE if it is live already, NR_NO_READER, or NR_NO_MEMORY. The handle stays as it was. */
uint32_t nr_open_reader(nr_writer *writer, nr_reader *reader);

/* Ends a reader's handle, releases what the reader holds, and returns the reader, so that nr_open_reader can open it
   again. This is for threads that come and go.
     NR_DONE: the handle is zeros.
     NR_STRANGER for a reader of another map, or NR_NO_MEMORY. Nothing has changed. */
uint32_t nr_return_reader(nr_writer *writer, nr_reader *reader);

/* These end a handle, which is then zeros. If it isn't live, they do nothing. The last handle frees the map's memory.
   nr_close_reader releases what the reader holds, and no handle gets that reader again. nr_close_writer tells the
   readers: once it has returned, their finds answer NR_ROWS or NR_CLOSED, and their requests NR_CLOSED. So wake those
   who wait. */
void nr_close_reader(nr_reader *reader);
void nr_close_writer(nr_writer *writer);

/* Takes a map apart, once each reader that you opened was returned. A closed reader never comes back. No step.
     NR_DONE: the writer's handle is zeros, and `remains` is live and has the sets that no call gave out.
     NR_LIVE if `remains` is live already, or NR_READERS_OUT. Both stay as they were. */
uint32_t nr_take_apart(nr_writer *writer, nr_remains *remains);

/* Gives out the next set, even one that a key still had.
     NR_GIVEN after 2m + 1 steps for a set of m rows, which are in `had`.
     NR_NOTHING once all sets have come out. `had` stays as it was. */
uint32_t nr_next(nr_remains *remains, nr_rows *had);

/* Ends the handle, which is then zeros, and frees the map's memory, with the sets that have not come out. If the handle
   isn't live, this does nothing. */
void nr_close_remains(nr_remains *remains);

/* WHAT A READER CALLS. nr_find, nr_find_each, nr_find_each_rows, nr_ask and nr_pin answer NR_HOLDING if the reader holds
   a set. nr_row_at, nr_copy, nr_again and nr_release answer NR_NOT_HOLDING if it holds none. The call has then made no
   step and changed nothing. If nr_find, nr_find_kept, nr_pin or a find of many by one call finds a hole, it makes 1 step
   more to look whether the writer was closed. The answer is NR_CLOSED if it was, and otherwise NR_HOLE. */

/* Looks a key up.
     NR_ROWS after 2n + 5 steps for n rows, which are in `rows`.
     NR_HOLE after 1 step. `rows` stays as it was.
   If the writer wrote the key meanwhile, NR_ROWS comes after 2 or 4 steps more, and NR_HOLE after 4, 6 or 7. */
uint32_t nr_find(nr_reader *reader, uint32_t key, nr_rows *rows);

/* Looks n keys up in their order, as nr_find_kept does one, and then holds nothing. A key may occur twice.
     NR_DONE: each key has its answer beside it. At NR_ROWS its own `rows` has its rows, and at NR_HOLE that stays as it
     was.
     NR_NO_KEY if the map lacks one of the keys. There was no look-up.
   Besides the steps of the finds it makes 1 at the end if the last key had rows. For each key it makes 3 loads, and 1
   more for each 4 rows, or part of 4, that a key may have above 4 and up to 16. It makes these loads for 16 keys before
   it finds them, so that the caches fetch at once what 16 finds need. In large maps this is faster than single finds.
   For many keys of few rows take nr_find_each_rows. */
uint32_t nr_find_each(nr_reader *reader, nr_wanted *wanted, size_t n);

/* As nr_find_each, but all rows go to one array of yours, which has `all` rows. Each key has all / n of them, in the
   keys' order: the key at index i has those from i * (all / n) on. `count` is how many rows the set has, and 0 unless
   the answer is NR_ROWS. If that is more than the key's part takes, the first ones are there. What isn't written stays
   as it was. Of a set only the rows that are written are read.
   Take this call for many keys where a few rows of each are enough. It is faster: an nr_wanted takes 4,096 bytes, so the
   rows of many share a few sets of the processor's first cache. */
uint32_t nr_find_each_rows(nr_reader *reader, nr_found *wanted, size_t n, nr_row *rows, size_t all);

/* Requests a key, in 2 steps.
     NR_SEND to the first request since the key became a hole. `number` is its ticket number, which the fill has to name.
     NR_WAITING, NR_FILLED, or, after the 1 step that found the writer closed, NR_CLOSED. `number` stays as it was. */
uint32_t nr_ask(nr_reader *reader, uint32_t key, uint64_t *number);

/* Finds a key and holds its set, which stays as it is until the reader releases it, whatever the writer does meanwhile.
     NR_ROWS after 4 steps. `count` is the number of rows.
     NR_HOLE after 1 step. The reader holds nothing, and `count` stays as it was.
   If the writer wrote the key meanwhile, they come after more steps, as in nr_find. */
uint32_t nr_pin(nr_reader *reader, uint32_t key, uint32_t *count);

/* Reads the row at index `place` of the held set, counted from 0.
     NR_ROWS after 2 steps.
     NR_NO_ROW without a step, if the set has no such row. `row` stays as it was. */
uint32_t nr_row_at(nr_reader *reader, uint32_t place, nr_row *row);

/* Copies the rows of the held set into `rows`, in 2 steps for each row: NR_ROWS. */
uint32_t nr_copy(nr_reader *reader, nr_rows *rows);

/* Finds a key again, in 1 step, which loads one word and writes none.
     NR_ROWS if the key still has the set that the reader holds, put by the same call of the writer. This is a find of
     the key, and its rows are those of the held set.
     NR_OTHER if it hasn't.
   The reader holds the same set in either case. */
uint32_t nr_again(nr_reader *reader, uint32_t key);

/* As nr_find, but the reader holds the set for the next call.
     NR_ROWS after 2n + 1 steps, which write no word, if the key still has the set that the reader holds.
     NR_ROWS after 2n + 4 steps, or more as in nr_find, if it finds the key anew.
     NR_HOLE after 1 step, or after 3 if the reader held a set. It holds nothing then, and `rows` stays as it was.
   A held set keeps its slot from the writer, so release a reader that finds nothing for a while. */
uint32_t nr_find_kept(nr_reader *reader, uint32_t key, nr_rows *rows);

/* Ends the hold, in 1 step: NR_DONE. */
uint32_t nr_release(nr_reader *reader);

/* Tells the map's sizes: NR_DONE. No step. */
uint32_t nr_sizes(nr_reader *reader, nr_size *sizes);

/* WHAT THE WRITER CALLS. */

/* Looks a key up, by a find of the writer's own.
     NR_ROWS after 2n + 2 steps for n rows, which are in `rows`.
     NR_HOLE after 1 step. `rows` stays as it was. */
uint32_t nr_look(nr_writer *writer, uint32_t key, nr_rows *rows);

/* Fills an asked key, by its request's ticket number, with n rows in ascending order. Duplicates stay.
     NR_TOO_MANY or NR_NOT_SORTED without a step.
     NR_NOT_ASKED, NR_ALREADY or NR_STALE after 1 step.
     NR_DONE after 2n + 3 steps and the search for a slot.
     NR_NO_SLOT or NR_ALL_FILLED after 1 step and the search.
   A search polls slots, in 1 step each. If readers hold all of them, it loads each reader's word once and polls once
   more, which makes at most 3 * readers + 1 steps.
   Owed: use each answer to a request only once. An eviction keeps the key's ticket number, so an answer that is used
   twice would fill a later request with old rows, and nothing would notice. */
uint32_t nr_fill(nr_writer *writer, uint32_t key, uint64_t number, const nr_row *rows, size_t n);

/* Applies 1 to 64 signed rows to the rows of a filled key, whole or not at all. It adds rows before it takes any away,
   and only the result may not have more rows than a key may have. Of o rows before and n after:
     NR_BAD_BATCH without a step.
     NR_DROPPED after 1 step.
     NR_NO_ROW or NR_TOO_MANY after 2o + 2 steps.
     NR_DONE after 2o + 2n + 4 steps and the search.
     NR_NO_SLOT or NR_ALL_FILLED after 2o + 2 steps and the search. */
uint32_t nr_update(nr_writer *writer, uint32_t key, const nr_delta *deltas, size_t n);

/* Replaces all rows of a filled key at once by n rows in ascending order, without reading the old ones.
     NR_TOO_MANY or NR_NOT_SORTED without a step.
     NR_DROPPED after 1 step.
     NR_DONE after 2n + 3 steps and the search.
     NR_NO_SLOT or NR_ALL_FILLED after 1 step and the search. */
uint32_t nr_replace(nr_writer *writer, uint32_t key, const nr_row *rows, size_t n);

/* As nr_fill, nr_update and nr_replace, but each also gives out the set that its slot had, which no key has and no
   reader holds.
     NR_GIVEN in place of NR_DONE, after 2m + 1 more steps for a set of m rows, which are in `had`.
     NR_DONE if no write ever took the slot, or if nr_reap gave out its set.
   Any answer but NR_GIVEN leaves `had` as it was. */
uint32_t nr_fill_reclaiming(nr_writer *writer, uint32_t key, uint64_t number, const nr_row *rows, size_t n,
  nr_rows *had);
uint32_t nr_update_reclaiming(nr_writer *writer, uint32_t key, const nr_delta *deltas, size_t n, nr_rows *had);
uint32_t nr_replace_reclaiming(nr_writer *writer, uint32_t key, const nr_row *rows, size_t n, nr_rows *had);

/* Gives out a set that no key has any more and no reader holds, before a write takes its slot again. It is the oldest
   that the last look at the readers' words found free, or else the oldest after another look.
     NR_GIVEN after a search of the waiting sets, oldest first, up to that one, and 2m + 1 steps for its m rows.
     NR_HELD after the search, if readers hold all sets that wait.
     NR_NOTHING without a step, if no set waits.
   Any answer but NR_GIVEN leaves `had` as it was. */
uint32_t nr_reap(nr_writer *writer, nr_rows *had);

/* Makes a filled key a hole.
     NR_EVICTED after 2 steps.
     NR_NOTHING after 1 step. An asked key stays asked, and the fill under way puts its rows. If these may be out of
     date, call nr_cancel first. */
uint32_t nr_evict(nr_writer *writer, uint32_t key);

/* Cancels a key's request. The next request gets NR_SEND, and a late fill for the old one NR_STALE.
     NR_CANCELLED after 2 steps. Wake those who wait for the key.
     NR_NOTHING or NR_WORN after 1 step. */
uint32_t nr_cancel(nr_writer *writer, uint32_t key);

/* Tells what a key is, in 1 step: NR_HOLE, NR_ASKED or NR_ROWS. */
uint32_t nr_state(nr_writer *writer, uint32_t key);

/* Tells the ticket number of the key's request, or if there is none that of its next one: NR_DONE. No step. */
uint32_t nr_number(nr_writer *writer, uint32_t key, uint64_t *number);

/* Counts the map's slots, in 1 step: NR_DONE. The three counts add up to all slots. After NR_NO_SLOT or NR_ALL_FILLED
   no slot is free, and the retired ones are those that the call found held. A slot counts as retired until a write
   takes it again, even after nr_reap gave out its set. */
uint32_t nr_stats(nr_writer *writer, nr_slots *slots);

/* WHICH READS SEE WHICH WRITES. A find sees a call of the writer if the find begins after a message about that call's
   return. The message is a thread's start or join, a lock, or an atomic that is sequentially consistent, or released
   and acquired. The find then gives the rows of that write or of a later one, and a hole only if the writer evicted the
   key since. A thread that read a set reads nothing older of that key later, by any handle. Without such a message this
   library promises no order in time.
   In the map's contracts such a message carries a note, whose steps only load. The functions of this header have no
   notes, so no clause of theirs says this. */

/* REQUESTS ON THEIR WAY TO THE WRITER. This is a queue without a lock, first in first out, for many threads that post
   and one that takes. Of a map it knows only the number of keys. What was taken, followed by what the queue holds, is
   what was posted: each request once, and the requests of each poster in their order. A post or a take makes one attempt
   and waits for nobody. After NR_FULL, NR_EMPTY or NR_IN_THE_WAY nothing has changed. You may call again then, after
   NR_IN_THE_WAY at once. No contract bounds how often NR_IN_THE_WAY comes, nor when an opening answers NR_NO_MEMORY.
   Tests show that NR_IN_THE_WAY comes only beside another thread's call. */

/* Opens a queue of 1 to 4,194,303 requests of keys below `keys`, with 1 to 65,535 posters, and makes the taker's handle
   live.
     NR_DONE: the handle is live.
     NR_LIVE if it is live already, NR_BAD_SIZE, or NR_NO_MEMORY. The handle stays as it was.
   A queue with as many places as the map has keys holds all requests, if you take each before you cancel it or fill its
   key. A place takes 48 bytes, and as much again during the opening. */
uint32_t nr_open_queue(uint32_t keys, uint32_t capacity, uint32_t posters, nr_taker *taker);

/* Makes a poster's handle live. It takes the poster that was returned last, or else a new one.
     NR_DONE: the handle is live.
     NR_LIVE if it is live already, NR_NO_POSTER, or NR_NO_MEMORY. The handle stays as it was. */
uint32_t nr_open_poster(nr_taker *taker, nr_poster *poster);

/* Ends a poster's handle and returns the poster, so that nr_open_poster can open it again. This is for threads that come
   and go.
     NR_DONE: the handle is zeros.
     NR_STRANGER for a poster of another queue, or NR_NO_MEMORY. Nothing has changed. */
uint32_t nr_return_poster(nr_taker *taker, nr_poster *poster);

/* These end a handle, which is then zeros. If it isn't live, they do nothing. The last handle frees the queue's memory,
   with the requests that it holds. No handle gets a closed poster again. */
void nr_close_poster(nr_poster *poster);
void nr_close_taker(nr_taker *taker);

/* Puts a request, which is a key and its ticket number, at the back.
     NR_DONE.
     NR_FULL if the queue was full at one moment of the call. Post the request later or cancel it: the key stays asked,
     and nobody else gets NR_SEND.
     NR_IN_THE_WAY, which also comes once the queue has carried 2^62 requests. */
uint32_t nr_post(nr_poster *poster, uint32_t key, uint64_t number);

/* Takes the request at the front.
     NR_DONE: `key` and `number` are its key and its ticket number.
     NR_EMPTY if the queue was empty at one moment of the call, or NR_IN_THE_WAY. `key` and
     `number` stay as they were. */
uint32_t nr_take(nr_taker *taker, uint32_t *key, uint64_t *number);

/* A MAP OVER IDS. Ids are numbers from 1 on, and at most as many have rows as there are slots. A group has eight ways.
   While an id has rows or an open upquery, it has a way of its group or of its second group. Each call with an id
   answers NR_NO_KEY for 0. embed/c/ids.c is a whole program.

   A get. Find the id. At NR_HOLE or NR_OTHER request it. The caller that gets NR_SEND passes the id to the thread that
   writes. That thread admits the id, gets its rows, and fills it. At NR_ASKED, NR_WAITING or NR_NAMED wait and find
   again. After a fill, a withdrawal and an eviction wake those who wait.

   Full groups. At NR_FULL evict the id that nr_choose_id tells, and admit again: the claim stays open. At NR_ALL_ASKED,
   or after eight choices for which nr_evict_id answered NR_NOTHING, first fill or withdraw an upquery of the group.

   Dropping an id's rows, because the base changed. Withdraw its upquery, if one is open, and evict it. A late fill is
   then NR_STALE.

   Holding. nr_find_id, nr_find_each_id, nr_find_each_rows_id, nr_pin_id and nr_pin_row_id answer NR_HOLDING if the
   reader holds a set. nr_row_at_id, nr_copy_id, nr_again_id and nr_release_id answer NR_NOT_HOLDING if it holds none.
   There was no step then, and nothing has changed. Hot ids, and rows that refer to data, are as those of keys.

   A closed writer. If a find or a pin finds no rows, it makes 1 step more to look whether the writer was closed. The
   answer is NR_CLOSED if it was. */

/* The two groups of an id in a map of that shape, counted from 0. In a map of two groups or more they differ. The answer
   is 0 if the shape has no groups, or too many. No step. */
uint32_t nr_id_group(const nr_id_shape *shape, uint64_t id);
uint32_t nr_id_second_group(const nr_id_shape *shape, uint64_t id);

/* Opens a map over ids, and makes the writer's handle live.
     NR_DONE: the handle is live.
     NR_LIVE if it is live already, NR_BAD_SIZE, or NR_NO_MEMORY. The handle stays as it was. */
uint32_t nr_open_ids(const nr_id_shape *shape, nr_id_writer *writer);

/* Makes a reader's handle live.
     NR_DONE: the handle is live.
     NR_LIVE if it is live already, NR_NO_READER, or NR_NO_MEMORY. The handle stays as it was. */
uint32_t nr_open_id_reader(nr_id_writer *writer, nr_id_reader *reader);

/* These end a handle, which is then zeros. If it isn't live, they do nothing. A reader lets go of what it holds. No
   handle gets a closed reader again, so a thread that ends passes its reader on. Closing the writer ends all open
   upqueries and tells the readers, as nr_close_writer does. The last handle frees the memory. */
void nr_close_id_reader(nr_id_reader *reader);
void nr_close_id_writer(nr_id_writer *writer);

/* Looks an id up. It makes 1 step, and then W steps in the id's groups: 1 at the hints of the first group, and 1 at the
   name of each way that has the id's hint, until one is the id's. If none is, it makes the same steps in the second
   group. So W is mostly 2, both for an id that has a way and for one that has none.
     NR_HOLE if no name was the id's: it had no way at a moment within the call.
   If a way had the name, it makes 1 step more to look at the use bit of that way, and then answers one of these:
     NR_ROWS after 2n + 7 more steps for n rows, which are in `rows`, and 1 more if the bit wasn't set.
     NR_ASKED after 1 more step, if the id's upquery is open or the id was evicted within the call.
     NR_OTHER after 7 more steps, if the way became another id's within the call.
   If the writer wrote the way meanwhile, these take more steps, as nr_find does. Any answer but NR_ROWS leaves `rows` as
   it was. */
uint32_t nr_find_id(nr_id_reader *reader, uint64_t id, nr_rows *rows);

/* Finds n ids in the given order. An id may occur twice.
     NR_DONE: each nr_wanted_id has its answer, as nr_find_id gives it, and its rows.
     NR_NO_KEY without a step, if one of the ids is 0.
   For each id it makes W steps, the look at the use bit, 5 loads, and 1 more load for each 4 rows that an id may have up
   to 12. It makes these for 16 ids at a time, before it finds them. Then it makes the steps of nr_find_kept for the id's
   set, which has one row more, or for the first row of another id's set, and 1 if the use bit wasn't set. So the
   reader's announcement goes on from set to set, and 1 step at the end lets the last one go.
   For many ids of few rows take nr_find_each_rows_id, which needs less memory. */
uint32_t nr_find_each_id(nr_id_reader *reader, nr_wanted_id *wanted, size_t n);

/* As nr_find_each_id, with all rows in one array of yours, as nr_find_each_rows has them. Take this call for many ids of
   few rows: beside its rows an id needs 16 bytes, where an nr_wanted_id takes 4,104. */
uint32_t nr_find_each_rows_id(nr_id_reader *reader, nr_found_id *wanted, size_t n, nr_row *rows, size_t all);

/* Finds an id and holds its set, as nr_pin does.
     NR_ROWS after 1 step fewer than nr_find_id takes. `count` is the number of rows.
     Any other answer is as in nr_find_id, but NR_OTHER comes after 2n + 7 steps in place of 7, for the other id's n
     rows. The reader holds nothing then, and `count` stays as it was. */
uint32_t nr_pin_id(nr_id_reader *reader, uint64_t id, uint32_t *count);

/* As nr_pin_id, but tells the first row of the set instead of their number.
     NR_ROWS: `row` is that row. If the set has no rows, `row` stays as it was.
     With any other answer `row` stays as it was. */
uint32_t nr_pin_row_id(nr_id_reader *reader, uint64_t id, nr_row *row);

/* Tells the row at index `place` of the held set, counted from 0. No step.
     NR_ROWS.
     NR_NO_ROW if the set has no such row. `row` stays as it was. */
uint32_t nr_row_at_id(nr_id_reader *reader, uint32_t place, nr_row *row);

/* Copies the rows of the held set into `rows`: NR_ROWS. No step. */
uint32_t nr_copy_id(nr_id_reader *reader, nr_rows *rows);

/* Finds an id again, as nr_again does, in 1 step, which loads one word and writes none: NR_ROWS or NR_OTHER. It answers
   NR_OTHER without a step if the held set is another id's. */
uint32_t nr_again_id(nr_id_reader *reader, uint64_t id);

/* As nr_find_id, but the reader holds the set for the next call.
     NR_ROWS after 1 step, and 1 or 2 at the way's use bit, if the reader holds the id's set and its way still has that.
     Otherwise it finds the id as nr_pin_id does, in at most 3 steps more if the reader held a set.
   Any answer but NR_ROWS leaves `rows` as it was, and the reader holds nothing. */
uint32_t nr_find_kept_id(nr_id_reader *reader, uint64_t id, nr_rows *rows);

/* Ends the hold, in 1 step: NR_DONE. */
uint32_t nr_release_id(nr_id_reader *reader);

/* Requests an id. What the reader holds stays held.
     NR_SEND after W + 3 steps: the caller has the claim of the id's group, and passes the id to the thread that writes.
     NR_WAITING after 2 or W + 3 steps, until that thread has admitted an id of the group.
     NR_NAMED after W + 2 steps.
     NR_WORN after 2 steps, once the group has had 2^61 claims.
     NR_CLOSED after the 1 step that found the writer closed. */
uint32_t nr_request_id(nr_id_reader *reader, uint64_t id);

/* Looks an id up by a find of the writer's own. It answers as nr_find_id, but never NR_OTHER, and NR_ROWS comes after
   W + 2n + 4 steps. */
uint32_t nr_look_id(nr_id_writer *writer, uint64_t id, nr_rows *rows);

/* Gives an id of a claimed group a way, and opens an upquery for it.
     NR_SEND after W + 12 steps. `upquery` has its numbers.
     NR_NOT_ASKED after 1 step, if no claim of the group is open.
     NR_NAMED after W + 1 steps.
     NR_FULL after W + 3 steps, if each way of the id's two groups is another's.
   Any answer but NR_SEND leaves `upquery` as it was. */
uint32_t nr_admit(nr_id_writer *writer, uint64_t id, nr_upquery *upquery);

/* Fills an open upquery's id with n rows in ascending order, each with an `a` above 0.
     NR_STRANGER without a step, if another map opened the upquery.
     NR_TOO_MANY, NR_NOT_SORTED or NR_BAD_ROW without a step.
     NR_STALE without a step, if no upquery with these numbers is open.
     NR_DONE, NR_NO_SLOT or NR_ALL_FILLED after W steps and those of nr_fill for n + 1 rows. After the last two the
     upquery stays open.
   So an answer that comes a second time is NR_STALE, even after an eviction and a new admission. */
uint32_t nr_fill_id(nr_id_writer *writer, const nr_upquery *upquery, const nr_row *rows, size_t n);

/* Takes an open upquery and its id's way back.
     NR_CANCELLED after W + 5 steps. Wake those who wait for the id.
     NR_STRANGER or NR_STALE, as in nr_fill_id.
     NR_WORN after W + 1 steps: the upquery has the last ticket number, and only its own fill ends it. */
uint32_t nr_withdraw_id(nr_id_writer *writer, const nr_upquery *upquery);

/* As nr_update and nr_replace, of an id's rows, each with an `a` above 0.
     NR_BAD_ROW without a step, if a row has an `a` of 0.
     NR_NOTHING after W steps, if the id has no way.
     NR_DROPPED if the id's upquery is open. */
uint32_t nr_update_id(nr_id_writer *writer, uint64_t id, const nr_delta *deltas, size_t n);
uint32_t nr_replace_id(nr_id_writer *writer, uint64_t id, const nr_row *rows, size_t n);

/* As nr_fill_id, nr_update_id and nr_replace_id, but each also gives out the set that its slot had, as
   nr_fill_reclaiming does.
     NR_GIVEN in place of NR_DONE, after 2m + 1 more steps for a set of m rows. The first row, (0, id), says whose set it
     was.
   No reader holds a set that came back, but a thread may still read what a find wrote into its buffer. */
uint32_t nr_fill_id_reclaiming(nr_id_writer *writer, const nr_upquery *upquery, const nr_row *rows, size_t n,
  nr_rows *had);
uint32_t nr_update_id_reclaiming(nr_id_writer *writer, uint64_t id, const nr_delta *deltas, size_t n, nr_rows *had);
uint32_t nr_replace_id_reclaiming(nr_id_writer *writer, uint64_t id, const nr_row *rows, size_t n, nr_rows *had);

/* Gives out a set that no id has any more, as nr_reap. */
uint32_t nr_reap_id(nr_id_writer *writer, nr_rows *had);

/* Takes an id's rows and its way.
     NR_EVICTED after W + 5 steps.
     NR_NOTHING after W or W + 1 steps, if the id has no way or an open upquery. */
uint32_t nr_evict_id(nr_id_writer *writer, uint64_t id);

/* Is to be called after a write in the base. If the id's upquery is open, it withdraws that, as nr_withdraw_id does.
     NR_CANCELLED: the upquery's answer is stale.
     NR_WORN.
   If none is open, it evicts the id, as nr_evict_id does.
     NR_EVICTED or NR_NOTHING. */
uint32_t nr_invalidate_id(nr_id_writer *writer, uint64_t id);

/* This call and the next give hints for a choice of what to evict. This one tells whether the id's rows were found since
   it was asked last, by anything but nr_again_id.
     NR_DONE after W + 2 steps, if they were.
     NR_NOTHING after W + 1 steps if they weren't, and after W if the id has no way. */
uint32_t nr_uses_id(nr_id_writer *writer, uint64_t id);

/* Chooses a way of that id's group by second chance: the first from the last choice on that wasn't found since.
     NR_DONE after 3 steps. `chosen` is the id that has the chosen way.
     NR_NOTHING after 3 steps, if nobody has that way. `chosen` stays as it was.
     NR_ALL_ASKED without a step, if each way of the group has an open upquery. `chosen` stays as it was.
   If the chosen id's upquery is open, nr_evict_id answers NR_NOTHING. Then choose again, as the next choice begins
   behind it. After eight such choices, the ids that could be evicted are being found all the time. */
uint32_t nr_choose_id(nr_id_writer *writer, uint64_t id, uint64_t *chosen);

/* A CACHE

   A cache holds values by ids above 0. A value is a number of the caller's, such as an address, and has a stamp above
   0, which comes back with it. The cache decides which loads are under way, whether a loaded value is held, and whose
   value goes to make room.

   Threads. nr_cache_find, nr_cache_hold, nr_cache_release and nr_close_cache_reader take a reader alone, which is one
   thread's, and need no lock. Each call that takes a cache, nr_open_cache_reader among them, is for one thread at a time,
   as under a mutex of the caller's. No call blocks, and only those that open take memory. A call with the id 0 answers
   NR_NO_KEY, and one with the stamp 0 NR_BAD_ROW, both without a step.

   A miss. Begin a load. The caller that gets NR_SEND queries the base and lands the value, or ends the load without one.
   Then it wakes those that wait, by the mark. A caller that gets NR_WAITING waits for that load, and finds again. At
   NR_FULL load, and use the value without landing it.

   A write in the base. Invalidate the id afterwards. Or begin a change before it and end it afterwards, so that a load
   that began meanwhile isn't held either.

   Room. Where there are as many values as the capacity, one goes for each id that gets one, of whichever group. Of the
   eight places that come next, in a turn that goes round all of them, the first value goes whose stamp is below the
   call's `bound`. Give the times at which values expire as their stamps and the present time as the bound, and what has
   expired goes first. The bound 0 is none. If no such value is met, one goes that came of late and was asked for but
   once, or that was asked for less often than such a value. Rely on no value's turn.

   Weights. Each value has a weight, and a cache may have a bound for what all weigh together, nr_cache_shape's
   `weight`. Where a value comes that is too heavy beside the others, others go before it is held, one after another and
   no more than need be. They are chosen in the same way, but those that came of late go first. In place of a value of
   its id it counts without that. What is heavier than the bound is its caller's own: NR_OWN. What went, and hasn't come
   out, doesn't count.

   A value stands in one of its id's two groups, of eight places each. If all sixteen are taken, a value of the first
   group goes, however many there are. With eight places for each five values that is rare.

   A value that went comes out once no reader holds it: from a later landing or put (NR_GIVEN), or from nr_cache_reap.
   Reap after each call while it answers NR_GIVEN, and free what comes out. A value of NR_OWN never was in the cache, and
   is its caller's to free. */

/* Opens a cache.
     NR_DONE: its handle is live.
     NR_LIVE if it is live already, NR_BAD_SIZE or NR_NO_MEMORY. It stays as it was. */
uint32_t nr_open_cache(const nr_cache_shape *shape, nr_cache *cache);

/* Makes a reader's handle live.
     NR_DONE: it is.
     NR_LIVE if `reader` is live already, NR_NO_READER or NR_NO_MEMORY. It stays as it was. */
uint32_t nr_open_cache_reader(nr_cache *cache, nr_cache_reader *reader);

/* End a handle, which is then zeros. If it isn't live, they do nothing. A reader lets go what it holds, and no handle
   gets it again. Closing the cache ends the loads that are under way and tells the readers, but not the callers that
   wait for a load: call nr_cache_fail_oldest before. What the cache still holds doesn't come out then: call
   nr_cache_invalidate_all, and reap, before. The last handle frees the memory. */
void nr_close_cache_reader(nr_cache_reader *reader);
void nr_close_cache(nr_cache *cache);

/* Finds the value of an id. The reader holds it until its next find or nr_cache_release, and until then it doesn't come
   out.
     NR_ROWS: `found` has the value.
     NR_HOLE if the id has none. Nothing is held, and `found` stays as it was.
     NR_CLOSED instead of NR_HOLE once the cache was closed. */
uint32_t nr_cache_find(nr_cache_reader *reader, uint64_t id, nr_cache_value *found);

/* Finds and holds the value of an id as nr_cache_find does, with the same answers, for the thread that has just landed or
   put it. When a value has to go, this doesn't count as a find. */
uint32_t nr_cache_hold(nr_cache_reader *reader, uint64_t id, nr_cache_value *found);

/* Ends the hold.
     NR_DONE after 1 step.
     NR_NOT_HOLDING without a step, if the reader holds nothing. */
uint32_t nr_cache_release(nr_cache_reader *reader);

/* Tells what a miss of an id comes to.
     NR_SEND: the caller loads it. `flight` is the load that begins, with `mark`.
     NR_WAITING: `flight` is the load of the id that is under way.
     NR_ROWS: the id has a value by now. `flight` stays as it was.
     NR_FULL: as many loads are under way as there is room for. `flight` stays as it was. */
uint32_t nr_cache_begin(nr_cache *cache, uint64_t id, uint64_t mark, nr_flight *flight);

/* Ends the load of that number by its value.
     NR_DONE: the id has it now. `given` stays as it was.
     NR_GIVEN: the id has it now, and a value that nobody can see any more came out. `given` tells that.
     NR_OWN: the value is the caller's own. Either the id was invalidated, put or changed since the load began, or was
     being changed then, or no load of that number is under way, or 2^61 values came into the id's group, or the value is
     heavier than all may be. `given` stays as it was. */
uint32_t nr_cache_land(nr_cache *cache, uint64_t number, uint64_t stamp, uint64_t value, uint32_t weight,
  uint64_t bound, nr_given *given);

/* Ends the load of that number without a value.
     NR_DONE: `flight` is that load.
     NR_NOTHING if none of that number is under way. `flight` stays as it was. */
uint32_t nr_cache_fail(nr_cache *cache, uint64_t number, nr_flight *flight);

/* Ends the load that began first of those under way, without a value. Before you close the cache, call it until it
   answers NR_NOTHING, and wake those that wait by the marks, since nobody lands what they wait for.
     NR_DONE: `flight` is that load.
     NR_NOTHING if none is under way. `flight` stays as it was. */
uint32_t nr_cache_fail_oldest(nr_cache *cache, nr_flight *flight);

/* Puts a value in place of what the id has. If a load of the id is under way, its value will be its loader's own.
     NR_DONE, NR_GIVEN and NR_OWN as nr_cache_land.
     NR_OWN also while the id is being changed. If it is, or the value is heavier than all may be, the id has no value
     then. */
uint32_t nr_cache_put(nr_cache *cache, uint64_t id, uint64_t stamp, uint64_t value, uint32_t weight, uint64_t bound,
  nr_given *given);

/* Puts a value in place of the id's, if that is still `old`.
     NR_DONE, NR_GIVEN and NR_OWN as nr_cache_put.
     NR_OTHER if the id has another value, NR_HOLE if it has none. Nothing else happened, and `given` stays as it was. */
uint32_t nr_cache_swap(nr_cache *cache, uint64_t id, uint64_t old, uint64_t stamp, uint64_t value, uint32_t weight,
  uint64_t bound, nr_given *given);

/* The cache's own find, by which nothing is held.
     NR_ROWS: `found` has the value.
     NR_HOLE if the id has none. `found` stays as it was. */
uint32_t nr_cache_look(nr_cache *cache, uint64_t id, nr_cache_value *found);

/* Takes an id's value, as after a write in the base. If a load of the id is under way, its value will be its loader's
   own.
     NR_EVICTED.
     NR_NOTHING if the id had no value. */
uint32_t nr_cache_invalidate(nr_cache *cache, uint64_t id);

/* Takes the value of every id. The values of all loads that are under way will be their loaders' own, and changes stay
   under way.
     NR_DONE. */
uint32_t nr_cache_invalidate_all(nr_cache *cache);

/* Takes an id's value to make room, and nothing else. If a load of the id is under way, its value will be held.
     NR_EVICTED.
     NR_NOTHING if the id had no value. */
uint32_t nr_cache_evict(nr_cache *cache, uint64_t id);

/* Takes the value of the id that goes next, chosen as where one lands in a full cache, so that a caller makes room for
   what it counts itself. The values of loads that are under way will be held.
     NR_EVICTED: `taken` tells the value. It comes out as any that went, and is to be freed then.
     NR_NOTHING if no id has a value. `taken` stays as it was. */
uint32_t nr_cache_evict_one(nr_cache *cache, uint64_t bound, nr_given *taken);

/* Begins a change of an id in the base. Until it ends, the values of loads of the id that are under way, or begin, are
   their loaders' own. What the id has stays.
     NR_DONE.
     NR_FULL if as many changes are under way as there is room for. */
uint32_t nr_cache_begin_change(nr_cache *cache, uint64_t id);

/* Ends a change of an id.
     NR_DONE.
     NR_NOTHING if none of the id is under way. */
uint32_t nr_cache_end_change(nr_cache *cache, uint64_t id);

/* Gives out a value that nobody can see any more.
     NR_GIVEN: `given` tells it.
     NR_HELD if readers hold all that wait. `given` stays as it was.
     NR_NOTHING if none waits. `given` stays as it was. */
uint32_t nr_cache_reap(nr_cache *cache, nr_given *given);

/* Counts what there is.
     NR_DONE after 1 step. */
uint32_t nr_cache_count(nr_cache *cache, nr_cache_counts *counts);

#ifdef __cplusplus
}
#endif

#endif
