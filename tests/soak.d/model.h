/* The model of a map or cache whose calls are too many for a slower language. It knows nothing of either: a test tells it
   of each write before it begins and after it has returned, of each answer, load, value and thread. Where that can't be it
   says what is wrong and ends the process. */
#ifndef MODEL_H
#define MODEL_H
#include <stdbool.h>
#include <stdint.h>

enum { MOST_KEYS = 4096, MOST_THREADS = 64, MOST_VALUES = 1 << 16 };

/* Ends the process with the name of the check that failed. */
_Noreturn void model_fails(const char *check, const char *format, ...);
void model_wants(bool is_so, const char *check, const char *what);

/* A key's versions: the next one, of a write that begins; one whose write has returned; the last that began; and the
   least that an answer to a call may have that begins now. */
uint64_t model_writes(uint32_t key);
void model_has_written(uint32_t key, uint64_t version);
uint64_t model_newest(uint32_t key);
uint64_t model_floor(uint32_t key);
/* An answer to a call for a key that began when its floor was that one. */
void model_answers(uint32_t key, uint32_t its_key, uint64_t version, uint64_t floor);

void model_loads(uint32_t key);
void model_has_loaded(uint32_t key);

/* Values, by numbers: each is read only while it lives, and dropped once. */
uint32_t model_makes(void);
void model_reads(uint32_t value);
void model_drops(uint32_t value);
/* At rest so many values live. */
void model_lives(uint64_t wanted);

/* Threads, by places from 0: before one is made; as it begins; asleep by its own will; at its end, or where none is made. */
void model_spawns(uint32_t place);
void model_begins(uint32_t place);
void model_sleeps(uint32_t place, unsigned milliseconds);
void model_ends(uint32_t place);
/* Waits until the places from one on have ended. Fails where each that hasn't sleeps within a call, so that nobody is
   left to wake it. */
void model_awaits(uint32_t from, uint32_t to);

/* The keys that were drawn, by the generator that bench/hits has, and other numbers. */
void model_opens_keys(const char *path);
uint32_t model_key(uint64_t *dice, uint32_t keys);
uint64_t model_rolls(uint64_t *dice);

/* Faults that were injected, by their names, and a line of each. */
void model_counts(const char *fault, uint64_t times);
void model_tells_counts(void);
#endif
