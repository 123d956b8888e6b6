/* What the thread sanitizer is to know of the library, which is built without it: who finds a set sees all that the
   writer's thread had written before it put the set; and whom a set comes back to sees all that readers had done with
   it. `at` is an address of the program's own, of the first two one for each key or one for the map, and of the others
   one for the map. Without the sanitizer these are nothing. */
#ifndef NR_ORDER_H
#define NR_ORDER_H

#if defined(__has_feature)
#if __has_feature(thread_sanitizer)
#define NR_WATCHED
#endif
#elif defined(__SANITIZE_THREAD__)
#define NR_WATCHED
#endif

#ifdef NR_WATCHED
#ifdef __cplusplus
extern "C" {
#endif
void __tsan_acquire(void *at);
void __tsan_release(void *at);
#ifdef __cplusplus
}
#endif
/* Stands before a call of the writer that puts rows. */
#define NR_PUTS(at) __tsan_release(at)
/* Stands after a find, pin, look or nr_again that answered NR_ROWS. */
#define NR_FOUND(at) __tsan_acquire(at)
/* Stands before a reader lets its set go, as by nr_release. */
#define NR_LETS_GO(at) __tsan_release(at)
/* Stands after a call that answered NR_GIVEN. */
#define NR_CAME_BACK(at) __tsan_acquire(at)
#else
#define NR_PUTS(at) ((void)(at))
#define NR_FOUND(at) ((void)(at))
#define NR_LETS_GO(at) ((void)(at))
#define NR_CAME_BACK(at) ((void)(at))
#endif

#endif
