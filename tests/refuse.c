/* Refuses one request of the program that it is loaded into: the one for memory whose number, from 1, stands in
   REFUSED_REQUEST, or the one for a thread whose number stands in REFUSED_THREAD. Where the program comes to it,
   this makes the file that REFUSAL_TOLD names. It needs no header and no library to be built. */

typedef unsigned long size;

char *getenv(const char *name);
long strtol(const char *text, char **end, int base);
void *dlsym(void *handle, const char *name);
int creat(const char *path, unsigned mode);

static void *const NEXT = (void *)-1;
static const int AGAIN = 11;
static long requests, threads;

static int is_refused(const char *which, long *asked) {
    const char *number = getenv(which);
    const char *told = getenv("REFUSAL_TOLD");
    if (!number || !told || __atomic_add_fetch(asked, 1, __ATOMIC_SEQ_CST) != strtol(number, 0, 10))
        return 0;
    creat(told, 0600);
    return 1;
}

void *malloc(size bytes) {
    static void *(*next)(size);
    if (!next)
        next = (void *(*)(size))dlsym(NEXT, "malloc");
    return is_refused("REFUSED_REQUEST", &requests) ? 0 : next(bytes);
}

void *realloc(void *block, size bytes) {
    static void *(*next)(void *, size);
    if (!next)
        next = (void *(*)(void *, size))dlsym(NEXT, "realloc");
    return is_refused("REFUSED_REQUEST", &requests) ? 0 : next(block, bytes);
}

int pthread_create(void *thread, const void *how, void *(*work)(void *), void *given) {
    static int (*next)(void *, const void *, void *(*)(void *), void *);
    if (!next)
        next = (int (*)(void *, const void *, void *(*)(void *), void *))dlsym(NEXT, "pthread_create");
    return is_refused("REFUSED_THREAD", &threads) ? AGAIN : next(thread, how, work, given);
}
