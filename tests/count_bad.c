/* Takes the replies `bad` of the program that it is loaded into, each with its line feed, in the place of the
   device that they are written to, and counts them. Every other write goes its way. At the program's end the
   number stands in the file that COUNT_TOLD names.
   It needs no header and no library to be built. */

typedef unsigned long size;

char *getenv(const char *name);
int snprintf(char *text, size room, const char *format, ...);
void *dlsym(void *handle, const char *name);
int creat(const char *path, unsigned mode);

static void *const NEXT = (void *)-1;
static long counted;

static long (*next_write(void))(int, const void *, size) {
    static long (*next)(int, const void *, size);
    if (!next)
        next = (long (*)(int, const void *, size))dlsym(NEXT, "write");
    return next;
}

long write(int file, const void *bytes, size count) {
    const char *text = bytes;
    if (file == 1 && count == 4 && text[0] == 'b' && text[1] == 'a' && text[2] == 'd' && text[3] == '\n') {
        counted++;
        return 4;
    }
    return next_write()(file, bytes, count);
}

__attribute__((destructor)) static void tell(void) {
    char text[32];
    int length = snprintf(text, sizeof text, "%ld\n", counted);
    const char *told = getenv("COUNT_TOLD");
    if (told)
        next_write()(creat(told, 0600), text, length);
}

/* The program may end without its destructors. */
__attribute__((noreturn)) void _exit(int status) {
    void (*next)(int) = (void (*)(int))dlsym(NEXT, "_exit");
    tell();
    for (;;)
        next(status);
}
