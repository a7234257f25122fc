/* Stands before malloc and realloc of the C library: it counts the requests for memory, and refuses some of them.

   REFUSE_FD is the number of an open file with three words of 64 bits: how many requests were made so far, which is
   counted here, which of them is the first refused, from 1 on (0 refuses none), and how many behind it are refused
   too. tools/stress compiles and loads this file. */
#define _GNU_SOURCE
#include <dlfcn.h>
#include <errno.h>
#include <stdatomic.h>
#include <stdlib.h>
#include <sys/mman.h>

struct words {
    atomic_long asked;
    long refused;
    long more;
};

static struct words *words;
static void *(*next_malloc)(size_t);
static void *(*next_realloc)(void *, size_t);

static void find_next(void) {
    next_malloc = (void *(*)(size_t))dlsym(RTLD_NEXT, "malloc");
    next_realloc = (void *(*)(void *, size_t))dlsym(RTLD_NEXT, "realloc");
}

/* What is asked before main begins is not counted. */
__attribute__((constructor)) static void begin(void) {
    const char *number = getenv("REFUSE_FD");
    if (!number)
        abort();
    void *shared = mmap(NULL, sizeof *words, PROT_READ | PROT_WRITE, MAP_SHARED, atoi(number), 0);
    if (shared == MAP_FAILED)
        abort();
    find_next();
    words = shared;
}

static int is_refused(void) {
    if (!words)
        return 0;
    long nth = atomic_fetch_add(&words->asked, 1) + 1;
    if (!words->refused || nth < words->refused || nth > words->refused + words->more)
        return 0;
    errno = ENOMEM;
    return 1;
}

void *malloc(size_t size) {
    if (!next_malloc)
        find_next();
    return is_refused() ? NULL : next_malloc(size);
}

void *realloc(void *old, size_t size) {
    if (!next_realloc)
        find_next();
    return is_refused() ? NULL : next_realloc(old, size);
}
