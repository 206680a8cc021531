// Counts the calls for memory of the program that it is loaded into, and lets one of them fail.
//
//     cc -shared -fPIC -O2 -o failing_memory.so failing_memory.c
//     FAILING_COUNTER=FILE FAILING_CALL=N LD_PRELOAD=./failing_memory.so PROGRAM
//
// The calls are those of malloc and realloc, counted from 0 over the whole process. FILE holds the count as 8 bytes from the
// first call on, so that it can be read after the process was killed. Without FAILING_CALL none fails.
#define _GNU_SOURCE
#include <dlfcn.h>
#include <errno.h>
#include <fcntl.h>
#include <stdatomic.h>
#include <stdlib.h>
#include <sys/mman.h>
#include <unistd.h>

static void *(*next_malloc)(size_t);
static void *(*next_realloc)(void *, size_t);
static _Atomic long here;
static _Atomic long *count = &here;
static long failing = -1;

__attribute__((constructor)) static void begin(void) {
    const char *number = getenv("FAILING_CALL"), *path = getenv("FAILING_COUNTER");
    next_malloc = dlsym(RTLD_NEXT, "malloc");
    next_realloc = dlsym(RTLD_NEXT, "realloc");
    if (path) {
        int file = open(path, O_RDWR | O_CREAT, 0600);
        if (file >= 0 && ftruncate(file, sizeof(long)) == 0) {
            void *page = mmap(0, sizeof(long), PROT_READ | PROT_WRITE, MAP_SHARED, file, 0);
            if (page != MAP_FAILED) count = page;
        }
        close(file);
    }
    atomic_store(count, 0);
    if (number) failing = atol(number);
}

static int fails(void) {
    if (atomic_fetch_add(count, 1) != failing) return 0;
    errno = ENOMEM;
    return 1;
}

void *malloc(size_t size) {
    if (!next_malloc) next_malloc = dlsym(RTLD_NEXT, "malloc");
    return fails() ? 0 : next_malloc(size);
}

void *realloc(void *held, size_t size) {
    if (!next_realloc) next_realloc = dlsym(RTLD_NEXT, "realloc");
    return fails() ? 0 : next_realloc(held, size);
}
