// Preloaded into the program by tests/memory. Refuses one allocation, number REFUSE of the environment, counted from 1,
// and then creates the file that REFUSED names. Counts all allocations in the file that COUNTED names, in 8 bytes.
#define _GNU_SOURCE
#include <dlfcn.h>
#include <fcntl.h>
#include <stdlib.h>
#include <sys/mman.h>
#include <unistd.h>

static unsigned long own, refused, *seen;

// The count is mapped from the file, so it is there however the program ends.
static unsigned long *count(void) {
    const char *name = getenv("COUNTED");
    int file = name ? open(name, O_CREAT | O_RDWR, 0600) : -1;
    if (file < 0 || ftruncate(file, sizeof own)) return &own;
    void *shared = mmap(0, sizeof own, PROT_READ | PROT_WRITE, MAP_SHARED, file, 0);
    return shared == MAP_FAILED ? &own : shared;
}

static int refuses(void) {
    if (!seen) {
        const char *number = getenv("REFUSE");
        refused = number ? strtoul(number, 0, 10) : 0;
        seen = count();
    }
    if (++*seen != refused) return 0;
    const char *mark = getenv("REFUSED");
    if (mark) open(mark, O_CREAT | O_WRONLY, 0600);
    return 1;
}

void *malloc(size_t size) {
    static void *(*next)(size_t);
    if (!next) next = (void *(*)(size_t))dlsym(RTLD_NEXT, "malloc");
    return refuses() ? 0 : next(size);
}

void *realloc(void *old, size_t size) {
    static void *(*next)(void *, size_t);
    if (!next) next = (void *(*)(void *, size_t))dlsym(RTLD_NEXT, "realloc");
    return refuses() ? 0 : next(old, size);
}
