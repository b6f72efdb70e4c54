// A slow disk, preloaded into a device: a sync takes SLOW_SYNC milliseconds, and a read SLOW_READ.
#define _GNU_SOURCE
#include <dlfcn.h>
#include <stdlib.h>
#include <sys/types.h>
#include <unistd.h>

static void pause_for(const char *name) {
    const char *milliseconds = getenv(name);
    usleep(1000 * (milliseconds ? atoi(milliseconds) : 0));
}

int fsync(int file) {
    int (*next)(int) = (int (*)(int))dlsym(RTLD_NEXT, "fsync");
    pause_for("SLOW_SYNC");
    return next(file);
}

int fdatasync(int file) {
    int (*next)(int) = (int (*)(int))dlsym(RTLD_NEXT, "fdatasync");
    pause_for("SLOW_SYNC");
    return next(file);
}

ssize_t pread(int file, void *to, size_t size, off_t at) {
    ssize_t (*next)(int, void *, size_t, off_t) = (ssize_t(*)(int, void *, size_t, off_t))dlsym(RTLD_NEXT, "pread");
    pause_for("SLOW_READ");
    return next(file, to, size, at);
}
