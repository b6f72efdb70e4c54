// Preloaded into the program by tests/restart. Observes the files whose names begin with DISK_FILE, and their folder.
//
// The file that DISK_LOG names gets a record of each call that changes them, so that a test can make what a power cut
// leaves. A record is a head of five 64-bit numbers (kind, file, offset, size of the data, result) and the data:
//
//   o  a file is opened: its number, and its name as data     w  data are to be written at an offset
//   t  the size becomes the offset                            s  the file is synced: written once that has succeeded
//   f  the folder is synced, so the names in it are           a  an answer is to leave, by a socket
//
// What is to be written is recorded before it is written, so no kill leaves a write without its record.
//
// DISK_RULES is a list of `NAME FIRST COUNT ERROR;`. Of the calls NAME on these files, COUNT calls from the FIRST one on
// fail with this error, or all from there on if COUNT is 0. NAME is open, write, sync, resize, or any. A write that fails
// for lack of space first writes half of its data.
#define _GNU_SOURCE
#include <dlfcn.h>
#include <errno.h>
#include <fcntl.h>
#include <stdarg.h>
#include <stdio.h>
#include <stdlib.h>
#include <string.h>
#include <sys/mman.h>
#include <sys/socket.h>
#include <sys/stat.h>
#include <sys/syscall.h>
#include <sys/uio.h>
#include <unistd.h>

enum { MOST_RULES = 8, DESCRIPTORS = 1024, LOG = 900, FOLDER = -1 };

struct rule {
    char name[8];
    unsigned long first, count, seen;
    int error;
};

struct head {
    unsigned long kind, file, offset, size, result;
};

static struct rule rules[MOST_RULES];
static int many, log_file = -1, files[DESCRIPTORS], opened;
static const char *observed;
static char folder[4096];

__attribute__((constructor)) static void begin(void) {
    const char *text = getenv("DISK_RULES"), *name = getenv("DISK_LOG"), *end;
    for (int used = 0; text && many < MOST_RULES; many++, text += used) {
        struct rule *r = &rules[many];
        if (sscanf(text, "%7s %lu %lu %d;%n", r->name, &r->first, &r->count, &r->error, &used) != 4) break;
    }
    observed = getenv("DISK_FILE");
    if (observed && (end = strrchr(observed, '/'))) memcpy(folder, observed, end - observed);
    int file = name ? open(name, O_CREAT | O_WRONLY | O_APPEND, 0600) : -1;
    if (file >= 0) {
        log_file = fcntl(file, F_DUPFD_CLOEXEC, LOG);
        close(file);
    }
}

static void record(char kind, int file, long offset, const void *data, size_t size) {
    struct head head = {kind, file, offset, size, 0};
    struct iovec parts[2] = {{&head, sizeof head}, {(void *)data, size}};
    if (log_file >= 0) syscall(SYS_writev, log_file, parts, 2);
}

static int file_of(int descriptor) {
    return descriptor >= 0 && descriptor < DESCRIPTORS ? files[descriptor] : 0;
}

// The error with which this call fails, or 0. Each rule for this name counts the call.
static int error_of(const char *name) {
    int error = 0;
    for (int i = 0; i < many; i++) {
        struct rule *r = &rules[i];
        if (strcmp(r->name, name) && strcmp(r->name, "any")) continue;
        r->seen++;
        if (r->seen >= r->first && (r->count == 0 || r->seen < r->first + r->count)) error = r->error;
    }
    return error;
}

static int refused(int descriptor, const char *name) {
    int error = file_of(descriptor) ? error_of(name) : 0;
    if (error) errno = error;
    return error;
}

static int is_observed(const char *name) {
    return observed && strncmp(name, observed, strlen(observed)) == 0;
}

static int opens(const char *name, int flags, int mode) {
    int error = is_observed(name) ? error_of("open") : 0;
    if (error) {
        errno = error;
        return -1;
    }
    int file = syscall(SYS_openat, AT_FDCWD, name, flags, mode);
    if (file < 0 || file >= DESCRIPTORS) return file;
    files[file] = 0;
    if (is_observed(name)) {
        files[file] = ++opened;
        record('o', opened, 0, name, strlen(name));
        if (flags & O_TRUNC) record('t', opened, 0, 0, 0);
    } else if (observed && !strcmp(name, folder)) {
        files[file] = FOLDER;
    }
    return file;
}

static int mode_of(int flags, va_list rest) {
    return flags & (O_CREAT | O_TMPFILE) ? va_arg(rest, int) : 0;
}

int open(const char *name, int flags, ...) {
    va_list rest;
    va_start(rest, flags);
    int mode = mode_of(flags, rest);
    va_end(rest);
    return opens(name, flags, mode);
}

int open64(const char *name, int flags, ...) {
    va_list rest;
    va_start(rest, flags);
    int mode = mode_of(flags, rest);
    va_end(rest);
    return opens(name, flags, mode);
}

ssize_t pwrite(int descriptor, const void *data, size_t size, off_t offset) {
    int file = file_of(descriptor), error = file > 0 ? error_of("write") : 0;
    if (error == ENOSPC && size > 1) {
        size /= 2;
    } else if (error) {
        errno = error;
        return -1;
    }
    if (file > 0) record('w', file, offset, data, size);
    return syscall(SYS_pwrite64, descriptor, data, size, offset);
}

ssize_t pwrite64(int descriptor, const void *data, size_t size, off_t offset) {
    return pwrite(descriptor, data, size, offset);
}

ssize_t write(int descriptor, const void *data, size_t size) {
    int file = file_of(descriptor);
    if (file <= 0) return syscall(SYS_write, descriptor, data, size);
    off_t offset = lseek(descriptor, 0, SEEK_CUR);
    ssize_t count = pwrite(descriptor, data, size, offset);
    if (count > 0) lseek(descriptor, count, SEEK_CUR);
    return count;
}

static int resized(int descriptor, off_t size) {
    if (refused(descriptor, "resize")) return -1;
    if (file_of(descriptor) > 0) record('t', file_of(descriptor), size, 0, 0);
    return syscall(SYS_ftruncate, descriptor, size);
}

int ftruncate(int descriptor, off_t size) {
    return resized(descriptor, size);
}

int ftruncate64(int descriptor, off_t size) {
    return resized(descriptor, size);
}

static int synced(int descriptor, long call) {
    if (refused(descriptor, "sync")) return -1;
    int file = file_of(descriptor), status = syscall(call, descriptor);
    if (status == 0 && file == FOLDER) record('f', 0, 0, 0, 0);
    if (status == 0 && file > 0) record('s', file, 0, 0, 0);
    return status;
}

int fsync(int descriptor) {
    return synced(descriptor, SYS_fsync);
}

int fdatasync(int descriptor) {
    return synced(descriptor, SYS_fdatasync);
}

ssize_t sendto(int socket, const void *data, size_t size, int flags, const struct sockaddr *to, socklen_t length) {
    record('a', 0, 0, 0, 0);
    return syscall(SYS_sendto, socket, data, size, flags, to, length);
}

ssize_t send(int socket, const void *data, size_t size, int flags) {
    return sendto(socket, data, size, flags, 0, 0);
}

int close(int descriptor) {
    if (descriptor >= 0 && descriptor < DESCRIPTORS) files[descriptor] = 0;
    return syscall(SYS_close, descriptor);
}
