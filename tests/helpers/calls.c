// Preloaded into the program by tests/calls and tests/once. Replaces system calls as the environment variable RULES says. Each observed
// call writes a line to the file that CALLS_LOG names: the call, its peer, and its arguments or its result.
//
// RULES is a list of `NAME PEER FIRST COUNT KIND NUMBER;`. A rule applies to the calls of this name on the socket of the
// PEER-th accepted connection, or on any socket if PEER is 0. Of these it takes COUNT calls from the FIRST one on, or all
// if COUNT is 0. KIND is e: the call fails with this error; n: it transfers at most this many bytes; r: it is not made,
// and returns this number; p: it is not made, and returns success at once; k: the program is killed before it; a: it is
// made, and the clock is so many seconds ahead.
#define _GNU_SOURCE
#include <dlfcn.h>
#include <errno.h>
#include <fcntl.h>
#include <netinet/in.h>
#include <netinet/tcp.h>
#include <poll.h>
#include <signal.h>
#include <stdarg.h>
#include <stdio.h>
#include <stdlib.h>
#include <string.h>
#include <sys/epoll.h>
#include <sys/file.h>
#include <sys/random.h>
#include <sys/socket.h>
#include <sys/syscall.h>
#include <sys/time.h>
#include <time.h>
#include <unistd.h>

enum { MOST = 32, SOCKETS = 1024 };

struct rule {
    char name[16], kind;
    int peer;
    unsigned long first, count, seen;
    long number;
};

static struct rule rules[MOST];
static int peers[SOCKETS], accepted, log_file = -1, many;

// Reads the rules, and opens the file at a number that no socket of the program has.
__attribute__((constructor)) static void begin(void) {
    const char *text = getenv("RULES"), *name = getenv("CALLS_LOG");
    for (int used = 0; text && many < MOST; many++, text += used) {
        struct rule *r = &rules[many];
        int fields = sscanf(text, "%15s %d %lu %lu %c %ld;%n",
            r->name, &r->peer, &r->first, &r->count, &r->kind, &r->number, &used);
        if (fields != 6) break;
    }
    int file = name ? open(name, O_CREAT | O_WRONLY | O_APPEND, 0600) : -1;
    if (file >= 0) {
        log_file = fcntl(file, F_DUPFD_CLOEXEC, 900);
        close(file);
    }
}

// Writes a line to the log. It allocates nothing, since a sanitizer may read the clock when it allocates.
static void log_line(const char *form, ...) {
    char line[128];
    va_list arguments;
    va_start(arguments, form);
    int size = vsnprintf(line, sizeof line, form, arguments);
    va_end(arguments);
    if (log_file >= 0 && size > 0) syscall(SYS_write, log_file, line, (size_t)size);
}

static int peer_of(int socket) {
    return socket >= 0 && socket < SOCKETS ? peers[socket] : 0;
}

// The rule that takes this call. Each rule for this name and peer counts the call.
static struct rule *rule_of(const char *name, int socket) {
    struct rule *found = 0;
    for (int at = 0; at < many; at++) {
        struct rule *r = &rules[at];
        if (strcmp(r->name, name) || (r->peer && r->peer != peer_of(socket))) continue;
        unsigned long number = ++r->seen;
        if (!found && number >= r->first && (!r->count || number < r->first + r->count)) found = r;
    }
    if (found) log_line("%s %d %c %ld\n", name, peer_of(socket), found->kind, found->number);
    if (found && found->kind == 'k') kill(getpid(), SIGKILL);
    return found;
}

// Whether a rule answers instead of the system, and what it answers.
static int answers(struct rule *r, long *answer) {
    if (!r || r->kind == 'n') return 0;
    *answer = r->kind == 'r' ? r->number : r->kind == 'p' ? 0 : -1;
    if (r->kind == 'e') errno = (int)r->number;
    return 1;
}

static size_t size_of(struct rule *r, size_t size) {
    return r && r->kind == 'n' && (size_t)r->number < size ? (size_t)r->number : size;
}

#define NEXT(name) \
    static __typeof__(&name) next; \
    if (!next) next = (__typeof__(&name))dlsym(RTLD_NEXT, #name)

ssize_t recv(int socket, void *into, size_t size, int flags) {
    NEXT(recv);
    long answer;
    struct rule *r = rule_of("recv", socket);
    return answers(r, &answer) ? answer : next(socket, into, size_of(r, size), flags);
}

ssize_t send(int socket, const void *from, size_t size, int flags) {
    NEXT(send);
    long answer;
    struct rule *r = rule_of("send", socket);
    log_line("sends %d\n", peer_of(socket));
    return answers(r, &answer) ? answer : next(socket, from, size_of(r, size), flags);
}

ssize_t read(int file, void *into, size_t size) {
    NEXT(read);
    long answer;
    struct rule *r = rule_of("read", file);
    return answers(r, &answer) ? answer : next(file, into, size_of(r, size));
}

ssize_t write(int file, const void *from, size_t size) {
    NEXT(write);
    long answer;
    struct rule *r = rule_of(file == 2 ? "write2" : "write", file);
    return answers(r, &answer) ? answer : next(file, from, size_of(r, size));
}

ssize_t __write(int file, const void *from, size_t size) {
    return write(file, from, size);
}

int fsync(int file) {
    NEXT(fsync);
    long answer;
    log_line("syncs\n");
    return answers(rule_of("fsync", -1), &answer) ? (int)answer : next(file);
}

int rename(const char *from, const char *to) {
    NEXT(rename);
    long answer;
    log_line("renames\n");
    return answers(rule_of("rename", -1), &answer) ? (int)answer : next(from, to);
}

int flock(int file, int operation) {
    NEXT(flock);
    long answer;
    return answers(rule_of("flock", -1), &answer) ? (int)answer : next(file, operation);
}

int getentropy(void *into, size_t size) {
    NEXT(getentropy);
    long answer;
    return answers(rule_of("getentropy", -1), &answer) ? (int)answer : next(into, size);
}

ssize_t recvfrom(int socket, void *restrict into, size_t size, int flags,
    struct sockaddr *restrict from, socklen_t *restrict length) {
    NEXT(recvfrom);
    long answer;
    return answers(rule_of("recvfrom", socket), &answer) ? answer : next(socket, into, size, flags, from, length);
}

ssize_t sendto(int socket, const void *from, size_t size, int flags, const struct sockaddr *to, socklen_t length) {
    NEXT(sendto);
    long answer;
    return answers(rule_of("sendto", socket), &answer) ? answer : next(socket, from, size, flags, to, length);
}

int accept4(int socket, struct sockaddr *restrict from, socklen_t *restrict length, int flags) {
    NEXT(accept4);
    long answer;
    if (answers(rule_of("accept4", socket), &answer)) return (int)answer;
    int peer = next(socket, from, length, flags);
    if (peer >= 0 && peer < SOCKETS) {
        peers[peer] = ++accepted;
        log_line("accepts %d\n", accepted);
    }
    return peer;
}

int socket(int family, int type, int protocol) {
    NEXT(socket);
    long answer;
    return answers(rule_of("socket", -1), &answer) ? (int)answer : next(family, type, protocol);
}

int bind(int socket, const struct sockaddr *to, socklen_t length) {
    NEXT(bind);
    long answer;
    return answers(rule_of("bind", -1), &answer) ? (int)answer : next(socket, to, length);
}

int listen(int socket, int backlog) {
    NEXT(listen);
    long answer;
    return answers(rule_of("listen", -1), &answer) ? (int)answer : next(socket, backlog);
}

int getsockname(int socket, struct sockaddr *restrict name, socklen_t *restrict length) {
    NEXT(getsockname);
    long answer;
    return answers(rule_of("getsockname", -1), &answer) ? (int)answer : next(socket, name, length);
}

int epoll_create1(int flags) {
    NEXT(epoll_create1);
    long answer;
    return answers(rule_of("epoll_create", -1), &answer) ? (int)answer : next(flags);
}

int connect(int socket, const struct sockaddr *to, socklen_t length) {
    NEXT(connect);
    long answer;
    if (answers(rule_of("connect", socket), &answer)) return (int)answer;
    log_line("connects 0\n");
    return next(socket, to, length);
}

int setsockopt(int socket, int level, int name, const void *value, socklen_t length) {
    NEXT(setsockopt);
    long answer;
    const struct timeval *time = value;
    int peer = peer_of(socket);
    if (length == sizeof *time) log_line("sets %d %d %d %ld.%06ld\n", peer, level, name, time->tv_sec, time->tv_usec);
    else log_line("sets %d %d %d %d\n", peer, level, name, *(const int *)value);
    const char *rule = name == SO_RCVTIMEO ? "timeout" : "option";
    if (level == IPPROTO_TCP && name == TCP_NODELAY) rule = "nodelay";
    return answers(rule_of(rule, socket), &answer) ? (int)answer : next(socket, level, name, value, length);
}

// Does not use dlsym, since a sanitizer may read the clock during it.
int clock_gettime(clockid_t clock, struct timespec *time) {
    long answer;
    struct rule *r = rule_of("clock", -1);
    int is_ahead = r && r->kind == 'a';
    if (!is_ahead && answers(r, &answer)) return (int)answer;
    int status = (int)syscall(SYS_clock_gettime, clock, time);
    if (is_ahead && status == 0) time->tv_sec += r->number;
    return status;
}

int nanosleep(const struct timespec *time, struct timespec *left) {
    NEXT(nanosleep);
    long answer;
    log_line("sleeps %ld.%06ld\n", (long)time->tv_sec, time->tv_nsec / 1000);
    struct rule *r = rule_of("nanosleep", -1);
    if (!answers(r, &answer)) return next(time, left);
    // an interrupted sleep has half of its time left
    if (answer < 0 && left) *left = (struct timespec){time->tv_sec / 2, 0};
    return (int)answer;
}

int poll(struct pollfd *sockets, nfds_t count, int milliseconds) {
    NEXT(poll);
    long answer;
    log_line("polls %d\n", milliseconds);
    return answers(rule_of("poll", -1), &answer) ? (int)answer : next(sockets, count, milliseconds);
}

int epoll_wait(int poll, struct epoll_event *events, int capacity, int milliseconds) {
    NEXT(epoll_wait);
    long answer;
    log_line("waits %d\n", milliseconds);
    return answers(rule_of("epoll_wait", -1), &answer) ? (int)answer : next(poll, events, capacity, milliseconds);
}

int epoll_ctl(int poll, int what, int socket, struct epoll_event *event) {
    NEXT(epoll_ctl);
    long answer;
    return answers(rule_of("epoll_ctl", socket), &answer) ? (int)answer : next(poll, what, socket, event);
}

int getpeername(int socket, struct sockaddr *restrict name, socklen_t *restrict length) {
    NEXT(getpeername);
    long answer;
    return answers(rule_of("getpeername", socket), &answer) ? (int)answer : next(socket, name, length);
}

int shutdown(int socket, int how) {
    NEXT(shutdown);
    long answer;
    log_line("shuts %d %d\n", peer_of(socket), how);
    return answers(rule_of("shutdown", socket), &answer) ? (int)answer : next(socket, how);
}

int close(int file) {
    NEXT(close);
    if (peer_of(file)) log_line("closes %d\n", peer_of(file));
    if (file >= 0 && file < SOCKETS) peers[file] = 0;
    return next(file);
}
