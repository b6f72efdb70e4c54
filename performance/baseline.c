// For performance/adapter: copies of bytes, an echo server on a socket, and the client of both servers.
//
//   copy COUNT PIECE             copies the bytes of standard input COUNT times, in pieces of at most PIECE bytes
//   echo CONNECTIONS             prints its port, and sends back what it reads, one connection after another
//   ask PORT ROUNDS FIRST ANSWER prints the round trips per second. Standard input has FIRST bytes that are sent once
//                                and not measured, then a request whose answer has ANSWER bytes
#include <arpa/inet.h>
#include <netinet/in.h>
#include <netinet/tcp.h>
#include <stdio.h>
#include <stdlib.h>
#include <string.h>
#include <sys/socket.h>
#include <time.h>
#include <unistd.h>

#define LONGEST 65535

static unsigned char input[4 * LONGEST], copied[LONGEST];

static size_t read_input(void) {
    size_t size = 0;
    for (ssize_t got; (got = read(0, input + size, sizeof input - size)) > 0; size += got) {
    }
    return size;
}

static int copy(long count, size_t piece) {
    size_t size = read_input();
    if (size > LONGEST) return 1;
    for (long i = 0; i < count; i++) {
        for (size_t at = 0; at < size; at += piece) {
            size_t part = size - at < piece ? size - at : piece;
            memcpy(copied + at, input + at, part);
        }
        __asm__ volatile("" : : "r"(copied), "r"(input) : "memory");
    }
    return 0;
}

static void no_delay(int peer) {
    int on = 1;
    setsockopt(peer, IPPROTO_TCP, TCP_NODELAY, &on, sizeof on);
}

static int echo(long connections) {
    struct sockaddr_in at = {.sin_family = AF_INET, .sin_addr.s_addr = htonl(INADDR_LOOPBACK)};
    socklen_t size = sizeof at;
    int listener = socket(AF_INET, SOCK_STREAM, 0);
    if (bind(listener, (void *)&at, size) || listen(listener, 128)) return 1;
    if (getsockname(listener, (void *)&at, &size)) return 1;
    printf("%d\n", ntohs(at.sin_port));
    fflush(stdout);
    for (long i = 0; i < connections; i++) {
        unsigned char buffer[4096];
        int peer = accept(listener, NULL, NULL);
        no_delay(peer);
        for (ssize_t got; (got = recv(peer, buffer, sizeof buffer, 0)) > 0;) {
            struct timespec now;
            clock_gettime(CLOCK_MONOTONIC, &now);
            if (send(peer, buffer, got, MSG_NOSIGNAL) != got) break;
        }
        close(peer);
    }
    return 0;
}

static int read_whole(int peer, size_t size) {
    unsigned char buffer[4096];
    while (size > 0) {
        ssize_t got = read(peer, buffer, size < sizeof buffer ? size : sizeof buffer);
        if (got <= 0) return 0;
        size -= got;
    }
    return 1;
}

static int ask(int port, long rounds, size_t first, size_t answer) {
    struct sockaddr_in at = {.sin_family = AF_INET, .sin_addr.s_addr = htonl(INADDR_LOOPBACK), .sin_port = htons(port)};
    int peer = socket(AF_INET, SOCK_STREAM, 0);
    size_t size = read_input();
    if (connect(peer, (void *)&at, sizeof at)) return 1;
    no_delay(peer);
    if (first > 0 && (write(peer, input, first) != (ssize_t)first || !read_whole(peer, first))) return 1;
    struct timespec from, to;
    clock_gettime(CLOCK_MONOTONIC, &from);
    for (long i = 0; i < rounds; i++) {
        if (write(peer, input + first, size - first) != (ssize_t)(size - first) || !read_whole(peer, answer)) return 1;
    }
    clock_gettime(CLOCK_MONOTONIC, &to);
    printf("%.0f\n", rounds / (to.tv_sec - from.tv_sec + (to.tv_nsec - from.tv_nsec) / 1e9));
    close(peer);
    return 0;
}

int main(int count, char **arguments) {
    if (count == 4 && !strcmp(arguments[1], "copy")) return copy(atol(arguments[2]), atol(arguments[3]));
    if (count == 3 && !strcmp(arguments[1], "echo")) return echo(atol(arguments[2]));
    if (count == 6 && !strcmp(arguments[1], "ask")) {
        return ask(atoi(arguments[2]), atol(arguments[3]), atol(arguments[4]), atol(arguments[5]));
    }
    return 2;
}
