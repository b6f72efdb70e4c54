// For performance/owner: the peers and the owner of a device, and a raw echo of the lines of an owner.
//
//   load PORT OWNER PEERS ROUNDS   PEERS peers send a command each, ROUNDS times, to the device at PORT. The owner, at
//                                  the port OWNER, executes each at once. A round ends when all its commands are
//                                  answered, to the peers and to the owner. Prints the commands per second
//   lines OWNER COUNT              an owner alone, which executes COUNT commands. Prints the commands per second
//   echo AHEAD                     prints two ports, and serves both until standard input ends. For each frame of a
//                                  peer it writes the line of a command to the owner, and the frame of its ticket to
//                                  the peer; for each line of the owner it writes the line of an answer. While AHEAD
//                                  commands are not done, it writes no other. It keeps counts and nothing else
//   source WINDOW                  prints a port. An owner that connects there has WINDOW commands at a time
#define _GNU_SOURCE
#include <arpa/inet.h>
#include <errno.h>
#include <netinet/in.h>
#include <netinet/tcp.h>
#include <poll.h>
#include <stdio.h>
#include <stdlib.h>
#include <string.h>
#include <sys/socket.h>
#include <time.h>
#include <unistd.h>

enum { HEADER = 24, PACKET = 16, MOST_PEERS = 16, CAPACITY = 65536, LONGEST_LINE = 256 };

// The sizes of the frames of the peers: RegisterSession, a command, and the answer with its ticket.
enum { REGISTER = 28, COMMAND = HEADER + PACKET + 12, TICKET = HEADER + PACKET + 8 };

static const unsigned char REGISTERING[REGISTER] = {0x65, 0, 4, 0, [24] = 1};
// Service 52 of class 768, instance 1, with 5, behind the two items of an unconnected request.
static const unsigned char MOVE[12] = {0x34, 3, 0x21, 0, 0, 3, 0x24, 1, 5};

// The lines of the device and of the owner.
#define COMMAND_HEAD "{\"command\":{\"ticket\":"
#define COMMAND_REST ",\"class\":768,\"instance\":1,\"service\":52,\"data\":\"05000000\"," COMMAND_END
#define COMMAND_END "\"by\":\"127.0.0.1\",\"again\":false}}\n"
#define DONE "{\"done\":{\"ticket\":%lu,\"status\":0,\"data\":\"05000000\"}}\n"
#define OK "{\"ok\":%lu}\n"

// Bytes of lines: those that were read and not used, or those that are to be written.
typedef struct {
    size_t size;
    char bytes[CAPACITY];
} Lines;

static double now_in_seconds(void) {
    struct timespec now;
    clock_gettime(CLOCK_MONOTONIC, &now);
    return now.tv_sec + now.tv_nsec / 1e9;
}

static void no_delay(int socket) {
    int on = 1;
    setsockopt(socket, IPPROTO_TCP, TCP_NODELAY, &on, sizeof on);
}

static int connected(int port) {
    struct sockaddr_in at = {.sin_family = AF_INET, .sin_addr.s_addr = htonl(INADDR_LOOPBACK), .sin_port = htons(port)};
    int client = socket(AF_INET, SOCK_STREAM, 0);
    if (connect(client, (void *)&at, sizeof at)) return -1;
    no_delay(client);
    return client;
}

static int listening(void) {
    struct sockaddr_in at = {.sin_family = AF_INET, .sin_addr.s_addr = htonl(INADDR_LOOPBACK)};
    socklen_t size = sizeof at;
    int listener = socket(AF_INET, SOCK_STREAM, 0);
    if (bind(listener, (void *)&at, size) || listen(listener, 128)) return -1;
    if (getsockname(listener, (void *)&at, &size)) return -1;
    printf("%d\n", ntohs(at.sin_port));
    fflush(stdout);
    return listener;
}

static int read_whole(int client, unsigned char *bytes, size_t size) {
    for (ssize_t got; size > 0; size -= got, bytes += got) {
        if ((got = read(client, bytes, size)) <= 0) return 0;
    }
    return 1;
}

static int write_whole(int client, const char *bytes, size_t size) {
    for (ssize_t sent; size > 0; size -= sent, bytes += sent) {
        if ((sent = send(client, bytes, size, MSG_NOSIGNAL)) <= 0) return 0;
    }
    return 1;
}

// Writes lines and forgets them.
static int flush_lines(int client, Lines *lines) {
    size_t size = lines->size;
    lines->size = 0;
    return write_whole(client, lines->bytes, size);
}

// Reads once, behind the bytes that are left.
static int read_lines(int client, Lines *lines) {
    ssize_t got = read(client, lines->bytes + lines->size, CAPACITY - lines->size);
    if (got <= 0) return 0;
    lines->size += got;
    return 1;
}

// Calls `take` with each line, and keeps what comes after the last newline.
static void each_line(Lines *lines, void (*take)(const char *line, Lines *out), Lines *out) {
    char *at = lines->bytes, *end = lines->bytes + lines->size;
    for (char *newline; (newline = memchr(at, '\n', end - at)); at = newline + 1) take(at, out);
    lines->size = end - at;
    memmove(lines->bytes, at, lines->size);
}

// The owner: how many of its commands are done, and how many of those were answered.
static unsigned long done, answered;

static void execute(const char *line, Lines *out) {
    static const char HEAD[] = COMMAND_HEAD, ANSWER[] = "{\"ok\":";
    if (!strncmp(line, HEAD, sizeof HEAD - 1)) {
        unsigned long ticket = strtoul(line + sizeof HEAD - 1, NULL, 10);
        out->size += snprintf(out->bytes + out->size, LONGEST_LINE, DONE, ticket);
        done++;
    } else if (!strncmp(line, ANSWER, sizeof ANSWER - 1)) {
        answered++;
    }
}

// Executes commands until so many were answered.
static int execute_until(int owner, unsigned long count) {
    static Lines in, out;
    while (answered < count) {
        if (!read_lines(owner, &in)) return 0;
        each_line(&in, execute, &out);
        if (out.size > 0 && !flush_lines(owner, &out)) return 0;
    }
    return 1;
}

// Registers a session and makes the frame of its command. Returns 0 if that failed.
static int begin(int peer, unsigned char *frame) {
    unsigned char bytes[REGISTER];
    if (write(peer, REGISTERING, REGISTER) != REGISTER || !read_whole(peer, bytes, REGISTER)) return 0;
    memset(frame, 0, COMMAND);
    frame[0] = 0x6f, frame[2] = PACKET + sizeof MOVE, frame[4] = bytes[4], frame[5] = bytes[5];
    frame[HEADER + 6] = 2, frame[HEADER + 12] = 0xb2, frame[HEADER + 14] = sizeof MOVE;
    memcpy(frame + HEADER + PACKET, MOVE, sizeof MOVE);
    return 1;
}

static int load(int port, int owner_port, int count, unsigned long rounds) {
    unsigned char frames[MOST_PEERS][COMMAND], answer[TICKET];
    int peers[MOST_PEERS], owner = connected(owner_port);
    for (int i = 0; i < count; i++) {
        if ((peers[i] = connected(port)) < 0 || !begin(peers[i], frames[i])) return 1;
    }
    double from = now_in_seconds();
    for (unsigned long round = 1; round <= rounds; round++) {
        for (int i = 0; i < count; i++) {
            if (write(peers[i], frames[i], COMMAND) != COMMAND) return 1;
        }
        for (int i = 0; i < count; i++) {
            if (!read_whole(peers[i], answer, TICKET) || answer[HEADER + PACKET + 2] != 0) return 1;
        }
        if (!execute_until(owner, count * round)) return 1;
    }
    printf("%.0f\n", count * rounds / (now_in_seconds() - from));
    return done != count * rounds;
}

static int lines(int owner_port, unsigned long count) {
    int owner = connected(owner_port);
    double from = now_in_seconds();
    if (!execute_until(owner, count)) return 1;
    printf("%.0f\n", count / (now_in_seconds() - from));
    return 0;
}

// The echo: how many commands have tickets, how many of them were written, and how many lines it has answered. At most
// `ahead` are written and not answered.
static unsigned long tickets, written, numbers, ahead = 1;

static void add_command(Lines *out) {
    out->size += snprintf(out->bytes + out->size, LONGEST_LINE, COMMAND_HEAD "%lu" COMMAND_REST, ++written);
}

static void add_commands(Lines *out) {
    while (written < tickets && written < numbers + ahead) add_command(out);
}

static void add_ok(const char *line, Lines *out) {
    (void)line;
    out->size += snprintf(out->bytes + out->size, LONGEST_LINE, OK, ++numbers);
}

static void add_ok_and_command(const char *line, Lines *out) {
    add_ok(line, out);
    add_command(out);
}

static void add_ok_and_commands(const char *line, Lines *out) {
    add_ok(line, out);
    add_commands(out);
}

// Answers what one read of a peer has: a RegisterSession, or commands. Returns 0 at the end of its stream.
static int serve_peer(int peer, Lines *out) {
    unsigned char bytes[4096], answer[TICKET] = {0x6f, 0, PACKET + 8};
    ssize_t got = read(peer, bytes, sizeof bytes);
    if (got <= 0) return 0;
    if (bytes[0] == 0x65) {
        bytes[4] = 1;
        return write(peer, bytes, REGISTER) == REGISTER;
    }
    for (ssize_t at = 0; at + COMMAND <= got; at += COMMAND) {
        unsigned ticket = ++tickets;
        add_commands(out);
        answer[4] = 1, answer[HEADER + 6] = 2, answer[HEADER + 12] = 0xb2, answer[HEADER + 14] = 8;
        answer[HEADER + PACKET] = 0xb4;
        memcpy(answer + HEADER + PACKET + 4, &ticket, sizeof ticket);
        if (write(peer, answer, TICKET) != TICKET) return 0;
    }
    return 1;
}

// Answers what one read of the owner has.
static int serve_owner(int owner, void (*take)(const char *line, Lines *out), Lines *out) {
    static Lines in;
    if (!read_lines(owner, &in)) return 0;
    each_line(&in, take, out);
    return flush_lines(owner, out);
}

enum { PEERS_AT, OWNERS_AT, INPUT, OWNER, FIRST, SOCKETS = FIRST + MOST_PEERS };

static struct pollfd sockets[SOCKETS];

static void admit(int listener, int from, int to) {
    int client = accept(listener, NULL, NULL);
    no_delay(client);
    for (int i = from; i <= to; i++) {
        if (sockets[i].fd < 0) {
            sockets[i].fd = client;
            return;
        }
    }
    close(client);
}

static void leave(int i) {
    close(sockets[i].fd);
    sockets[i].fd = -1;
}

static int echo(unsigned long most) {
    static Lines out;
    ahead = most;
    for (int i = 0; i < SOCKETS; i++) sockets[i] = (struct pollfd){.fd = -1, .events = POLLIN};
    sockets[PEERS_AT].fd = listening(), sockets[OWNERS_AT].fd = listening(), sockets[INPUT].fd = 0;
    for (;;) {
        if (poll(sockets, SOCKETS, -1) < 0 && errno != EINTR) return 1;
        if (sockets[INPUT].revents) return 0;
        if (sockets[OWNER].revents && !serve_owner(sockets[OWNER].fd, add_ok_and_commands, &out)) leave(OWNER);
        for (int i = FIRST; i < SOCKETS; i++) {
            if (sockets[i].revents && !serve_peer(sockets[i].fd, &out)) leave(i);
        }
        if (out.size > 0 && !flush_lines(sockets[OWNER].fd, &out)) return 1;
        if (sockets[PEERS_AT].revents) admit(sockets[PEERS_AT].fd, FIRST, SOCKETS - 1);
        if (sockets[OWNERS_AT].revents) admit(sockets[OWNERS_AT].fd, OWNER, OWNER);
    }
}

static int source(int window) {
    static Lines out;
    int owner = accept(listening(), NULL, NULL);
    no_delay(owner);
    for (int i = 0; i < window; i++) add_command(&out);
    if (!flush_lines(owner, &out)) return 1;
    while (serve_owner(owner, add_ok_and_command, &out)) {
    }
    return 0;
}

int main(int count, char **arguments) {
    const char *mode = count > 1 ? arguments[1] : "";
    if (count == 6 && !strcmp(mode, "load")) {
        return load(atoi(arguments[2]), atoi(arguments[3]), atoi(arguments[4]), atol(arguments[5]));
    }
    if (count == 4 && !strcmp(mode, "lines")) return lines(atoi(arguments[2]), atol(arguments[3]));
    if (count == 3 && !strcmp(mode, "echo")) return echo(strtoul(arguments[2], NULL, 10));
    if (count == 3 && !strcmp(mode, "source")) return source(atoi(arguments[2]));
    return 2;
}
