// For performance/peers: a server with epoll that reads and writes as `enip serve` does, and the peers of both servers.
//
//   serve SLOTS               prints its port, and serves a device of one object that is written by hand: it checks the
//                             header, session, items and path of each complete frame, and answers RegisterSession and
//                             a get of an attribute of Identity. It makes one read of 4,096 bytes per peer and round.
//                             After a read that did not fill the buffer it waits for a report, unless the end of the
//                             stream has been reported. It makes one write per answer. A peer that is silent for 120
//                             seconds is ended. The server ends when standard input ends
//   load PORT PEERS ROUNDS    PEERS peers read the vendor ROUNDS times at once, and compare each answer. Prints the
//                             round trips per second
//   wait PORT ROUNDS          one peer reads the vendor ROUNDS times. Prints the median, the 99th percentile and the
//                             longest round trip, in microseconds
//   flood PORT                one peer sends requests without waiting, and reads the answers, until it is killed
#define _GNU_SOURCE
#include <arpa/inet.h>
#include <errno.h>
#include <fcntl.h>
#include <netinet/in.h>
#include <netinet/tcp.h>
#include <poll.h>
#include <stdio.h>
#include <stdlib.h>
#include <string.h>
#include <sys/epoll.h>
#include <sys/socket.h>
#include <time.h>
#include <unistd.h>

enum { HEADER = 24, PACKET = 16, LONGEST_REPLY = 40, CAPACITY = 4096, MOST_PEERS = 64, LISTENER = MOST_PEERS };

// The idle timeout of a peer, in seconds.
enum { IDLE_TIMEOUT = 120 };

// The sizes of the frames of the peers: RegisterSession, a get of the vendor, and its answer.
enum { REGISTER = 28, REQUEST = 48, ANSWER = 46 };

static const unsigned char REGISTERING[REGISTER] = {0x65, 0, 4, 0, [24] = 1};

typedef struct {
    int socket, ready, ends;
    double heard;
    size_t held;
    unsigned char bytes[CAPACITY + HEADER];
} Peer;

static Peer peers[MOST_PEERS];

// The time of the round.
static double round_time;

static double now_in_seconds(void) {
    struct timespec now;
    clock_gettime(CLOCK_MONOTONIC, &now);
    return now.tv_sec + now.tv_nsec / 1e9;
}

static void no_delay(int socket) {
    int on = 1;
    setsockopt(socket, IPPROTO_TCP, TCP_NODELAY, &on, sizeof on);
}

static unsigned number(const unsigned char *at, int size) {
    unsigned value = 0;
    for (int i = size - 1; i >= 0; i--) value = value << 8 | at[i];
    return value;
}

static unsigned char *put(unsigned char *at, unsigned value, int size) {
    for (int i = 0; i < size; i++) *at++ = value >> 8 * i;
    return at;
}

typedef struct {
    unsigned class, instance, attribute;
} Path;

// Reads logical segments of 8 and 16 bits. Returns 0 if there is another segment.
static int read_path(const unsigned char *at, const unsigned char *end, Path *path) {
    for (int wide; at < end; at += wide ? 4 : 2) {
        wide = *at & 3;
        if (wide > 1 || end - at < (wide ? 4 : 2)) return 0;
        unsigned value = wide ? number(at + 2, 2) : at[1];
        switch (*at & 0xfc) {
        case 0x20: path->class = value; break;
        case 0x24: path->instance = value; break;
        case 0x30: path->attribute = value; break;
        default: return 0;
        }
    }
    return 1;
}

// Writes an attribute of Identity. Returns its end, or NULL if there is no such attribute.
static unsigned char *put_attribute(unsigned char *at, unsigned attribute) {
    switch (attribute) {
    case 1: return put(at, 0x1234, 2);
    case 2: return put(at, 43, 2);
    case 3: return put(at, 7, 2);
    case 4: return put(put(at, 2, 1), 5, 1);
    case 5: return put(at, 0, 2);
    case 6: return put(at, 0x01020304, 4);
    case 7: return memcpy(put(at, 4, 1), "Demo", 4), at + 5;
    default: return NULL;
    }
}

// Writes the reply to a message router request. Returns its size.
static size_t reply_to(const unsigned char *request, size_t size, unsigned char *reply) {
    Path path = {0};
    unsigned char *end = NULL;
    unsigned status = 0;
    if (size < 2 || 2 + 2 * (size_t)request[1] > size || !read_path(request + 2, request + 2 + 2 * request[1], &path)) {
        status = 0x04;
    } else if (path.class != 1 || path.instance != 1) {
        status = 0x05;
    } else if (request[0] != 0x0e) {
        status = 0x08;
    } else if (!(end = put_attribute(reply + 4, path.attribute))) {
        status = 0x14;
    }
    put(put(reply, request[0] | 0x80, 2), status, 2);
    return status ? 4 : (size_t)(end - reply);
}

// Writes the answer to an unconnected request: a null address, and a data item with the reply. Returns the size of the
// data, or 0 if the packet is malformed.
static size_t answer_packet(const unsigned char *data, size_t size, unsigned char *answer) {
    if (size < PACKET || number(data, 4) || number(data + 6, 2) != 2 || number(data + 8, 4)) return 0;
    if (number(data + 12, 2) != 0xb2 || number(data + 14, 2) != size - PACKET) return 0;
    size_t reply = reply_to(data + PACKET, size - PACKET, answer + PACKET);
    unsigned char *at = put(put(put(answer, 0, 6), 2, 2), 0, 4);
    put(put(at, 0xb2, 2), reply, 2);
    return PACKET + reply;
}

// Answers a frame of a peer. Returns 0 if the peer must be ended.
static int answer(Peer *peer, const unsigned char *frame, size_t size) {
    unsigned char bytes[HEADER + PACKET + LONGEST_REPLY];
    unsigned handle = 1 + (peer - peers), session = number(frame + 4, 4), status = 0;
    size_t data = 0;
    if (number(frame + 8, 4) || number(frame + 20, 4)) return 1;
    if (number(frame, 2) == 0x65) {
        status = size != REGISTER || number(frame + HEADER, 4) != 1 ? 0x69 : 0;
        memcpy(bytes + HEADER, frame + HEADER, data = 4);
        session = handle;
    } else if (number(frame, 2) != 0x6f) {
        status = 0x01;
    } else if (session != handle) {
        status = 0x64;
    } else if (!(data = answer_packet(frame + HEADER, size - HEADER, bytes + HEADER))) {
        status = 0x03;
    }
    put(put(put(put(bytes, number(frame, 2), 2), data, 2), session, 4), status, 4);
    memcpy(bytes + 12, frame + 12, 12);
    return send(peer->socket, bytes, HEADER + data, MSG_NOSIGNAL) == (ssize_t)(HEADER + data);
}

// One turn of a peer: a read, and an answer to each complete frame. Returns 0 if the peer must be ended.
static int turn(Peer *peer) {
    ssize_t got = recv(peer->socket, peer->bytes + peer->held, CAPACITY - peer->held, 0);
    if (got < 0 && errno == EAGAIN) return peer->ready = 0, 1;
    if (got <= 0) return 0;
    peer->heard = round_time;
    // a read that did not fill the buffer took all that had arrived, except an end of the stream that was reported
    if ((size_t)got < CAPACITY - peer->held && !peer->ends) peer->ready = 0;
    size_t at = 0, size = peer->held + got;
    while (size - at >= HEADER) {
        unsigned frame = HEADER + peer->bytes[at + 2] + 256 * peer->bytes[at + 3];
        if (size - at < frame) break;
        if (!answer(peer, peer->bytes + at, frame)) return 0;
        at += frame;
    }
    memmove(peer->bytes, peer->bytes + at, size - at);
    peer->held = size - at;
    return 1;
}

static void admit(int poll, int listener, int slots) {
    for (int socket; (socket = accept4(listener, NULL, NULL, SOCK_NONBLOCK)) >= 0;) {
        int slot = 0;
        while (slot < slots && peers[slot].socket > 0) slot++;
        if (slot == slots) {
            close(socket);
            continue;
        }
        no_delay(socket);
        peers[slot] = (Peer){.socket = socket, .ready = 1, .heard = round_time};
        struct epoll_event event = {.events = EPOLLIN | EPOLLOUT | EPOLLRDHUP | EPOLLET, .data.u32 = slot};
        epoll_ctl(poll, EPOLL_CTL_ADD, socket, &event);
    }
}

// The milliseconds until the first idle timeout; -1 without peers.
static int until_timeout(int slots) {
    double earliest = 0;
    for (int slot = 0; slot < slots; slot++) {
        Peer *peer = &peers[slot];
        if (peer->socket > 0 && (earliest == 0 || peer->heard < earliest)) earliest = peer->heard;
    }
    return earliest == 0 ? -1 : (int)((earliest + IDLE_TIMEOUT - round_time) * 1000) + 1;
}

// One round: each peer that may be ready has a turn, and one that was silent for too long is ended. Returns whether a
// peer may still be ready.
static int round_of_turns(int slots) {
    int ready = 0;
    for (int slot = 0; slot < slots; slot++) {
        Peer *peer = &peers[slot];
        if (peer->socket > 0 && (round_time >= peer->heard + IDLE_TIMEOUT || (peer->ready && !turn(peer)))) {
            close(peer->socket);
            peer->socket = 0;
        }
        ready |= peer->socket > 0 && peer->ready;
    }
    return ready;
}

static int listen_on_a_free_port(void) {
    struct sockaddr_in at = {.sin_family = AF_INET, .sin_addr.s_addr = htonl(INADDR_LOOPBACK)};
    socklen_t size = sizeof at;
    int listener = socket(AF_INET, SOCK_STREAM | SOCK_NONBLOCK, 0);
    if (bind(listener, (void *)&at, size) || listen(listener, 128)) return -1;
    if (getsockname(listener, (void *)&at, &size)) return -1;
    printf("%d\n", ntohs(at.sin_port));
    fflush(stdout);
    return listener;
}

static int serve(int slots) {
    int listener = listen_on_a_free_port(), poll = epoll_create1(0), ready = 0;
    struct epoll_event listening = {.events = EPOLLIN | EPOLLET, .data.u32 = LISTENER}, events[32];
    struct epoll_event input = {.events = EPOLLIN | EPOLLHUP, .data.u32 = LISTENER + 1};
    if (listener < 0 || epoll_ctl(poll, EPOLL_CTL_ADD, listener, &listening)) return 1;
    epoll_ctl(poll, EPOLL_CTL_ADD, 0, &input);
    for (;;) {
        int count = epoll_wait(poll, events, 32, ready ? 0 : until_timeout(slots));
        round_time = now_in_seconds();
        for (int i = 0; i < count; i++) {
            if (events[i].data.u32 > LISTENER) return 0;
            if (events[i].data.u32 == LISTENER) admit(poll, listener, slots);
            else {
                peers[events[i].data.u32].ready = 1;
                if (events[i].events & EPOLLRDHUP) peers[events[i].data.u32].ends = 1;
            }
        }
        ready = round_of_turns(slots);
    }
}

static int connected(int port) {
    struct sockaddr_in at = {.sin_family = AF_INET, .sin_addr.s_addr = htonl(INADDR_LOOPBACK), .sin_port = htons(port)};
    int peer = socket(AF_INET, SOCK_STREAM, 0);
    if (connect(peer, (void *)&at, sizeof at)) return -1;
    no_delay(peer);
    return peer;
}

static int read_whole(int peer, unsigned char *bytes, size_t size) {
    for (ssize_t got; size > 0; size -= got, bytes += got) {
        if ((got = read(peer, bytes, size)) <= 0) return 0;
    }
    return 1;
}

// Registers a session. Returns its handle, or 0 if that failed.
static unsigned begin(int peer) {
    unsigned char bytes[REGISTER];
    if (write(peer, REGISTERING, REGISTER) != REGISTER || !read_whole(peer, bytes, REGISTER)) return 0;
    return bytes[4] + 256 * bytes[5];
}

// The request of a session for the vendor, with its number as the context, and its answer.
static void request_of(unsigned session, unsigned number, unsigned char *request, unsigned char *wanted) {
    static const unsigned char PACKET[24] = {[6] = 2, [12] = 0xb2, [14] = 8, [16] = 0x0e, 3, 0x20, 1, 0x24, 1, 0x30, 1};
    memset(request, 0, REQUEST);
    request[0] = 0x6f, request[2] = 24, request[4] = session & 255, request[5] = session >> 8;
    memcpy(request + 12, &number, sizeof number);
    memcpy(request + HEADER, PACKET, sizeof PACKET);
    memcpy(wanted, request, ANSWER);
    wanted[2] = 22, wanted[38] = 6, wanted[40] = 0x8e, wanted[41] = wanted[42] = wanted[43] = 0;
    wanted[44] = 0x34, wanted[45] = 0x12;
}

static int load(int port, int count, long rounds) {
    unsigned char request[REQUEST], wanted[ANSWER], got[ANSWER];
    unsigned sessions[MOST_PEERS];
    int sockets[MOST_PEERS];
    for (int i = 0; i < count; i++) {
        if ((sockets[i] = connected(port)) < 0 || (sessions[i] = begin(sockets[i])) == 0) return 1;
    }
    double from = now_in_seconds();
    for (long number = 0; number < rounds; number++) {
        for (int i = 0; i < count; i++) {
            request_of(sessions[i], number, request, wanted);
            if (write(sockets[i], request, REQUEST) != REQUEST) return 1;
        }
        for (int i = 0; i < count; i++) {
            request_of(sessions[i], number, request, wanted);
            if (!read_whole(sockets[i], got, ANSWER) || memcmp(got, wanted, ANSWER)) return 1;
        }
    }
    printf("%.0f\n", count * rounds / (now_in_seconds() - from));
    return 0;
}

static int by_value(const void *a, const void *b) {
    double difference = *(const double *)a - *(const double *)b;
    return (difference > 0) - (difference < 0);
}

static int wait_for_each(int port, long rounds) {
    unsigned char request[REQUEST], wanted[ANSWER], got[ANSWER];
    int peer = connected(port);
    unsigned session = begin(peer);
    double *each = calloc(rounds, sizeof *each);
    if (session == 0 || !each) return 1;
    for (long number = 0; number < rounds; number++) {
        request_of(session, number, request, wanted);
        double from = now_in_seconds();
        if (write(peer, request, REQUEST) != REQUEST || !read_whole(peer, got, ANSWER)) return 1;
        each[number] = (now_in_seconds() - from) * 1e6;
        if (memcmp(got, wanted, ANSWER)) return 1;
    }
    qsort(each, rounds, sizeof *each, by_value);
    printf("%.0f %.0f %.0f\n", each[rounds / 2], each[rounds * 99 / 100], each[rounds - 1]);
    return 0;
}

static int flood(int port) {
    unsigned char request[REQUEST], wanted[ANSWER];
    static unsigned char many[REQUEST * 1000], got[65536];
    int peer = connected(port);
    unsigned session = begin(peer);
    for (int i = 0; i < 1000; i++) {
        request_of(session, i, request, wanted);
        memcpy(many + i * REQUEST, request, REQUEST);
    }
    fcntl(peer, F_SETFL, O_NONBLOCK);
    for (size_t at = 0;;) {
        struct pollfd events = {.fd = peer, .events = POLLIN | POLLOUT};
        poll(&events, 1, -1);
        while (read(peer, got, sizeof got) > 0) {
        }
        ssize_t sent = send(peer, many + at, sizeof many - at, MSG_NOSIGNAL);
        if (sent < 0 && errno != EAGAIN) return 1;
        at = sent > 0 ? (at + sent) % sizeof many : at;
    }
}

int main(int count, char **arguments) {
    if (count == 3 && !strcmp(arguments[1], "serve")) return serve(atoi(arguments[2]));
    if (count == 5 && !strcmp(arguments[1], "load")) {
        return load(atoi(arguments[2]), atoi(arguments[3]), atol(arguments[4]));
    }
    if (count == 4 && !strcmp(arguments[1], "wait")) return wait_for_each(atoi(arguments[2]), atol(arguments[3]));
    if (count == 3 && !strcmp(arguments[1], "flood")) return flood(atoi(arguments[2]));
    return 2;
}
