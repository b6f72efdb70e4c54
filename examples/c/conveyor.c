/*
 * A conveyor, whose commands are executed by this program: it is the owner of the device. Class 768, instance 1 has
 * three services: start (50), stop (51), and move by n (52, n is a DINT; the reply is the new position). Attribute 1 is
 * the speed, which the program checks before it is stored. Attribute 2 is the position, and attribute 3 counts the
 * commands that were executed. Assembly 101 shows the state. The conveyor stops when a connection of the client that
 * started it is lost.
 *
 *     cc -std=c99 conveyor.c -lenip -o conveyor
 *     ./conveyor 44818
 */
#define _POSIX_C_SOURCE 200809L
#include <arpa/inet.h>
#include <enip.h>
#include <errno.h>
#include <poll.h>
#include <stdio.h>
#include <stdlib.h>
#include <string.h>
#include <sys/socket.h>
#include <time.h>
#include <unistd.h>

enum { CLIENTS = 16, SOCKETS, CONVEYOR = 768, SPEED = 1, POSITION = 2, EXECUTED = 3, STATE = 101 };

/* The services, and general statuses. */
enum { SET = 0x10, START = 50, STOP = 51, MOVE = 52, INVALID_VALUE = 0x09, STATE_CONFLICT = 0x0c };

static const char configuration[] =
    "vendor = 4660\n"
    "device_type = 43\n"
    "product_code = 8\n"
    "major = 1\n"
    "minor = 1\n"
    "serial = 16909061\n"
    "name = \"Conveyor\"\n"
    "address = [127, 0, 0, 1]\n"
    "peers = 16\n"
    "[counter]\n"
    "enabled = false\n"
    "[[object]]\n"
    "class = 768\n"
    "instance = 1\n"
    "name = \"Conveyor\"\n"
    "[[object.attribute]]\n"
    "number = 1\n"
    "type = \"UINT\"\n"
    "settable = true\n"
    "checked = true\n"
    "max = 3000\n"
    "[[object.attribute]]\n"
    "number = 2\n"
    "type = \"DINT\"\n"
    "[[object.attribute]]\n"
    "number = 3\n"
    "type = \"UDINT\"\n"
    "[[object.service]]\n"
    "number = 50\n"
    "size = 0\n"
    "[[object.service]]\n"
    "number = 51\n"
    "size = 0\n"
    "[[object.service]]\n"
    "number = 52\n"
    "size = 4\n"
    "reply = 4\n"
    "[[assembly]]\n"
    "instance = 101\n"
    "members = [1, 1, 2, 4]\n";

static enip_adapter *adapter;
static enip_endings *endings;

/* sockets[0] listens. Each of the others is a client, or free: its fd is -1, which poll ignores. */
static struct pollfd sockets[SOCKETS];

/* The adapter's number for the client of each socket. */
static uint32_t peers[SOCKETS];

/* The machine. */
static int is_running, is_lost;
static uint16_t speed;
static int32_t position;
static uint32_t executed;

/* The client that started it. */
static uint32_t starter;

/* The time in microseconds. */
static uint64_t now(void) {
    struct timespec time;
    clock_gettime(CLOCK_MONOTONIC, &time);
    return (uint64_t)time.tv_sec * 1000000 + (uint64_t)time.tv_nsec / 1000;
}

/* Says what the machine does. */
static void report(const char *what, long number) {
    printf("%s %ld\n", what, number);
    fflush(stdout);
}

/* Shows the state to the clients. On x86-64 the bytes of a number are in the order of the wire. */
static void show_state(void) {
    unsigned char state[8] = {(unsigned char)is_running, (unsigned char)is_lost};
    memcpy(state + 2, &speed, sizeof speed);
    memcpy(state + 4, &position, sizeof position);
    enip_adapter_write(adapter, STATE, 0, state, sizeof state);
    enip_adapter_write_attribute(adapter, CONVEYOR, 1, POSITION, 0, &position, sizeof position);
    enip_adapter_write_attribute(adapter, CONVEYOR, 1, EXECUTED, 0, &executed, sizeof executed);
}

static void stop(void) {
    is_running = 0;
    report("stopped at", position);
}

static uint8_t start(uint32_t client) {
    if (speed == 0)
        return STATE_CONFLICT;
    is_running = 1;
    is_lost = 0;
    starter = client;
    report("started with speed", speed);
    return 0;
}

static uint8_t move(const uint8_t *data, enip_reply *reply) {
    int32_t by;
    if (is_running)
        return STATE_CONFLICT;
    memcpy(&by, data, sizeof by);
    position = (int32_t)((uint32_t)position + (uint32_t)by);
    memcpy(reply->data, &position, sizeof position);
    reply->length = sizeof position;
    report("moved by", by);
    return 0;
}

/* The adapter has checked the range. A running conveyor is not accelerated by more than 1,000 at once. */
static uint8_t change_speed(const uint8_t *data) {
    uint16_t wanted;
    memcpy(&wanted, data, sizeof wanted);
    if (is_running && (wanted == 0 || wanted > speed + 1000))
        return INVALID_VALUE;
    speed = wanted;
    report("speed", speed);
    return 0;
}

/*
 * Executes a request to the owner. The adapter asks once for each request that was delivered, and sends the same reply
 * to each repeat of it. It has checked the sizes of the data. `context` is the client's number.
 */
static int execute(void *context, const enip_asked *asked, enip_reply *reply) {
    if (asked->service == SET)
        reply->status = change_speed(asked->data);
    else if (asked->service == START)
        reply->status = start(*(uint32_t *)context);
    else if (asked->service == MOVE)
        reply->status = move(asked->data, reply);
    else
        stop();
    if (reply->status == 0)
        executed++;
    show_state();
    return 0;
}

/* Stops the conveyor if a connection of the client that started it was lost: any other end than a Forward_Close. */
static void watch_connections(void) {
    enip_ended ended;
    enip_endings_update(endings, adapter);
    for (size_t i = 0; enip_endings_at(endings, i, &ended) == ENIP_OK; i++) {
        if (!is_running || ended.peer != starter || ended.why == ENIP_ENDED_CLOSED)
            continue;
        is_lost = 1;
        stop();
        show_state();
    }
}

/* How long poll may wait, in milliseconds: until the next deadline of a connection, and no longer than a minute. */
static int poll_timeout(void) {
    uint64_t deadline, time = now();
    if (enip_adapter_deadline(adapter, &deadline) != ENIP_OK || deadline > time + 60000000)
        return 60000;
    if (deadline <= time)
        return 0;
    return (int)((deadline - time) / 1000 + 1);
}

/* Opens a socket that listens at this port of 127.0.0.1. Returns -1 if that fails. */
static int open_socket(uint16_t port) {
    struct sockaddr_in address = {.sin_family = AF_INET, .sin_port = htons(port), .sin_addr = {htonl(INADDR_LOOPBACK)}};
    int on = 1;
    int fd = socket(AF_INET, SOCK_STREAM, 0);
    if (fd < 0)
        return -1;
    setsockopt(fd, SOL_SOCKET, SO_REUSEADDR, &on, sizeof on);
    if (bind(fd, (struct sockaddr *)&address, sizeof address) != 0 || listen(fd, CLIENTS) != 0)
        return -1;
    return fd;
}

/* Accepts a client into a free slot. */
static void accept_client(int slot) {
    int fd = accept(sockets[0].fd, NULL, NULL);
    if (fd < 0)
        return;
    if (enip_adapter_begin(adapter, &peers[slot]) != ENIP_OK) {
        /* The adapter has no slot or no session handle left. */
        close(fd);
        return;
    }
    sockets[slot].fd = fd;
    sockets[slot].revents = 0;
}

static void drop_client(int slot) {
    enip_adapter_end(adapter, peers[slot]);
    watch_connections();
    close(sockets[slot].fd);
    sockets[slot].fd = -1;
}

/* Passes what a client sent to the adapter, and sends the answers. Returns 0 if the client is to be dropped. */
static int serve_client(int slot) {
    unsigned char bytes[4096], answer[ENIP_ANSWER_ROOM];
    ssize_t count = recv(sockets[slot].fd, bytes, sizeof bytes, MSG_DONTWAIT);
    size_t done = 0;
    if (count < 0)
        return errno == EAGAIN || errno == EINTR;
    if (count == 0)
        return 0;
    while (done < (size_t)count) {
        enip_fed fed;
        if (enip_adapter_serve(adapter, now(), peers[slot], bytes + done, (size_t)count - done, answer, sizeof answer,
                               execute, &peers[slot], &fed) != ENIP_OK)
            return 0;
        watch_connections();
        if (fed.answer > 0) {
            /* A client that does not read its answers is dropped, so that the others need not wait for it. */
            ssize_t sent = send(sockets[slot].fd, answer, fed.answer, MSG_DONTWAIT | MSG_NOSIGNAL);
            if (sent != (ssize_t)fed.answer)
                return 0;
        }
        if (fed.close)
            return 0;
        done += fed.taken;
    }
    return 1;
}

int main(int count, char **arguments) {
    enip_refusal refusal;
    int port = count > 1 ? atoi(arguments[1]) : 44818;
    int status = enip_adapter_new(configuration, sizeof configuration - 1, &adapter, &refusal);
    if (status != ENIP_OK || enip_endings_new(&endings) != ENIP_OK) {
        fprintf(stderr, "conveyor: %s\n", status == ENIP_CONFIGURATION ? refusal.text : "out of memory");
        return 1;
    }
    for (int slot = 0; slot < SOCKETS; slot++)
        sockets[slot] = (struct pollfd){.fd = -1, .events = POLLIN};
    if ((sockets[0].fd = open_socket((uint16_t)port)) < 0) {
        perror("conveyor");
        return 1;
    }
    for (;;) {
        /* A client that finds all slots taken waits in the queue of the listening socket. */
        int free_slot = 0;
        for (int slot = CLIENTS; slot > 0; slot--) {
            if (sockets[slot].fd < 0)
                free_slot = slot;
        }
        sockets[0].events = free_slot > 0 ? POLLIN : 0;
        if (poll(sockets, SOCKETS, poll_timeout()) < 0)
            continue;
        enip_adapter_tick(adapter, now());
        watch_connections();
        for (int slot = 1; slot <= CLIENTS; slot++) {
            if (sockets[slot].fd >= 0 && sockets[slot].revents != 0 && !serve_client(slot))
                drop_client(slot);
        }
        if (sockets[0].revents & POLLIN)
            accept_client(free_slot);
    }
}
