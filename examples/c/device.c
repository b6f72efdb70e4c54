/*
 * A device with a lamp. The first byte of assembly 100 switches the lamp, and assembly 101 counts how often assembly
 * 100 was written. One thread serves up to 16 clients, and answers the datagrams of clients that look for devices.
 *
 *     cc -std=c99 device.c -lenip -o device
 *     ./device 44818
 */
#define _POSIX_C_SOURCE 200809L
#include <arpa/inet.h>
#include <enip.h>
#include <errno.h>
#include <poll.h>
#include <stdio.h>
#include <stdlib.h>
#include <sys/socket.h>
#include <time.h>
#include <unistd.h>

enum { CLIENTS = 16, DATAGRAMS = CLIENTS + 1, SOCKETS, OUTPUT = 100, INPUT = 101 };

static const char configuration[] =
    "vendor = 4660\n"
    "device_type = 43\n"
    "product_code = 7\n"
    "major = 2\n"
    "minor = 5\n"
    "serial = 16909060\n"
    "name = \"Lamp\"\n"
    "address = [127, 0, 0, 1]\n"
    "peers = 16\n"
    "[counter]\n"
    "limit = 100\n"
    "[[assembly]]\n"
    "instance = 100\n"
    "settable = true\n"
    "members = [1, 1]\n"
    "[[assembly]]\n"
    "instance = 101\n"
    "members = [4]\n";

static enip_adapter *adapter;

/*
 * sockets[0] listens, and sockets[DATAGRAMS] receives datagrams. Each of the others is a client, or free: its fd is -1,
 * which poll ignores.
 */
static struct pollfd sockets[SOCKETS];

/* The adapter's number for the client of each socket. */
static uint32_t peers[1 + CLIENTS];

/* The time in microseconds. */
static uint64_t now(void) {
    struct timespec time;
    clock_gettime(CLOCK_MONOTONIC, &time);
    return (uint64_t)time.tv_sec * 1000000 + (uint64_t)time.tv_nsec / 1000;
}

/* How long poll may wait, in milliseconds: until the next deadline of a connection, and no longer than a minute. */
static int poll_timeout(void) {
    uint64_t deadline, time = now();
    if (enip_adapter_deadline(adapter, &deadline) != ENIP_OK || deadline > time + 60000000)
        return 60000;
    if (deadline <= time)
        return 0;
    return (int)((deadline - time) / 1000 + 1);
}

/* Opens a socket at this port of 127.0.0.1: one that listens, or one for datagrams. Returns -1 if that fails. */
static int open_socket(int type, uint16_t port) {
    struct sockaddr_in address = {.sin_family = AF_INET, .sin_port = htons(port), .sin_addr = {htonl(INADDR_LOOPBACK)}};
    int on = 1;
    int fd = socket(AF_INET, type, 0);
    if (fd < 0)
        return -1;
    if (type == SOCK_STREAM)
        setsockopt(fd, SOL_SOCKET, SO_REUSEADDR, &on, sizeof on);
    if (bind(fd, (struct sockaddr *)&address, sizeof address) != 0)
        return -1;
    if (type == SOCK_STREAM && listen(fd, CLIENTS) != 0)
        return -1;
    return fd;
}

/* Accepts a client into a free slot. */
static void accept_client(int slot) {
    int fd = accept(sockets[0].fd, NULL, NULL);
    if (fd < 0)
        return;
    if (enip_adapter_begin(adapter, &peers[slot]) != ENIP_OK) {
        /* The adapter has no slot or no session handle left. */
        close(fd);
        return;
    }
    sockets[slot].fd = fd;
    sockets[slot].revents = 0;
}

static void drop_client(int slot) {
    enip_adapter_end(adapter, peers[slot]);
    close(sockets[slot].fd);
    sockets[slot].fd = -1;
}

/* Passes what a client sent to the adapter, and sends the answers. Returns 0 if the client is to be dropped. */
static int serve_client(int slot) {
    unsigned char bytes[4096], answer[ENIP_ANSWER_ROOM];
    ssize_t count = recv(sockets[slot].fd, bytes, sizeof bytes, MSG_DONTWAIT);
    size_t done = 0;
    if (count < 0)
        return errno == EAGAIN || errno == EINTR;
    if (count == 0)
        return 0;
    while (done < (size_t)count) {
        enip_fed fed;
        if (enip_adapter_feed(adapter, now(), peers[slot], bytes + done, (size_t)count - done, answer, sizeof answer,
                              &fed) != ENIP_OK)
            return 0;
        if (fed.answer > 0) {
            /* A client that does not read its answers is dropped, so that the others need not wait for it. */
            ssize_t sent = send(sockets[slot].fd, answer, fed.answer, MSG_DONTWAIT | MSG_NOSIGNAL);
            if (sent != (ssize_t)fed.answer)
                return 0;
        }
        if (fed.close)
            return 0;
        done += fed.taken;
    }
    return 1;
}

/* Answers one datagram, or drops it if it has no answer. */
static void answer_datagram(void) {
    unsigned char datagram[4096], answer[ENIP_ANSWER_ROOM];
    struct sockaddr_storage sender;
    socklen_t sender_size = sizeof sender;
    size_t size;
    int fd = sockets[DATAGRAMS].fd;
    ssize_t count = recvfrom(fd, datagram, sizeof datagram, MSG_DONTWAIT, (struct sockaddr *)&sender, &sender_size);
    if (count < 0)
        return;
    if (enip_adapter_discover(adapter, datagram, (size_t)count, answer, sizeof answer, &size) == ENIP_OK)
        sendto(fd, answer, size, MSG_DONTWAIT, (struct sockaddr *)&sender, sender_size);
}

/* Counts what clients wrote to the output, and switches the lamp. */
static void update_lamp(void) {
    static uint32_t seen;
    static int is_on;
    uint32_t changes;
    unsigned char output[2];
    size_t size;
    if (enip_adapter_changes(adapter, OUTPUT, &changes) != ENIP_OK || changes == seen)
        return;
    seen = changes;
    /* On x86-64 the bytes of a number are in the order of the wire. */
    enip_adapter_write(adapter, INPUT, 0, &changes, sizeof changes);
    if (enip_adapter_read(adapter, 4, OUTPUT, 3, output, sizeof output, &size) != ENIP_OK)
        return;
    if ((output[0] != 0) != is_on) {
        is_on = !is_on;
        puts(is_on ? "lamp on" : "lamp off");
        fflush(stdout);
    }
}

int main(int count, char **arguments) {
    enip_refusal refusal;
    int port = count > 1 ? atoi(arguments[1]) : 44818;
    int status = enip_adapter_new(configuration, sizeof configuration - 1, &adapter, &refusal);
    if (status != ENIP_OK) {
        fprintf(stderr, "device: %s\n", status == ENIP_CONFIGURATION ? refusal.text : "out of memory");
        return 1;
    }
    for (int slot = 0; slot < SOCKETS; slot++)
        sockets[slot] = (struct pollfd){.fd = -1, .events = POLLIN};
    if ((sockets[0].fd = open_socket(SOCK_STREAM, (uint16_t)port)) < 0
        || (sockets[DATAGRAMS].fd = open_socket(SOCK_DGRAM, (uint16_t)port)) < 0) {
        perror("device");
        return 1;
    }
    for (;;) {
        /* A client that finds all slots taken waits in the queue of the listening socket. */
        int free_slot = 0;
        for (int slot = CLIENTS; slot > 0; slot--) {
            if (sockets[slot].fd < 0)
                free_slot = slot;
        }
        sockets[0].events = free_slot > 0 ? POLLIN : 0;
        if (poll(sockets, SOCKETS, poll_timeout()) < 0)
            continue;
        enip_adapter_tick(adapter, now());
        for (int slot = 1; slot <= CLIENTS; slot++) {
            if (sockets[slot].fd >= 0 && sockets[slot].revents != 0 && !serve_client(slot))
                drop_client(slot);
        }
        if (sockets[DATAGRAMS].revents != 0)
            answer_datagram();
        if (sockets[0].revents & POLLIN)
            accept_client(free_slot);
        update_lamp();
    }
}
