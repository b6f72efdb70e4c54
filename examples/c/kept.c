/*
 * A machine that keeps its state over a restart. Service 50 of class 768 moves it by a number of steps, and attribute 1
 * is its position. A numbered command (enip call --once) moves it once, even if the power fails at any moment.
 *
 * The state is in two banks of flash, here the files FLASH.0 and FLASH.1. Each state is written to the bank of the
 * older one, so that a write that was cut leaves the other bank as it was.
 *
 *     cc -std=c99 kept.c -lenip -o kept
 *     ./kept 44818 FLASH
 *     ./kept 44818 FLASH moved | not-moved      settles each command in doubt first
 */
#define _POSIX_C_SOURCE 200809L
#include <arpa/inet.h>
#include <enip.h>
#include <fcntl.h>
#include <stdio.h>
#include <stdlib.h>
#include <string.h>
#include <sys/socket.h>
#include <time.h>
#include <unistd.h>

enum { CLASS = 768, POSITION = 1, BANK = 4096, GENERATION_AT = 16 };

static const char configuration[] =
    "vendor = 4660\n"
    "device_type = 43\n"
    "product_code = 7\n"
    "major = 2\n"
    "minor = 5\n"
    "serial = 16909062\n"
    "name = \"Kept\"\n"
    "address = [127, 0, 0, 1]\n"
    "peers = 1\n"
    "[counter]\n"
    "limit = 100\n"
    "[ledger]\n"
    "originators = 4\n"
    "life = 1\n"
    "[[object]]\n"
    "class = 768\n"
    "instance = 1\n"
    "[[object.attribute]]\n"
    "number = 1\n"
    "type = \"UDINT\"\n"
    "[[object.service]]\n"
    "number = 50\n"
    "size = 4\n"
    "reply = 4\n";

static enip_adapter *adapter;

/* The last state that was saved. Flash that can be read as memory needs no copy of it. */
static unsigned char state[BANK];
static size_t state_size;
static uint64_t generation;
static const char *flash;

static uint64_t now(void) {
    struct timespec time;
    clock_gettime(CLOCK_MONOTONIC, &time);
    return (uint64_t)time.tv_sec * 1000000 + (uint64_t)time.tv_nsec / 1000;
}

static int open_bank(unsigned bank, int flags) {
    char name[256];
    snprintf(name, sizeof name, "%s.%u", flash, bank);
    return open(name, flags, 0644);
}

/* Writes the state to its bank. It is there when this returns 1. */
static int write_bank(void) {
    int fd = open_bank(generation % 2, O_WRONLY | O_CREAT | O_TRUNC);
    int is_written = fd >= 0 && write(fd, state, state_size) == (ssize_t)state_size && fsync(fd) == 0;
    if (fd >= 0)
        close(fd);
    return is_written;
}

/* The size of the state in a bank, and the state itself. 0 if there is none. */
static size_t read_bank(unsigned bank, unsigned char *bytes) {
    int fd = open_bank(bank, O_RDONLY);
    ssize_t size = fd >= 0 ? read(fd, bytes, BANK) : 0;
    if (fd >= 0)
        close(fd);
    return size > 0 ? (size_t)size : 0;
}

/* Saves the state if anything has changed. Returns 0 if it could not be saved: then nothing may leave the device. */
static int keep(void) {
    uint64_t next;
    if (enip_adapter_generation(adapter, state_size == 0 ? NULL : state, state_size, &next) != ENIP_OK)
        return 0;
    if (next == generation)
        return 1;
    if (enip_adapter_save(adapter, next, state, sizeof state, &state_size) != ENIP_OK)
        return 0;
    generation = next;
    return write_bank();
}

/* Starts from the newer of the two banks that has a whole state, or for the first time if both are empty. */
static int start(enip_refusal *refusal) {
    unsigned char banks[2][BANK];
    uint64_t generations[2] = {0, 0};
    size_t sizes[2];
    int status;
    for (unsigned bank = 0; bank < 2; bank++) {
        sizes[bank] = read_bank(bank, banks[bank]);
        if (sizes[bank] >= GENERATION_AT + 8)
            memcpy(&generations[bank], banks[bank] + GENERATION_AT, 8);
    }
    if (sizes[0] == 0 && sizes[1] == 0)
        return enip_adapter_new_kept(configuration, sizeof configuration - 1, NULL, 0, (uint64_t)time(NULL), &adapter,
                                     refusal);
    for (unsigned bank = generations[1] > generations[0], tries = 0;; bank = 1 - bank, tries++) {
        state_size = sizes[bank];
        memcpy(state, banks[bank], state_size);
        status = enip_adapter_new_kept(configuration, sizeof configuration - 1, state_size == 0 ? NULL : state,
                                       state_size, (uint64_t)time(NULL), &adapter, refusal);
        if (status != ENIP_SAVED_STATE || tries == 1 || sizes[1 - bank] == 0)
            break;
    }
    memcpy(&generation, state + GENERATION_AT, 8);
    return status;
}

/* Moves the machine, once the state says that this command is in doubt. Such a state is saved before it moves. */
static int move(void *context, const enip_asked *asked, enip_reply *reply) {
    uint32_t position, steps;
    size_t size;
    (void)context;
    if (asked->service != 50 || !keep())
        return 1;
    memcpy(&steps, asked->data, 4);
    enip_adapter_read(adapter, CLASS, 1, POSITION, &position, 4, &size);
    position += steps;
    printf("moved to %u\n", (unsigned)position);
    fflush(stdout);
    enip_adapter_write_attribute(adapter, CLASS, 1, POSITION, 0, &position, 4);
    memcpy(reply->data, &position, 4);
    reply->length = 4;
    return 0;
}

/* Serves a client until it leaves. Each answer is sent after the state is saved. */
static void serve(int client) {
    unsigned char bytes[4096], answer[ENIP_ANSWER_ROOM];
    uint32_t peer;
    ssize_t count;
    if (enip_adapter_begin(adapter, &peer) != ENIP_OK)
        return;
    while ((count = recv(client, bytes, sizeof bytes, 0)) > 0) {
        enip_fed fed = {0, 0, 0, 0};
        for (size_t done = 0; done < (size_t)count && !fed.close; done += fed.taken) {
            if (enip_adapter_serve(adapter, now(), peer, bytes + done, (size_t)count - done, answer, sizeof answer,
                                   move, NULL, &fed) != ENIP_OK
                || !keep())
                exit(1);
            if (send(client, answer, fed.answer, MSG_NOSIGNAL) != (ssize_t)fed.answer)
                fed.close = 1;
        }
        if (fed.close)
            break;
    }
    enip_adapter_end(adapter, peer);
}

/* Prints each command in doubt. Settles it if somebody has looked at the machine. */
static void show_doubts(const char *outcome) {
    static const unsigned char done[] = {0xb2, 0, 0, 0, 0, 0, 0, 0}, not_done[] = {0xb2, 0, 0x10, 0};
    uint64_t originator;
    uint32_t number;
    size_t index = 0;
    while (enip_adapter_in_doubt(adapter, index, &originator, &number) == ENIP_OK) {
        printf("in doubt: command %u\n", (unsigned)number);
        if (outcome == NULL)
            index++;
        else if (strcmp(outcome, "moved") == 0)
            enip_adapter_settle(adapter, originator, number, done, sizeof done);
        else
            enip_adapter_settle(adapter, originator, number, not_done, sizeof not_done);
    }
    fflush(stdout);
}

int main(int count, char **arguments) {
    struct sockaddr_in address = {.sin_family = AF_INET, .sin_addr = {htonl(INADDR_LOOPBACK)}};
    int on = 1, listener = socket(AF_INET, SOCK_STREAM, 0), status;
    enip_refusal refusal = {0, ""};
    if (count < 3)
        return 2;
    flash = arguments[2];
    if ((status = start(&refusal)) != ENIP_OK) {
        fprintf(stderr, "kept: %s\n", status == ENIP_MEMORY ? "out of memory" : refusal.text);
        return 1;
    }
    show_doubts(arguments[3]);
    address.sin_port = htons((uint16_t)atoi(arguments[1]));
    setsockopt(listener, SOL_SOCKET, SO_REUSEADDR, &on, sizeof on);
    if (!keep() || bind(listener, (struct sockaddr *)&address, sizeof address) != 0 || listen(listener, 4) != 0) {
        perror("kept");
        return 1;
    }
    for (;;) {
        int client = accept(listener, NULL, NULL);
        if (client >= 0) {
            serve(client);
            close(client);
        }
    }
}
