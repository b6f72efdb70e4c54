/*
 * Gives a command to a device with a command ledger, and repeats it until the device answers: on a new connection if
 * the old one breaks or no answer comes in time. The device executes it once. If this program is killed, the same line
 * continues.
 *
 *     cc -std=c99 command.c -lenip -o command
 *     ./command 127.0.0.1 44818 FILE                         adds 1 to the counter
 *     ./command 127.0.0.1 44818 FILE 32022064240105000000    any request: this one adds 5
 *
 * FILE holds what a kill must not lose: the originator, the device's life, the number of the last command and, while it
 * is pending, its request. If there is no FILE, the program creates it with a random originator. It prints the reply.
 */
#define _DEFAULT_SOURCE
#include <arpa/inet.h>
#include <enip.h>
#include <errno.h>
#include <fcntl.h>
#include <inttypes.h>
#include <libgen.h>
#include <limits.h>
#include <stdio.h>
#include <stdlib.h>
#include <string.h>
#include <sys/file.h>
#include <sys/random.h>
#include <sys/socket.h>
#include <sys/time.h>
#include <unistd.h>

enum { SECONDS = 1, TRIES = 20, PAUSE_MICROSECONDS = 100000, LONGEST_REQUEST = 478 };

/* Get_Attribute_Single of the device's life: class 0x65, instance 1, attribute 3. */
static const unsigned char get_life[] = {0x0e, 0x03, 0x20, 0x65, 0x24, 0x01, 0x30, 0x03};

static const char *path;
static enip_once *once;
static enip_client *client;
static int stream = -1;
static unsigned char frame[ENIP_FRAME_ROOM], reply[ENIP_REPLY_ROOM], embedded[ENIP_REPLY_ROOM];
static size_t count;
static enip_heard heard;

static void fail(const char *what, const char *why) {
    fprintf(stderr, "command: %s: %s\n", what, why);
    exit(1);
}

static void fail_with(const char *what, int kind, uint32_t number) {
    char text[160] = "";
    enip_status_text(kind, number, text, sizeof text);
    fail(what, text);
}

static void check(const char *what, int status) {
    if (status != ENIP_OK)
        fail_with(what, ENIP_OF_CALL, (uint32_t)status);
}

/* Reads pairs of hexadecimal digits, and returns the number of bytes; 0 if there is anything else. */
static size_t read_hex(const char *hex, unsigned char *bytes) {
    size_t size = strspn(hex, "0123456789abcdef") / 2;
    if (hex[2 * size] != '\0' || size > LONGEST_REQUEST)
        return 0;
    for (size_t i = 0; i < size; i++)
        sscanf(hex + 2 * i, "%2hhx", &bytes[i]);
    return size;
}

static void print_hex(FILE *file, const unsigned char *bytes, size_t size) {
    for (size_t i = 0; i < size; i++)
        fprintf(file, "%02x", bytes[i]);
    fputc('\n', file);
}

/* Makes the commander that FILE describes. Only one process may use FILE: two would use a number twice. */
static void read_file(void) {
    char hex[2 * LONGEST_REQUEST + 1], name[PATH_MAX + 8], end;
    unsigned char request[LONGEST_REQUEST];
    uint64_t life = 0, originator = 0;
    uint32_t number = 0;
    int lock, fields;
    FILE *file;
    snprintf(name, sizeof name, "%s.lock", path);
    if ((lock = open(name, O_RDWR | O_CREAT, 0600)) < 0 || flock(lock, LOCK_EX | LOCK_NB) != 0)
        fail(name, strerror(errno));
    if ((file = fopen(path, "r")) != NULL) {
        fields = fscanf(file, "enip commands 1 originator %" SCNx64 " life %" SCNu64 " number %" SCNu32
                        " pending %956[0-9a-z]%c", &originator, &life, &number, hex, &end);
        fclose(file);
        if (fields != 5 || end != '\n')
            fail(path, "not a file of commands");
        if (strcmp(hex, "none") != 0) {
            check(path, enip_once_resume(life, originator, number, request, read_hex(hex, request), &once));
            return;
        }
    } else if (errno != ENOENT || getrandom(&originator, sizeof originator, 0) != sizeof originator) {
        fail(path, strerror(errno));
    }
    check(path, enip_once_new(life, originator, number, &once));
}

/* Writes the commander to a new file, which takes the place of FILE. On return it is on the disk. */
static void write_file(void) {
    char name[PATH_MAX + 8];
    unsigned char request[LONGEST_REQUEST];
    uint64_t life, originator;
    uint32_t number;
    size_t size;
    FILE *file;
    int folder;
    snprintf(name, sizeof name, "%s.new", path);
    if ((file = fopen(name, "w")) == NULL)
        fail(name, strerror(errno));
    enip_once_values(once, &life, &originator, &number);
    fprintf(file, "enip commands 1\noriginator %016" PRIx64 "\nlife %" PRIu64 "\nnumber %" PRIu32 "\npending ",
            originator, life, number);
    if (enip_once_request(once, request, sizeof request, &size) == ENIP_OK)
        print_hex(file, request, size);
    else
        fputs("none\n", file);
    if (fflush(file) != 0 || fsync(fileno(file)) != 0 || fclose(file) != 0 || rename(name, path) != 0)
        fail(name, strerror(errno));
    if ((folder = open(dirname(name), O_RDONLY)) < 0 || fsync(folder) != 0 || close(folder) != 0)
        fail(path, strerror(errno));
}

/* Closes the connection. Its client is freed with it, so no answer of a closed connection is ever taken. */
static void disconnect(void) {
    if (stream >= 0)
        close(stream);
    stream = -1;
    enip_client_free(client);
    client = NULL;
}

static int connect_to(const char *address, const char *port) {
    const enip_wants wants = {.rpi = 1000000, .o_to_t_size = 500, .t_to_o_size = 500};
    struct sockaddr_in device = {.sin_family = AF_INET, .sin_port = htons((uint16_t)atoi(port))};
    struct timeval timeout = {.tv_sec = SECONDS};
    if (inet_pton(AF_INET, address, &device.sin_addr) != 1)
        fail(address, "not an IPv4 address");
    check("client", enip_client_new(&wants, &client));
    stream = socket(AF_INET, SOCK_STREAM, 0);
    setsockopt(stream, SOL_SOCKET, SO_RCVTIMEO, &timeout, sizeof timeout);
    setsockopt(stream, SOL_SOCKET, SO_SNDTIMEO, &timeout, sizeof timeout);
    return connect(stream, (struct sockaddr *)&device, sizeof device) == 0;
}

/* Sends the frame that a call wrote, and waits for what it awaits. Returns 0 if the connection is lost. */
static int exchange(const char *what, int status) {
    unsigned char piece[4096];
    ssize_t size;
    check(what, status);
    if (send(stream, frame, count, MSG_NOSIGNAL) != (ssize_t)count)
        return 0;
    while ((size = recv(stream, piece, sizeof piece, 0)) > 0) {
        for (size_t at = 0; at < (size_t)size; at += heard.taken) {
            check(what, enip_client_feed(client, piece + at, (size_t)size - at, reply, sizeof reply, &heard));
            if (heard.kind != ENIP_HEARD_NOTHING)
                return 1;
            if (heard.taken == 0)
                return 0;
        }
    }
    return 0;
}

static int read_life(uint64_t *life) {
    if (!exchange("life", enip_client_ask(client, get_life, sizeof get_life, frame, sizeof frame, &count)))
        return 0;
    if (heard.general == 0x05)
        fail("life", "the device has no command ledger");
    if (heard.general != 0 || heard.reply != 12)
        fail_with("life", ENIP_OF_GENERAL, heard.general);
    *life = 0;
    for (int i = 11; i >= 4; i--)
        *life = *life << 8 | reply[i];
    return 1;
}

/* Gives the command, unless it is pending already. It is on the disk before the first byte of it is sent. */
static void give(uint64_t life, const unsigned char *request, size_t size) {
    unsigned char pending[LONGEST_REQUEST], message[ENIP_MESSAGE_ROOM];
    uint64_t of_command, originator;
    uint32_t number;
    enip_once_values(once, &of_command, &originator, &number);
    if (enip_once_request(once, pending, sizeof pending, &count) == ENIP_OK) {
        if (count != size || memcmp(pending, request, size) != 0)
            fail(path, "another command is pending");
        if (of_command != life)
            fail(path, "the device was started again, and may have executed the command before: look at the machine, "
                       "then remove this file");
        return;
    }
    enip_once_free(once);
    check("commander", enip_once_new(life, originator, number, &once));
    check("request", enip_once_command(once, request, size, message, sizeof message, &count));
    write_file();
}

/* Sends the pending command. Returns 0 if it is not done: send it again, on a new connection. */
static int send_pending(void) {
    unsigned char message[ENIP_MESSAGE_ROOM];
    size_t size;
    enip_outcome outcome;
    check("command", enip_once_resend(once, message, sizeof message, &size));
    if (!exchange("command", enip_client_ask(client, message, size, frame, sizeof frame, &count)))
        return 0;
    check("answer", enip_once_receive(once, reply, heard.reply, embedded, sizeof embedded, &outcome));
    if (outcome.kind == ENIP_ONCE_REFUSED)
        fail_with("the device refused the command", ENIP_OF_GENERAL, outcome.general);
    if (outcome.kind == ENIP_ONCE_IN_DOUBT)
        fail(path, "the device does not know whether it executed the command, and its owner has to settle that");
    if (outcome.kind == ENIP_ONCE_WITHDRAWN) {
        write_file();
        fail(path, "the command was withdrawn, and is never executed");
    }
    if (outcome.kind != ENIP_ONCE_DONE)
        return 0;
    print_hex(stdout, embedded, outcome.reply);
    fflush(stdout);
    write_file();
    return 1;
}

int main(int argument_count, char **arguments) {
    unsigned char request[LONGEST_REQUEST];
    uint64_t life;
    size_t size = read_hex(argument_count == 5 ? arguments[4] : "32022064240101000000", request);
    if (argument_count < 4 || argument_count > 5 || size == 0) {
        fprintf(stderr, "usage: command ADDRESS PORT FILE [REQUEST]\n");
        return 2;
    }
    path = arguments[3];
    read_file();
    for (int tries = 0; tries < TRIES; tries++) {
        if (connect_to(arguments[1], arguments[2])
            && exchange("session", enip_client_register(client, frame, sizeof frame, &count)) && read_life(&life)) {
            give(life, request, size);
            if (send_pending())
                return 0;
        }
        disconnect();
        usleep(PAUSE_MICROSECONDS);
    }
    if (enip_once_request(once, request, sizeof request, &size) != ENIP_OK)
        fail(path, "no answer: no command was given");
    fail(path, "no answer: the command may have been executed; the same line sends it again");
}
