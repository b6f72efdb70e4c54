/*
 * Reads a device's identity, and sets an assembly over a class 3 connection. If no reply to the set comes within a
 * second, it sends the same request again, up to four times, and then gives the request up.
 *
 *     cc -std=c99 read.c -lenip -o read
 *     ./read 127.0.0.1 44818 100 01020304
 */
#define _POSIX_C_SOURCE 200809L
#include <arpa/inet.h>
#include <enip_types.h>
#include <errno.h>
#include <stdio.h>
#include <stdlib.h>
#include <string.h>
#include <sys/socket.h>
#include <sys/time.h>
#include <unistd.h>

enum { SECONDS = 1, RESENDS = 4 };

/* The Identity object, and the class of the assemblies, whose attribute 3 are their data. */
enum { IDENTITY = 1, ASSEMBLY = 4, DATA = 3 };

static enip_client *client;
static int stream;
static unsigned char frame[ENIP_FRAME_ROOM], reply[ENIP_REPLY_ROOM];
static size_t count;
static enip_heard heard;

static void fail(const char *what, const char *why) {
    fprintf(stderr, "read: %s: %s\n", what, why);
    exit(1);
}

static void fail_with(const char *what, int kind, uint32_t number) {
    char text[160] = "";
    enip_status_text(kind, number, text, sizeof text);
    fail(what, text);
}

/* Sends the frame that a call wrote. status is the status of the call. */
static void send_frame(const char *what, int status) {
    if (status != ENIP_OK)
        fail_with(what, ENIP_OF_CALL, (uint32_t)status);
    if (send(stream, frame, count, MSG_NOSIGNAL) != (ssize_t)count)
        fail(what, "the device closed the connection");
}

/* Passes a piece that came to the client. Returns 1 if the client heard what it awaits. */
static int feed(const char *what, const unsigned char *piece, size_t size) {
    int is_heard = 0;
    while (size > 0) {
        enip_heard now;
        int status = enip_client_feed(client, piece, size, reply, sizeof reply, &now);
        if (status != ENIP_OK)
            fail_with(what, ENIP_OF_CALL, (uint32_t)status);
        if (now.taken == 0)
            fail(what, "the device sent a malformed reply");
        if (now.kind != ENIP_HEARD_NOTHING) {
            heard = now;
            is_heard = 1;
        }
        piece += now.taken;
        size -= now.taken;
    }
    return is_heard;
}

/* Waits for the reply. Returns 0 if none comes in time. */
static int receive(const char *what) {
    unsigned char bytes[4096];
    ssize_t size;
    do {
        size = recv(stream, bytes, sizeof bytes, 0);
        if (size < 0 && (errno == EAGAIN || errno == EWOULDBLOCK))
            return 0;
        if (size <= 0)
            fail(what, "the device closed the connection");
    } while (!feed(what, bytes, (size_t)size));
    if (heard.kind == ENIP_HEARD_REFUSED)
        fail_with(what, ENIP_OF_EXTENDED, heard.extended);
    if (heard.general != 0)
        fail_with(what, ENIP_OF_GENERAL, heard.general);
    return 1;
}

/* Sends the frame that a call wrote, and waits for the reply. */
static void exchange(const char *what, int status) {
    send_frame(what, status);
    if (!receive(what))
        fail(what, "no reply");
}

/* Submits a request on the connection, and sends it again until its reply comes. Returns 0 if it was given up. */
static int submit(const char *what, const unsigned char *request, size_t size) {
    send_frame(what, enip_client_submit(client, request, size, frame, sizeof frame, &count));
    for (int resends = 0; !receive(what); resends++) {
        if (resends == RESENDS) {
            enip_client_give_up(client);
            return 0;
        }
        send_frame(what, enip_client_resend(client, frame, sizeof frame, &count));
    }
    return 1;
}

/* Prints the reply to Get_Attributes_All of Identity. */
static void print_identity(void) {
    uint16_t vendor = 0, device_type, product = 0, revision, status;
    uint32_t serial;
    uint8_t service, general;
    const char *name = "";
    size_t at = 0, length = 0;
    if (enip_get_reply(reply, heard.reply, &at, &service, &general) || enip_get_uint(reply, heard.reply, &at, &vendor)
        || enip_get_uint(reply, heard.reply, &at, &device_type) || enip_get_uint(reply, heard.reply, &at, &product)
        || enip_get_uint(reply, heard.reply, &at, &revision) || enip_get_word(reply, heard.reply, &at, &status)
        || enip_get_udint(reply, heard.reply, &at, &serial)
        || enip_get_short_string(reply, heard.reply, &at, &name, &length))
        fail("identity", "the reply is too short");
    printf("vendor %d, product code %d, name %.*s\n", vendor, product, (int)length, name);
}

/* Writes the request that sets the data of an assembly, and returns its size. */
static size_t set_request(unsigned char *request, size_t room, uint32_t assembly, const char *hex) {
    size_t size = 0;
    enip_request_set(request, room, &size, ASSEMBLY, assembly, DATA);
    for (; hex[0] != '\0' && hex[1] != '\0'; hex += 2) {
        const char byte[] = {hex[0], hex[1], '\0'};
        enip_set_usint(request, room, &size, (uint8_t)strtoul(byte, NULL, 16));
    }
    return size;
}

static void connect_to(const char *address, const char *port) {
    struct sockaddr_in device = {.sin_family = AF_INET, .sin_port = htons((uint16_t)atoi(port))};
    struct timeval timeout = {.tv_sec = SECONDS};
    if (inet_pton(AF_INET, address, &device.sin_addr) != 1)
        fail(address, "not an IPv4 address");
    stream = socket(AF_INET, SOCK_STREAM, 0);
    if (stream < 0 || connect(stream, (struct sockaddr *)&device, sizeof device) != 0)
        fail(address, strerror(errno));
    setsockopt(stream, SOL_SOCKET, SO_RCVTIMEO, &timeout, sizeof timeout);
}

int main(int argument_count, char **arguments) {
    const enip_wants wants = ENIP_WANTS_DEFAULT;
    unsigned char request[512];
    size_t size = 0;
    int status, is_set;
    if (argument_count != 5 || strlen(arguments[4]) > 800) {
        fprintf(stderr, "usage: read ADDRESS PORT ASSEMBLY HEX\n");
        return 2;
    }
    connect_to(arguments[1], arguments[2]);
    status = enip_client_new(&wants, &client);
    if (status != ENIP_OK)
        fail_with("new", ENIP_OF_CALL, (uint32_t)status);

    exchange("register", enip_client_register(client, frame, sizeof frame, &count));
    enip_request_service(request, sizeof request, &size, ENIP_GET_ATTRIBUTES_ALL, IDENTITY, 1);
    exchange("identity", enip_client_ask(client, request, size, frame, sizeof frame, &count));
    print_identity();

    exchange("open", enip_client_open(client, frame, sizeof frame, &count));
    size = set_request(request, sizeof request, (uint32_t)atoi(arguments[3]), arguments[4]);
    is_set = submit("set", request, size);
    exchange("close", enip_client_close(client, frame, sizeof frame, &count));
    send_frame("unregister", enip_client_unregister(client, frame, sizeof frame, &count));
    close(stream);
    enip_client_free(client);
    if (!is_set)
        fail("set", "no reply: the device executed it once or not at all");
    puts("set");
    return 0;
}
