/*
 * The owner of a device: what it is asked, by whom and how often, and what becomes of its replies. Attributes of own
 * objects by number. Prints `N passed, M failed`.
 *
 *     owner            checks what each call does and returns
 *     owner ROUNDS     serves so many own services on a connection, and then so many Adds (for measurements)
 */
#include <enip.h>
#include <stdio.h>
#include <stdlib.h>
#include <string.h>

static int passed, failed;

static void is(const char *what, long long got, long long wanted) {
    if (got == wanted) {
        passed++;
    } else {
        failed++;
        printf("owner: %s: %lld instead of %lld\n", what, got, wanted);
    }
}

/* The object 768/1: a speed that is asked of the owner, a limit that is not, a name, a count. */
enum { CLASS = 768, SPEED = 1, LIMIT = 2, NAME = 3, COUNT = 4, MOVE = 50, ECHO = 51, LONG = 52 };

static const char configuration[] =
    "vendor = 4660\ndevice_type = 43\nproduct_code = 7\nmajor = 2\nminor = 5\nserial = 1\nname = \"M\"\n"
    "address = [127, 0, 0, 1]\n[counter]\nlimit = 1000000000\n[ledger]\noriginators = 4\nlife = 7\n"
    "[[assembly]]\ninstance = 100\nsettable = true\nmembers = [4]\n"
    "[[object]]\nclass = 768\ninstance = 1\n"
    "[[object.attribute]]\nnumber = 1\ntype = \"UINT\"\nsettable = true\nchecked = true\nmax = 3000\n"
    "[[object.attribute]]\nnumber = 2\ntype = \"UINT\"\nsettable = true\nmax = 3000\n"
    "[[object.attribute]]\nnumber = 3\ntype = \"SHORT_STRING[8]\"\n"
    "[[object.attribute]]\nnumber = 4\ntype = \"UDINT\"\n"
    "[[object.service]]\nnumber = 50\nsize = 4\nreply = 4\n"
    "[[object.service]]\nnumber = 51\nsizes = [0, 480]\nreply = 480\n"
    "[[object.service]]\nnumber = 52\nsizes = [0, 480]\n";

static enip_adapter *adapter;
static unsigned char buffer[ENIP_ANSWER_ROOM];
static enip_fed fed;
static uint64_t now = 1000000;

/* What the owner was asked last, and how often it was asked. */
static enip_asked asked;
static unsigned char asked_data[500];
static int asked_count;
static void *asked_context;

/* What the owner answers: a reply, and what it returns. What it does before. */
static enip_reply answer;
static int returned;
static void (*act)(void);

static int owner(void *context, const enip_asked *request, enip_reply *reply) {
    static const enip_reply empty;
    asked_count++;
    asked = *request;
    asked_context = context;
    memcpy(asked_data, request->data, request->length);
    is("a reply of zeros", memcmp(reply, &empty, sizeof empty), 0);
    if (act != NULL)
        act();
    *reply = answer;
    return returned;
}

static void answers(uint8_t status, const char *data, size_t length) {
    memset(&answer, 0, sizeof answer);
    answer.status = status;
    answer.length = length;
    memcpy(answer.data, data, length);
}

static void put_header(unsigned char *frame, unsigned char command, size_t length, uint32_t peer) {
    memset(frame, 0, 24);
    frame[0] = command;
    frame[2] = (unsigned char)length;
    frame[3] = (unsigned char)(length >> 8);
    frame[4] = (unsigned char)peer;
}

static size_t put_unconnected(unsigned char *frame, uint32_t peer, const void *request, size_t size) {
    memset(frame, 0, 40);
    put_header(frame, 0x6f, 16 + size, peer);
    frame[30] = 2;
    frame[36] = 0xb2;
    frame[38] = (unsigned char)size;
    frame[39] = (unsigned char)(size >> 8);
    memcpy(frame + 40, request, size);
    return 40 + size;
}

static size_t put_connected(unsigned char *frame, uint32_t peer, uint32_t connection, unsigned count,
                            const void *request, size_t size) {
    memset(frame, 0, 46);
    put_header(frame, 0x70, 22 + size, peer);
    frame[30] = 2;
    frame[32] = 0xa1;
    frame[34] = 4;
    memcpy(frame + 36, &connection, 4);
    frame[40] = 0xb1;
    frame[42] = (unsigned char)(size + 2);
    frame[43] = (unsigned char)((size + 2) >> 8);
    frame[44] = (unsigned char)count;
    frame[45] = (unsigned char)(count >> 8);
    memcpy(frame + 46, request, size);
    return 46 + size;
}

typedef int owning(void *context, const enip_asked *request, enip_reply *reply);

static int serve_with(owning *its_owner, uint32_t peer, const unsigned char *frame, size_t size, size_t room) {
    return enip_adapter_serve(adapter, now, peer, frame, size, buffer, room, its_owner, &asked_count, &fed);
}

static int serve(uint32_t peer, const unsigned char *frame, size_t size) {
    return serve_with(owner, peer, frame, size, sizeof buffer);
}

/* Serves a frame with a request. The general status of its reply, which begins at `at`. */
static int served(uint32_t peer, const unsigned char *frame, size_t size, size_t at) {
    is("serve", serve(peer, frame, size), ENIP_OK);
    is("a frame is taken", (long long)fed.taken, (long long)size);
    return fed.answer > at + 2 ? buffer[at + 2] : -1;
}

static int ask(uint32_t peer, const void *request, size_t size) {
    unsigned char frame[600];
    return served(peer, frame, put_unconnected(frame, peer, request, size), 40);
}

static int submit(uint32_t peer, uint32_t connection, unsigned count, const void *request, size_t size) {
    unsigned char frame[600];
    return served(peer, frame, put_connected(frame, peer, connection, count, request, size), 46);
}

static uint32_t registered(void) {
    unsigned char frame[28];
    uint32_t peer = 0;
    is("begin", enip_adapter_begin(adapter, &peer), ENIP_OK);
    put_header(frame, 0x65, 4, 0);
    memcpy(frame + 24, "\1\0\0\0", 4);
    is("serve", serve(peer, frame, sizeof frame), ENIP_OK);
    return peer;
}

/* Opens a connection with RPIs of 2 s, whose items to the originator have at most `size` bytes with their counts. */
static uint32_t opened(uint32_t peer, unsigned char serial, unsigned size) {
    unsigned char request[] = {0x54, 2, 0x20, 6, 0x24, 1, 0x0a, 0x0e, 0, 0, 0, 0, 0x44, 0x33, 0x22, 0x11, serial, 0,
                               0x42, 0, 0x78, 0x56, 0x34, 0x12, 0, 0, 0, 0, 0x80, 0x84, 0x1e, 0, 0xf4, 0x43, 0x80, 0x84,
                               0x1e, 0, (unsigned char)size, (unsigned char)(0x42 | size >> 8), 0xa3, 2, 0x20, 2, 0x24,
                               1};
    uint32_t connection;
    is("an opening", ask(peer, request, sizeof request), 0);
    memcpy(&connection, buffer + 44, 4);
    return connection;
}

/* A request to the object: a service, an attribute (0 for none) and data. */
static size_t put_request(unsigned char *request, uint8_t service, uint8_t attribute, const void *data, size_t size) {
    const unsigned char path[] = {service, attribute != 0 ? 4 : 3, 0x21, 0, CLASS & 0xff, CLASS >> 8, 0x24, 1, 0x30,
                                  attribute};
    size_t length = attribute != 0 ? 10 : 8;
    memcpy(request, path, length);
    memcpy(request + length, data, size);
    return length + size;
}

static int ask_for(uint32_t peer, uint8_t service, uint8_t attribute, const void *data, size_t size) {
    unsigned char request[520];
    return ask(peer, request, put_request(request, service, attribute, data, size));
}

static int submit_for(uint32_t peer, uint32_t connection, unsigned count, uint8_t service, uint8_t attribute,
                      const void *data, size_t size) {
    unsigned char request[520];
    return submit(peer, connection, count, request, put_request(request, service, attribute, data, size));
}

/* The owner was asked so often since the last call of this, and the last time this. */
static void was_asked(const char *what, int count, uint8_t service, int attribute, const void *data, size_t size,
                      size_t reply_limit) {
    is(what, asked_count, count);
    if (count > 0) {
        is(what, asked.class_code, CLASS);
        is(what, asked.instance, 1);
        is(what, asked.service, service);
        is(what, asked.has_attribute, attribute >= 0);
        is(what, asked.attribute, attribute >= 0 ? attribute : 0);
        is(what, (long long)asked.length, (long long)size);
        is(what, memcmp(asked_data, data, size), 0);
        is(what, (long long)asked.reply_limit, (long long)reply_limit);
        is(what, asked_context == &asked_count, 1);
    }
    asked_count = 0;
}

static void was_not_asked(const char *what) {
    is(what, asked_count, 0);
    asked_count = 0;
}

/* The last answer ends in these bytes. */
static void ends_in(const char *what, const void *bytes, size_t size) {
    is(what, fed.answer >= size && memcmp(buffer + fed.answer - size, bytes, size) == 0, 1);
}

static uint32_t number_at(uint16_t class_code, uint16_t attribute, size_t size) {
    uint32_t value = 0;
    size_t count = 0;
    is("read", enip_adapter_read(adapter, class_code, 1, attribute, &value, sizeof value, &count), ENIP_OK);
    is("its size", (long long)count, (long long)size);
    return value;
}

static uint32_t changes_of(uint16_t class_code, uint32_t instance, uint16_t attribute) {
    uint32_t changes = 12345;
    is("changes", enip_adapter_attribute_changes(adapter, class_code, instance, attribute, &changes), ENIP_OK);
    return changes;
}

static void services(uint32_t peer) {
    unsigned char data[480];
    memset(data, 7, sizeof data);
    answers(0, "\4\3\2\1", 4);
    is("an own service", ask_for(peer, MOVE, 0, "abcd", 4), 0);
    was_asked("an own service", 1, MOVE, -1, "abcd", 4, 4);
    ends_in("its reply", "\xb2\0\0\0\4\3\2\1", 8);
    is("with an attribute", ask_for(peer, MOVE, 9, "abcd", 4), 0);
    was_asked("with an attribute", 1, MOVE, 9, "abcd", 4, 4);
    answers(0x10, "", 0);
    is("refused by the owner", ask_for(peer, MOVE, 0, "abcd", 4), 0x10);
    was_asked("refused by the owner", 1, MOVE, -1, "abcd", 4, 4);
    answers(0xff, "\1\2\3", 3);
    is("a status with data", ask_for(peer, MOVE, 0, "abcd", 4), 0xff);
    ends_in("a status with data", "\xb2\0\xff\0\1\2\3", 7);
    asked_count = 0;
    answers(0, "", 0);
    is("too short", ask_for(peer, MOVE, 0, "abc", 3), 0x13);
    is("too long", ask_for(peer, MOVE, 0, "abcde", 5), 0x15);
    is("no such service", ask_for(peer, 53, 0, "", 0), 0x08);
    is("the counter's Add", ask(peer, "\x32\2\x20\x64\x24\1\5\0\0\0", 10), 0);
    is("a get", ask_for(peer, 0x0e, SPEED, "", 0), 0);
    was_not_asked("none of these");
    memcpy(answer.data, data, 480);
    answer.length = 480;
    is("the longest", ask_for(peer, ECHO, 0, data, 480), 0);
    was_asked("the longest", 1, ECHO, -1, data, 480, 480);
    ends_in("the longest reply", data, 480);
    is("nothing", ask_for(peer, ECHO, 0, "", 0), 0);
    was_asked("nothing", 1, ECHO, -1, "", 0, 480);
    answers(0, "", 0);
    is("no reply data", ask_for(peer, LONG, 0, data, 480), 0);
    was_asked("no reply data", 1, LONG, -1, data, 480, 0);
}

/* A set of the checked attribute is stored if the owner accepts it. */
static void sets(uint32_t peer) {
    uint32_t before = changes_of(CLASS, 1, SPEED);
    answers(0, "", 0);
    is("accepted", ask_for(peer, 0x10, SPEED, "\xb8\x0b", 2), 0);
    was_asked("accepted", 1, 0x10, SPEED, "\xb8\x0b", 2, 0);
    is("it is stored", number_at(CLASS, SPEED, 2), 3000);
    is("it is counted", changes_of(CLASS, 1, SPEED), before + 1);
    answers(0x0c, "", 0);
    is("refused", ask_for(peer, 0x10, SPEED, "\1\0", 2), 0x0c);
    was_asked("refused", 1, 0x10, SPEED, "\1\0", 2, 0);
    is("it is not stored", number_at(CLASS, SPEED, 2), 3000);
    is("it is not counted", changes_of(CLASS, 1, SPEED), before + 1);
    answers(0, "", 0);
    is("out of range", ask_for(peer, 0x10, SPEED, "\xb9\x0b", 2), 0x09);
    is("too short", ask_for(peer, 0x10, SPEED, "\1", 1), 0x13);
    is("too long", ask_for(peer, 0x10, SPEED, "\1\0\0", 3), 0x15);
    is("not checked", ask_for(peer, 0x10, LIMIT, "\1\0", 2), 0);
    is("not settable", ask_for(peer, 0x10, COUNT, "\1\0\0\0", 4), 0x0e);
    was_not_asked("none of these");
    is("not checked, and stored", number_at(CLASS, LIMIT, 2), 1);
    is("what is out of range is not stored", number_at(CLASS, SPEED, 2), 3000);
}

/* A repeat on a connection, and a command that comes again, have the first reply, and nobody is asked. */
static void repeats(uint32_t peer, uint32_t connection) {
    /* Do_Once in life 7, with number 1, of the service 50. */
    static const unsigned char once[] = {0x4b, 2, 0x20, 0x65, 0x24, 1, 7, 0, 0, 0, 0, 0, 0, 0, 1, 2, 3, 4, 5, 6, 7, 8,
                                         1, 0, 0, 0, 50, 3, 0x21, 0, 0, 3, 0x24, 1, 'a', 'b', 'c', 'd'};
    unsigned char command[sizeof once];
    answers(0, "one!", 4);
    is("on a connection", submit_for(peer, connection, 1, MOVE, 0, "abcd", 4), 0);
    was_asked("on a connection", 1, MOVE, -1, "abcd", 4, 4);
    ends_in("its reply", "one!", 4);
    answers(0, "two!", 4);
    is("a repeat", submit_for(peer, connection, 1, MOVE, 0, "abcd", 4), 0);
    is("another request with this count", submit_for(peer, connection, 1, MOVE, 0, "efgh", 4), 0);
    was_not_asked("a repeat");
    ends_in("the same reply", "one!", 4);
    is("the next count", submit_for(peer, connection, 2, MOVE, 0, "abcd", 4), 0);
    was_asked("the next count", 1, MOVE, -1, "abcd", 4, 4);
    ends_in("its reply", "two!", 4);
    answers(0x0c, "", 0);
    is("a refusal", submit_for(peer, connection, 3, 0x10, SPEED, "\5\0", 2), 0x0c);
    was_asked("a refusal", 1, 0x10, SPEED, "\5\0", 2, 0);
    answers(0, "", 0);
    is("a repeat of it", submit_for(peer, connection, 3, 0x10, SPEED, "\5\0", 2), 0x0c);
    was_not_asked("a repeat of it");
    memcpy(command, once, sizeof once);
    answers(0, "cmd1", 4);
    is("a command", submit(peer, connection, 4, command, sizeof command), 0);
    was_asked("a command", 1, MOVE, -1, "abcd", 4, 4);
    ends_in("its reply", "\xb2\0\0\0cmd1", 8);
    answers(0, "cmd2", 4);
    is("the command again", submit(peer, connection, 5, command, sizeof command), 0);
    ends_in("the same reply", "\xb2\0\0\0cmd1", 8);
    is("the command unconnected", ask(peer, command, sizeof command), 0);
    ends_in("the same reply", "\xb2\0\0\0cmd1", 8);
    was_not_asked("the command again");
    command[22] = 2;
    is("the next command", ask(peer, command, sizeof command), 0);
    was_asked("the next command", 1, MOVE, -1, "abcd", 4, 4);
    command[22] = 1;
    is("an old number", ask(peer, command, sizeof command) != 0, 1);
    was_not_asked("an old number");
}

/* Frames of which nothing is executed ask nothing, and neither do parts of a frame. */
static void asks_nothing(uint32_t peer, uint32_t connection) {
    unsigned char request[64], frame[128];
    size_t size = put_request(request, MOVE, 0, "abcd", 4), length, i;
    answers(0, "", 0);
    length = put_connected(frame, peer, connection + 1, 9, request, size);
    is("no such connection", serve(peer, frame, length), ENIP_OK);
    is("no such connection", fed.no_reply, ENIP_NO_REPLY_CONNECTION);
    length = put_connected(frame, peer + 1, connection, 9, request, size);
    is("another session", serve(peer, frame, length), ENIP_OK);
    is("another session", fed.no_reply, ENIP_NO_REPLY_OTHER_SESSION);
    length = put_unconnected(frame, peer, request, size);
    frame[8] = 1;
    is("a status", serve(peer, frame, length), ENIP_OK);
    is("a status", fed.no_reply, ENIP_NO_REPLY_STATUS);
    is("an unknown peer", serve(peer + 1000, frame, length), ENIP_OK);
    is("an unknown peer", fed.close, 1);
    was_not_asked("no frame that is executed");
    length = put_unconnected(frame, peer, request, size);
    for (i = 0; i + 1 < length; i++)
        is("one byte", serve(peer, frame + i, 1), ENIP_OK);
    was_not_asked("a part of a frame");
    is("the last byte", serve(peer, frame + i, 1), ENIP_OK);
    was_asked("the last byte", 1, MOVE, -1, "abcd", 4, 4);
    memcpy(frame + length, frame, length);
    is("two frames", serve(peer, frame, 2 * length), ENIP_OK);
    is("two frames", (long long)fed.taken, (long long)length);
    was_asked("two frames", 1, MOVE, -1, "abcd", 4, 4);
    is("without an owner", serve_with(NULL, peer, frame, length, sizeof buffer), ENIP_OK);
    is("without an owner", buffer[42], 0x10);
    is("a feed", enip_adapter_feed(adapter, now, peer, frame, length, buffer, sizeof buffer, &fed), ENIP_OK);
    is("a feed", buffer[42], 0x10);
    is("a small buffer", serve_with(owner, peer, frame, length, sizeof buffer - 1), ENIP_ROOM);
    was_not_asked("without an owner");
}

/* A reply that might not fit the connection: the request is refused, and nobody is asked. */
static void small_connections(uint32_t peer) {
    /* The count, the head of the reply and its data. */
    uint32_t exact = opened(peer, 20, 2 + 4 + 4), small, least;
    answers(0, "full", 4);
    is("it fits", submit_for(peer, exact, 1, MOVE, 0, "abcd", 4), 0);
    was_asked("it fits", 1, MOVE, -1, "abcd", 4, 4);
    ends_in("it fits", "full", 4);
    is("a longer one", submit_for(peer, exact, 2, ECHO, 0, "", 0), 0x11);
    was_not_asked("a longer one");
    small = opened(peer, 21, 2 + 4 + 4 + 475);
    is("a byte too small", submit_for(peer, small, 1, ECHO, 0, "", 0), 0x11);
    was_not_asked("a byte too small");
    least = opened(peer, 22, 2 + 4 + 480);
    is("the longest fits", submit_for(peer, least, 1, ECHO, 0, "", 0), 0);
    was_asked("the longest fits", 1, ECHO, -1, "", 0, 480);
}

/* A reply that cannot be given, and an owner that fails: nothing was fed, and the next call takes the frame. */
static void unfit(uint32_t peer, uint32_t connection) {
    static const struct {
        const char *what;
        int returned, status, service;
        size_t length;
        int wanted;
    } cases[] = {
        {"a byte too long", 0, 0, MOVE, 5, ENIP_MISUSE},      {"longer than any", 0, 0, ECHO, 481, ENIP_MISUSE},
        {"of SIZE_MAX bytes", 0, 0, ECHO, SIZE_MAX, ENIP_MISUSE}, {"too large", 0, 0x11, MOVE, 0, ENIP_MISUSE},
        {"a failure", 1, 0, MOVE, 0, ENIP_STATE},             {"another failure", -1, 0, ECHO, 480, ENIP_STATE},
    };
    static unsigned char kept[ENIP_ANSWER_ROOM];
    unsigned char request[64], frame[128];
    for (size_t i = 0; i < sizeof cases / sizeof *cases; i++) {
        size_t size = put_request(request, (uint8_t)cases[i].service, 0, "abcd", 4);
        size_t length = put_connected(frame, peer, connection, 20 + (unsigned)i, request, size);
        enip_fed unchanged = {77, 77, 77, 77};
        answers((uint8_t)cases[i].status, "", 0);
        answer.length = cases[i].length;
        returned = cases[i].returned;
        memset(buffer, 0x5a, sizeof buffer);
        memcpy(kept, buffer, sizeof kept);
        fed = unchanged;
        is(cases[i].what, serve(peer, frame, length), cases[i].wanted);
        is(cases[i].what, memcmp(&fed, &unchanged, sizeof fed), 0);
        is(cases[i].what, memcmp(kept, buffer, sizeof kept), 0);
        was_asked(cases[i].what, 1, (uint8_t)cases[i].service, -1, "abcd", 4, cases[i].service == MOVE ? 4 : 480);
        returned = 0;
        answers(0, "", 0);
        is("the frame again", served(peer, frame, length, 46), 0);
        was_asked("the frame again", 1, (uint8_t)cases[i].service, -1, "abcd", 4, cases[i].service == MOVE ? 4 : 480);
    }
}

static uint32_t asking_peer;
static enip_endings *endings;

/* What the owner may do with the adapter while it is asked, and what is misuse. */
static void act_within(void) {
    static const unsigned char list_identity[24] = {0x63};
    static const unsigned char registers[28] = {0x65, 0, 4, 0, [24] = 1};
    static unsigned char other[ENIP_ANSWER_ROOM];
    enip_fed its_fed = {77, 77, 77, 77};
    uint32_t number = 77, value = 0x01020304;
    uint16_t peers, connections;
    uint64_t deadline;
    size_t count;
    is("a feed within", enip_adapter_feed(adapter, now, asking_peer, registers, 28, other, sizeof other, &its_fed),
       ENIP_MISUSE);
    for (int asks = 0; asks < 2; asks++)
        is("a serve within",
           enip_adapter_serve(adapter, now, asking_peer, registers, 28, other, sizeof other, asks ? owner : NULL, NULL,
                              &its_fed), ENIP_MISUSE);
    is("nothing was fed", its_fed.taken == 77 && its_fed.answer == 77, 1);
    is("a tick within", enip_adapter_tick(adapter, UINT64_MAX), ENIP_MISUSE);
    is("a begin within", enip_adapter_begin(adapter, &number), ENIP_MISUSE);
    is("nobody began", number, 77);
    is("an end within", enip_adapter_end(adapter, asking_peer), ENIP_MISUSE);
    is("a free within", enip_adapter_free(adapter), ENIP_MISUSE);
    is("a write", enip_adapter_write(adapter, 100, 0, &value, 4), ENIP_OK);
    is("a write by number", enip_adapter_write_attribute(adapter, CLASS, 1, COUNT, 0, &value, 4), ENIP_OK);
    is("a read", number_at(CLASS, COUNT, 4), 0x01020304);
    is("the speed by the device", enip_adapter_write_attribute(adapter, CLASS, 1, SPEED, 0, "\1\0", 2), ENIP_OK);
    is("changes", enip_adapter_changes(adapter, 100, &number), ENIP_OK);
    is("changes by number", enip_adapter_attribute_changes(adapter, CLASS, 1, SPEED, &number), ENIP_OK);
    is("a status", enip_adapter_set_status(adapter, 3), ENIP_OK);
    is("a state", enip_adapter_set_state(adapter, 3), ENIP_OK);
    is("a deadline", enip_adapter_deadline(adapter, &deadline), ENIP_OK);
    is("places", enip_adapter_places(adapter, &peers, &connections), ENIP_OK);
    is("a datagram", enip_adapter_discover(adapter, list_identity, 24, other, sizeof other, &count), ENIP_OK);
    is("an update", enip_endings_update(endings, adapter), ENIP_OK);
}

static void within(uint32_t peer, uint32_t connection) {
    enip_ended one;
    asking_peer = peer;
    is("endings", enip_endings_new(&endings), ENIP_OK);
    answers(0, "done", 4);
    act = act_within;
    is("an own service", submit_for(peer, connection, 40, MOVE, 0, "abcd", 4), 0);
    ends_in("its reply", "done", 4);
    was_asked("an own service", 1, MOVE, -1, "abcd", 4, 4);
    answers(0, "", 0);
    is("a set", submit_for(peer, connection, 41, 0x10, SPEED, "\x34\2", 2), 0);
    was_asked("a set", 1, 0x10, SPEED, "\x34\2", 2, 0);
    is("the set is stored after the owner's write", number_at(CLASS, SPEED, 2), 0x234);
    answers(5, "", 0);
    is("a refused set", submit_for(peer, connection, 42, 0x10, SPEED, "\x35\2", 2), 5);
    is("the owner's write stays", number_at(CLASS, SPEED, 2), 1);
    asked_count = 0;
    act = NULL;
    answers(0, "", 0);
    is("afterwards all is allowed again", enip_adapter_tick(adapter, now), ENIP_OK);
    is("update", enip_endings_update(endings, adapter), ENIP_OK);
    is("no connection ended", enip_endings_at(endings, 0, &one), ENIP_ABSENT);
    is("free", enip_endings_free(endings), ENIP_OK);
}

/* The time of a serve ends connections first, so nothing is asked on one that is over. */
static void times_out(void) {
    uint32_t peer = registered(), connection = opened(peer, 30, 504);
    unsigned char request[64], frame[128];
    size_t length = put_connected(frame, peer, connection, 1, request, put_request(request, MOVE, 0, "abcd", 4));
    now += 9999999;
    answers(0, "", 0);
    is("before its deadline", served(peer, frame, length, 46), 0);
    was_asked("before its deadline", 1, MOVE, -1, "abcd", 4, 4);
    frame[44] = 2;
    now += 10000000;
    is("at its deadline", serve(peer, frame, length), ENIP_OK);
    is("it is over", fed.no_reply, ENIP_NO_REPLY_CONNECTION);
    was_not_asked("at its deadline");
    is("end", enip_adapter_end(adapter, peer), ENIP_OK);
}

/* Reads, writes and changes of any attribute. */
static void attributes(uint32_t peer) {
    static const unsigned char name[] = {5, 'S', 'p', 'e', 'e', 'd'};
    uint32_t changes = 5;
    size_t count;
    is("a whole string", enip_adapter_write_attribute(adapter, CLASS, 1, NAME, 0, name, 6), ENIP_OK);
    is("read", enip_adapter_read(adapter, CLASS, 1, NAME, buffer, sizeof buffer, &count), ENIP_OK);
    is("the string", count == 6 && memcmp(buffer, name, 6) == 0, 1);
    is("a part of a string", enip_adapter_write_attribute(adapter, CLASS, 1, NAME, 1, name + 1, 1), ENIP_ABSENT);
    is("a byte of a number", enip_adapter_write_attribute(adapter, CLASS, 1, COUNT, 3, "\x7f", 1), ENIP_OK);
    is("the number", number_at(CLASS, COUNT, 4) >> 24, 0x7f);
    is("past its end", enip_adapter_write_attribute(adapter, CLASS, 1, COUNT, 3, "ab", 2), ENIP_ABSENT);
    is("an assembly", enip_adapter_write_attribute(adapter, 4, 100, 3, 1, "\x55", 1), ENIP_OK);
    is("read", enip_adapter_read(adapter, 4, 100, 3, buffer, sizeof buffer, &count), ENIP_OK);
    is("its byte", buffer[1], 0x55);
    is("no such attribute", enip_adapter_write_attribute(adapter, CLASS, 1, 9, 0, "a", 1), ENIP_ABSENT);
    is("no such instance", enip_adapter_write_attribute(adapter, CLASS, 2, COUNT, 0, "a", 1), ENIP_ABSENT);
    is("no such class", enip_adapter_write_attribute(adapter, 769, 1, COUNT, 0, "a", 1), ENIP_ABSENT);
    is("the identity", enip_adapter_write_attribute(adapter, 1, 1, 5, 0, "ab", 2), ENIP_ABSENT);
    is("changes of none", enip_adapter_attribute_changes(adapter, CLASS, 1, 9, &changes), ENIP_ABSENT);
    is("are not written", changes, 5);
    changes = changes_of(CLASS, 1, LIMIT);
    is("a set", ask_for(peer, 0x10, LIMIT, "\7\0", 2), 0);
    is("is counted", changes_of(CLASS, 1, LIMIT), changes + 1);
    is("not here", changes_of(CLASS, 1, COUNT), 0);
    is("a set of an assembly", ask(peer, "\x10\3\x20\4\x24\x64\x30\3\1\2\3\4", 12), 0);
    is("is counted by number", changes_of(4, 100, 3), 1);
    is("and by instance", enip_adapter_changes(adapter, 100, &changes) == ENIP_OK && changes == 1, 1);
}

static uint32_t moved;

static int moves(void *context, const enip_asked *request, enip_reply *reply) {
    uint32_t by;
    memcpy(&by, request->data, sizeof by);
    moved += by;
    memcpy(reply->data, &moved, sizeof moved);
    reply->length = sizeof moved;
    return context != NULL;
}

/* Serves `rounds` own services on a connection and then as many Adds; no checks, for measurements. */
static int measure(unsigned long rounds) {
    uint32_t peer = registered(), connection = opened(peer, 1, 504);
    unsigned char request[64], frame[128];
    size_t length = put_connected(frame, peer, connection, 1, request, put_request(request, MOVE, 0, "\1\0\0\0", 4));
    for (unsigned long i = 1; i <= rounds; i++) {
        frame[44] = (unsigned char)i;
        frame[45] = (unsigned char)(i >> 8);
        if (enip_adapter_serve(adapter, now, peer, frame, length, buffer, sizeof buffer, moves, NULL, &fed) != ENIP_OK)
            return 1;
    }
    connection = opened(peer, 2, 504);
    length = put_connected(frame, peer, connection, 1, "\x32\2\x20\x64\x24\1\1\0\0\0", 10);
    for (unsigned long i = 1; i <= rounds; i++) {
        frame[44] = (unsigned char)i;
        frame[45] = (unsigned char)(i >> 8);
        if (enip_adapter_feed(adapter, now, peer, frame, length, buffer, sizeof buffer, &fed) != ENIP_OK)
            return 1;
    }
    printf("moved %lu, counted %lu\n", (unsigned long)moved, (unsigned long)number_at(100, 1, 4));
    return moved != rounds;
}

int main(int count, char **arguments) {
    uint32_t peer, connection;
    is("new", enip_adapter_new(configuration, sizeof configuration - 1, &adapter, NULL), ENIP_OK);
    if (count > 1)
        return measure(strtoul(arguments[1], NULL, 10));
    peer = registered();
    connection = opened(peer, 1, 504);
    services(peer);
    sets(peer);
    repeats(peer, connection);
    asks_nothing(peer, connection);
    small_connections(peer);
    unfit(peer, connection);
    within(peer, connection);
    attributes(peer);
    times_out();
    is("free", enip_adapter_free(adapter), ENIP_OK);
    printf("%d passed, %d failed\n", passed, failed);
    return failed != 0;
}
