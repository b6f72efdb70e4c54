/*
 * Each field of each result and each byte of each frame, as they must be, and nothing next to them is written. Results and
 * buffers lie between pages that cannot be accessed: first at the end of their pages, then at the beginning, where the
 * bytes behind them are compared. Each buffer also comes one byte too small. Prints `N passed, M failed`.
 */
#define _GNU_SOURCE
#include <enip.h>
#include <stdio.h>
#include <string.h>
#include <sys/mman.h>

static int passed, failed;

static void is(const char *what, long long got, long long wanted) {
    if (got == wanted) {
        passed++;
    } else {
        failed++;
        printf("fields: %s: %lld instead of %lld\n", what, got, wanted);
    }
}

static void is_bytes(const char *what, const void *got, const void *wanted, size_t size) {
    is(what, memcmp(got, wanted, size), 0);
}

/* Memory for the bytes to read, for the buffer and for the result. */
enum { READ, BUFFER, RESULT, REGIONS, PAGE = 4096, SIZE = 20 * PAGE, FILL = 0xa5 };
static unsigned char *regions[REGIONS];
static size_t taken[REGIONS];
static int at_end;

static int map_regions(void) {
    for (int i = 0; i < REGIONS; i++) {
        unsigned char *at = mmap(NULL, SIZE + 2 * PAGE, PROT_NONE, MAP_PRIVATE | MAP_ANONYMOUS, -1, 0);
        if (at == MAP_FAILED || mprotect(at + PAGE, SIZE, PROT_READ | PROT_WRITE) != 0)
            return 0;
        regions[i] = at + PAGE;
    }
    return 1;
}

/* So many bytes of a region, at its end or at its beginning. */
static void *in(int region, size_t size) {
    memset(regions[region], FILL, SIZE);
    taken[region] = size;
    return at_end ? regions[region] + SIZE - size : regions[region];
}

/* Whether the rest of a region is as it was. */
static void is_rest_kept(const char *what, int region) {
    size_t from = at_end ? 0 : taken[region], to = at_end ? SIZE - taken[region] : SIZE;
    for (size_t i = from; i < to; i++) {
        if (regions[region][i] != FILL) {
            is(what, (long long)i, -1);
            return;
        }
    }
    passed++;
}

/* Whether all of a region is as it was. */
static void is_kept(const char *what, int region) {
    size_t size = taken[region];
    taken[region] = 0;
    is_rest_kept(what, region);
    at_end = !at_end;
    is_rest_kept(what, region);
    at_end = !at_end;
    taken[region] = size;
}

static const char configuration[] =
    "vendor = 4660\ndevice_type = 43\nproduct_code = 7\nmajor = 2\nminor = 5\nserial = 1\nname = \"M\"\n"
    "address = [127, 0, 0, 1]\npeers = 3\nconnections = 5\n[counter]\nlimit = 100\n"
    "[[assembly]]\ninstance = 100\nsettable = true\nmembers = [2, 2]\n";

static enip_adapter *adapter;
static enip_client *client;
static enip_once *once;
static uint32_t peer;
static uint64_t now = 1000;
static const unsigned char *request;
static size_t request_length;
/* What was written last, and the last answer and reply. */
static unsigned char frame[ENIP_FRAME_ROOM], answer[ENIP_ANSWER_ROOM], reply[ENIP_REPLY_ROOM];
static size_t frame_length, answer_length;

/* A call that writes bytes to a buffer, and their number. */
typedef int writing(void *buffer, size_t size, size_t *count);

#define WRITING(name, ...)                                          \
    static int name(void *buffer, size_t size, size_t *count) {     \
        return enip_##name(__VA_ARGS__, buffer, size, count);       \
    }
WRITING(adapter_read, adapter, 4, 100, 3)
WRITING(adapter_discover, adapter, request, request_length)
WRITING(client_register, client)
WRITING(client_open, client)
WRITING(client_ask, client, request, request_length)
WRITING(client_submit, client, request, request_length)
WRITING(client_resend, client)
WRITING(client_close, client)
WRITING(client_unregister, client)
WRITING(once_command, once, request, request_length)
WRITING(once_resend, once)
WRITING(once_request, once)
WRITING(once_withdraw, once)

/* Calls it with a buffer that is a byte too small, and with one of the size that it needs. */
static void written(const char *what, writing *write, size_t room, size_t length) {
    unsigned char *buffer = in(BUFFER, room - 1);
    size_t *count = in(RESULT, sizeof *count);
    is(what, write(buffer, room - 1, count), ENIP_ROOM);
    is_kept(what, BUFFER);
    is_kept(what, RESULT);
    buffer = in(BUFFER, room);
    is(what, write(buffer, room, count), ENIP_OK);
    is(what, (long long)*count, (long long)length);
    for (size_t i = length; i < room; i++)
        is(what, buffer[i], FILL);
    is_rest_kept(what, BUFFER);
    is_rest_kept(what, RESULT);
    frame_length = *count < sizeof frame ? *count : sizeof frame;
    memcpy(frame, buffer, frame_length);
}

/* The owner of the device, if it has one. */
static int (*owner)(void *context, const enip_asked *asked, enip_reply *reply);

static int feed(void *piece, size_t length, void *buffer, size_t size, enip_fed *got) {
    return owner != NULL ? enip_adapter_serve(adapter, now, peer, piece, length, buffer, size, owner, &now, got)
                         : enip_adapter_feed(adapter, now, peer, piece, length, buffer, size, got);
}

/* Feeds the adapter, and compares each field of the result. */
static void fed(const char *what, const unsigned char *bytes, size_t length, enip_fed wanted) {
    unsigned char *buffer = in(BUFFER, ENIP_ANSWER_ROOM - 1);
    enip_fed *got = in(RESULT, sizeof *got);
    void *piece = memcpy(in(READ, length), bytes, length);
    is(what, feed(piece, length, buffer, ENIP_ANSWER_ROOM - 1, got), ENIP_ROOM);
    is_kept(what, BUFFER);
    is_kept(what, RESULT);
    buffer = in(BUFFER, ENIP_ANSWER_ROOM);
    is(what, feed(piece, length, buffer, ENIP_ANSWER_ROOM, got), ENIP_OK);
    is(what, (long long)got->taken, (long long)wanted.taken);
    is(what, (long long)got->answer, (long long)wanted.answer);
    is(what, got->no_reply, wanted.no_reply);
    is(what, got->close, wanted.close);
    for (size_t i = wanted.answer; i < ENIP_ANSWER_ROOM; i++)
        is(what, buffer[i], FILL);
    is_rest_kept(what, BUFFER);
    is_rest_kept(what, RESULT);
    answer_length = got->answer;
    memcpy(answer, buffer, answer_length);
}

/* Feeds the client, and compares each field of the result, and the reply. */
static void heard(const char *what, const unsigned char *bytes, size_t length, enip_heard wanted, const char *wanted_reply) {
    unsigned char *buffer = in(BUFFER, ENIP_REPLY_ROOM - 1);
    enip_heard *got = in(RESULT, sizeof *got);
    void *piece = memcpy(in(READ, length), bytes, length);
    is(what, enip_client_feed(client, piece, length, buffer, ENIP_REPLY_ROOM - 1, got), ENIP_ROOM);
    is_kept(what, BUFFER);
    is_kept(what, RESULT);
    buffer = in(BUFFER, ENIP_REPLY_ROOM);
    is(what, enip_client_feed(client, piece, length, buffer, ENIP_REPLY_ROOM, got), ENIP_OK);
    is(what, (long long)got->taken, (long long)wanted.taken);
    is(what, (long long)got->reply, (long long)wanted.reply);
    is(what, got->kind, wanted.kind);
    is(what, got->general, wanted.general);
    is(what, got->extended, wanted.extended);
    is_bytes(what, buffer, wanted_reply, wanted.reply);
    memcpy(reply, buffer, wanted.reply);
    memset(buffer, FILL, wanted.reply);
    is_kept(what, BUFFER);
    is_rest_kept(what, RESULT);
}

/* The last frame goes to the adapter, which answers it, and the answer to the client. */
static void exchanged(const char *what, size_t length, enip_heard wanted, const char *wanted_reply) {
    fed(what, frame, frame_length, (enip_fed){frame_length, length, 0, 0});
    wanted.taken = length;
    heard(what, answer, answer_length, wanted, wanted_reply);
}

static void make_client(uint32_t t_to_o_id) {
    const enip_wants wants = {
        .originator_serial = 0x01020304, .t_to_o_id = t_to_o_id, .rpi = 0x00152637, .originator_vendor = 0x0506,
        .connection_serial = 0x0708, .o_to_t_size = 300, .t_to_o_size = 400, .first_count = 0x090a,
        .timeout_multiplier = 5,
    };
    is("a peer", enip_adapter_begin(adapter, &peer), ENIP_OK);
    is("a client", enip_client_new(&wants, &client), ENIP_OK);
}

static const char ok_reply[] = {(char)0x8e, 0, 0, 0, 0x34, 0x12};
static const unsigned char get_vendor[] = {0x0e, 3, 0x20, 1, 0x24, 1, 0x30, 1};
static const unsigned char get_nothing[] = {0x0e, 3, 0x20, 1, 0x24, 1, 0x30, 99};

/* A session and a connection, from the first frame to the last. */
static void conversation(void) {
    static const unsigned char registering[28] = {0x65, 0, 4, 0, [24] = 1};
    static const unsigned char opening[] = {
        0x54, 2, 0x20, 6, 0x24, 1, 0x0a, 0x0e, 0, 0, 0, 0, 0x44, 0x33, 0x22, 0x11, 8, 7, 6, 5, 4, 3, 2, 1, 5, 0, 0, 0,
        0x37, 0x26, 0x15, 0, 0x2c, 0x43, 0x37, 0x26, 0x15, 0, 0x90, 0x43, 0xa3, 2, 0x20, 2, 0x24, 1,
    };
    size_t half;
    make_client(0x11223344);
    written("a registration", client_register, ENIP_FRAME_ROOM, 28);
    is_bytes("a registration", frame, registering, 12);
    is_bytes("a registration", frame + 20, registering + 20, 8);
    fed("ten bytes", frame, 10, (enip_fed){10, 0, ENIP_NO_REPLY_INCOMPLETE, 0});
    memset(frame + 28, 0, 24);
    fed("the rest, and more", frame + 10, 42, (enip_fed){18, 28, 0, 0});
    heard("27 bytes", answer, 27, (enip_heard){27, 0, ENIP_HEARD_NOTHING, 0, 0}, "");
    heard("the last byte", answer + 27, 1, (enip_heard){1, 0, ENIP_HEARD_REGISTERED, 0, 0}, "");
    written("an opening", client_open, ENIP_FRAME_ROOM, 40 + sizeof opening);
    is_bytes("what is wanted", frame + 40, opening, sizeof opening);
    exchanged("an opening", 70, (enip_heard){0, 0, ENIP_HEARD_OPENED, 0, 0}, "");
    request = get_vendor;
    request_length = sizeof get_vendor;
    written("a question", client_ask, ENIP_FRAME_ROOM, 48);
    exchanged("a question", 46, (enip_heard){0, 6, ENIP_HEARD_REPLY, 0, 0}, ok_reply);
    request = get_nothing;
    written("a question", client_ask, ENIP_FRAME_ROOM, 48);
    exchanged("a refused question", 44, (enip_heard){0, 4, ENIP_HEARD_REPLY, 0x14, 0}, "\x8e\0\x14\0");
    request = get_vendor;
    written("a request", client_submit, ENIP_FRAME_ROOM, 54);
    is_bytes("the first count", frame + 44, "\x0a\x09", 2);
    half = frame_length;
    written("the request again", client_resend, ENIP_FRAME_ROOM, half);
    exchanged("a request", 52, (enip_heard){0, 6, ENIP_HEARD_ACCEPTED, 0, 0}, ok_reply);
    written("a request", client_submit, ENIP_FRAME_ROOM, 54);
    is_bytes("the next count", frame + 44, "\x0b\x09", 2);
    is("it is given up", enip_client_give_up(client), ENIP_OK);
    fed("it is executed", frame, frame_length, (enip_fed){54, 52, 0, 0});
    heard("and not accepted", answer, 52, (enip_heard){52, 0, ENIP_HEARD_NOTHING, 0, 0}, "");
    written("a closing", client_close, ENIP_FRAME_ROOM, 62);
    exchanged("a closing", 54, (enip_heard){0, 0, ENIP_HEARD_CLOSED, 0, 0}, "");
    written("the end", client_unregister, ENIP_FRAME_ROOM, 24);
    fed("the end", frame, 24, (enip_fed){24, 0, ENIP_NO_REPLY_UNREGISTERED, 1});
    fed("after it", frame, 24, (enip_fed){0, 0, ENIP_NO_REPLY_NOT_SERVED, 1});
    is("free", enip_client_free(client), ENIP_OK);
    is("end", enip_adapter_end(adapter, peer), ENIP_OK);
}

/* A refused opening: the connection is open already, for another client with the same numbers. */
static void refused_opening(void) {
    enip_client *first;
    uint32_t first_peer;
    make_client(1);
    written("a registration", client_register, ENIP_FRAME_ROOM, 28);
    exchanged("a registration", 28, (enip_heard){0, 0, ENIP_HEARD_REGISTERED, 0, 0}, "");
    written("an opening", client_open, ENIP_FRAME_ROOM, 86);
    exchanged("an opening", 70, (enip_heard){0, 0, ENIP_HEARD_OPENED, 0, 0}, "");
    first = client;
    first_peer = peer;
    make_client(2);
    written("a registration", client_register, ENIP_FRAME_ROOM, 28);
    exchanged("a registration", 28, (enip_heard){0, 0, ENIP_HEARD_REGISTERED, 0, 0}, "");
    written("an opening", client_open, ENIP_FRAME_ROOM, 86);
    exchanged("a refused opening", 56, (enip_heard){0, 0, ENIP_HEARD_REFUSED, 0x01, 0x0100}, "");
    is("free", enip_client_free(client), ENIP_OK);
    is("end", enip_adapter_end(adapter, peer), ENIP_OK);
    client = first;
    peer = first_peer;
}

/* A datagram, by itself in memory, and the same over TCP: both have the same answer. */
static void discovered(const char *what, const unsigned char *datagram, const void *wanted, size_t length) {
    request = memcpy(in(READ, 24), datagram, 24);
    request_length = 24;
    written(what, adapter_discover, length, length);
    is_bytes(what, frame, wanted, length);
    fed(what, datagram, 24, (enip_fed){24, length, 0, 0});
    is_bytes(what, answer, wanted, length);
}

/* A datagram that has no answer: nothing is written. */
static void dropped(const char *what, const unsigned char *bytes, size_t length) {
    void *buffer = in(BUFFER, ENIP_ANSWER_ROOM), *datagram = memcpy(in(READ, length), bytes, length);
    size_t *count = in(RESULT, sizeof *count);
    is(what, enip_adapter_discover(adapter, datagram, length, buffer, ENIP_ANSWER_ROOM, count), ENIP_ABSENT);
    is_kept(what, BUFFER);
    is_kept(what, RESULT);
}

static void datagrams(void) {
    static const char identity[] =
        "\x63\0\x29\0\0\0\0\0\0\0\0\0\1\2\3\4\5\6\7\x08\0\0\0\0\1\0\x0c\0\x23\0\1\0\0\2\xaf\x12\x7f\0\0\1"
        "\0\0\0\0\0\0\0\0\x34\x12\x2b\0\7\0\2\5\0\0\1\0\0\0\1M\3";
    static const char services[] =
        "\4\0\x1a\0\0\0\0\0\0\0\0\0\1\2\3\4\5\6\7\x08\0\0\0\0\1\0\0\1\x14\0\1\0\x20\0Communications\0";
    static const char interfaces[] =
        "\x64\0\2\0\7\0\0\0\0\0\0\0\1\2\3\4\5\6\7\x08\0\0\0\0\0";
    unsigned char list[26] = {0x63, [12] = 1, 2, 3, 4, 5, 6, 7, 8};
    is("a peer", enip_adapter_begin(adapter, &peer), ENIP_OK);
    discovered("ListIdentity", list, identity, sizeof identity - 1);
    dropped("no datagram", list, 0);
    dropped("a byte is missing", list, 23);
    dropped("a byte more", list, 25);
    list[0] = 0x04;
    discovered("ListServices", list, services, sizeof services);
    list[0] = 0x64;
    list[4] = 7;
    discovered("ListInterfaces", list, interfaces, sizeof interfaces);
    list[2] = 1;
    dropped("data", list, 25);
    list[2] = 0;
    list[8] = 1;
    dropped("a status", list, 24);
    list[8] = 0;
    list[23] = 1;
    dropped("options", list, 24);
    list[23] = 0;
    list[0] = 0x66;
    dropped("another command", list, 24);
    is("end", enip_adapter_end(adapter, peer), ENIP_OK);
}

/* The results of the device's own calls, while one connection is open, and after it has timed out. */
static void device_side(enip_endings *endings) {
    enip_ended *ended = in(RESULT, sizeof *ended);
    uint64_t *deadline;
    uint32_t *changes, *began;
    uint16_t *peers, *connections;
    is("update", enip_endings_update(endings, adapter), ENIP_OK);
    is("absent", enip_endings_at(endings, 0, ended), ENIP_ABSENT);
    is_kept("absent", RESULT);
    deadline = in(RESULT, sizeof *deadline);
    is("the deadline", enip_adapter_deadline(adapter, deadline), ENIP_OK);
    /* 4 x 2^5 x RPI, which the open rounds up to a millisecond at most */
    is("the deadline", *deadline - now, UINT64_C(128) * 0x00152637);
    is_rest_kept("the deadline", RESULT);
    peers = in(READ, sizeof *peers);
    connections = in(RESULT, sizeof *connections);
    is("slots", enip_adapter_places(adapter, peers, connections), ENIP_OK);
    is("free peers", *peers, 2);
    is("free connections", *connections, 4);
    is_rest_kept("slots", READ);
    is_rest_kept("slots", RESULT);
    changes = in(RESULT, sizeof *changes);
    is("no changes", enip_adapter_changes(adapter, 99, changes), ENIP_ABSENT);
    is_kept("no changes", RESULT);
    is("changes", enip_adapter_changes(adapter, 100, changes), ENIP_OK);
    is("changes", *changes, 0);
    is_rest_kept("changes", RESULT);
    written("an attribute", adapter_read, 4, 4);
    is_bytes("an attribute", frame, "\1\2\3\4", 4);
    now += UINT64_C(128) * 0x00152637;
    is("tick", enip_adapter_tick(adapter, now), ENIP_OK);
    is("update", enip_endings_update(endings, adapter), ENIP_OK);
    ended = in(RESULT, sizeof *ended);
    is("ended", enip_endings_at(endings, 0, ended), ENIP_OK);
    is("its ID", ended->connection, 2 + 2 * !at_end);
    is("its peer", ended->peer, peer);
    is("why", ended->why, ENIP_ENDED_TIMED_OUT);
    is_rest_kept("ended", RESULT);
    is("one entry", enip_endings_at(endings, 1, ended), ENIP_ABSENT);
    deadline = in(RESULT, sizeof *deadline);
    is("no deadline", enip_adapter_deadline(adapter, deadline), ENIP_ABSENT);
    is_kept("no deadline", RESULT);
    is("end", enip_adapter_end(adapter, peer), ENIP_OK);
    began = in(RESULT, sizeof *began);
    is("begin", enip_adapter_begin(adapter, began), ENIP_OK);
    is("the next number", *began, peer + 2);
    is_rest_kept("begin", RESULT);
    is("end", enip_adapter_end(adapter, *began), ENIP_OK);
    is("free", enip_client_free(client), ENIP_OK);
}

/* The call that takes the replies of `outcome`. */
static int (*take)(enip_once *, const void *, size_t, void *, size_t, enip_outcome *) = enip_once_receive;

static void outcome(const char *what, const char *bytes, size_t length, enip_outcome wanted, const char *inner) {
    void *buffer = in(BUFFER, length - 1), *piece = memcpy(in(READ, length), bytes, length);
    enip_outcome *got = in(RESULT, sizeof *got);
    is(what, take(once, piece, length, buffer, length - 1, got), ENIP_ROOM);
    is_kept(what, BUFFER);
    is_kept(what, RESULT);
    buffer = in(BUFFER, length);
    is(what, take(once, piece, length, buffer, length, got), ENIP_OK);
    is(what, (long long)got->reply, (long long)wanted.reply);
    is(what, got->kind, wanted.kind);
    is(what, got->general, wanted.general);
    is_bytes(what, buffer, inner, wanted.reply);
    memset(buffer, FILL, wanted.reply);
    is_kept(what, BUFFER);
    is_rest_kept(what, RESULT);
}

static void commands(void) {
    static const char message[] = {0x4b, 2, 0x20, 0x65, 0x24, 1, 8, 7, 6, 5, 4, 3, 2, 1, 0x18, 0x17, 0x16, 0x15, 0x14, 0x13,
                                   0x12, 0x11, 0x24, 0x23, 0x22, 0x21, 0x0e, 3, 0x20, 1, 0x24, 1, 0x30, 1};
    static const char withdrawal[] = {0x4f, 2, 0x20, 0x65, 0x24, 1, 8, 7, 6, 5, 4, 3, 2, 1, 0x18, 0x17, 0x16, 0x15, 0x14,
                                      0x13, 0x12, 0x11, 0x24, 0x23, 0x22, 0x21};
    uint64_t *life, *originator;
    uint32_t *number;
    is("new", enip_once_new(UINT64_C(0x0102030405060708), UINT64_C(0x1112131415161718), 0x21222323, &once), ENIP_OK);
    request = get_vendor;
    request_length = sizeof get_vendor;
    written("a command", once_command, ENIP_MESSAGE_ROOM, sizeof message);
    is_bytes("a command", frame, message, sizeof message);
    written("its message", once_resend, sizeof message, sizeof message);
    is_bytes("its message", frame, message, sizeof message);
    written("its withdrawal", once_withdraw, sizeof withdrawal, sizeof withdrawal);
    is_bytes("its withdrawal", frame, withdrawal, sizeof withdrawal);
    written("its request", once_request, sizeof get_vendor, sizeof get_vendor);
    is_bytes("its request", frame, get_vendor, sizeof get_vendor);
    life = in(READ, sizeof *life);
    originator = in(BUFFER, sizeof *originator);
    number = in(RESULT, sizeof *number);
    is("values", enip_once_values(once, life, originator, number), ENIP_OK);
    is("values", *life == UINT64_C(0x0102030405060708) && *originator == UINT64_C(0x1112131415161718), 1);
    is("values", *number, 0x21222324);
    is_rest_kept("values", READ);
    is_rest_kept("values", BUFFER);
    is_rest_kept("values", RESULT);
    outcome("refused", "\xcb\0\x10\0", 4, (enip_outcome){0, ENIP_ONCE_REFUSED, 0x10}, "");
    outcome("pending", "\xcb\0\0\0\1", 5, (enip_outcome){0, ENIP_ONCE_PENDING, 0}, "");
    outcome("in doubt", "\xcb\0\0\0\2", 5, (enip_outcome){0, ENIP_ONCE_IN_DOUBT, 0}, "");
    outcome("malformed", "\xcc\0\0\0\1", 5, (enip_outcome){0, ENIP_ONCE_MALFORMED, 0}, "");
    outcome("done", "\xcb\0\0\0\0\x8e\0\x0a\0\7", 10, (enip_outcome){5, ENIP_ONCE_DONE, 0x0a}, "\x8e\0\x0a\0\7");
    outcome("nothing", "\xcb\0\0\0\0\x8e\0\0\0", 9, (enip_outcome){0, ENIP_ONCE_NOTHING, 0}, "");
    written("another command", once_command, ENIP_MESSAGE_ROOM, sizeof message);
    outcome("withdrawn before", "\xcb\0\0\0\3", 5, (enip_outcome){0, ENIP_ONCE_WITHDRAWN, 0}, "");
    written("another command", once_command, ENIP_MESSAGE_ROOM, sizeof message);
    take = enip_once_withdrawn;
    outcome("refused", "\xcf\0\x08\0", 4, (enip_outcome){0, ENIP_ONCE_REFUSED, 0x08}, "");
    outcome("handed over", "\xcf\0\0\0\1", 5, (enip_outcome){0, ENIP_ONCE_PENDING, 0}, "");
    outcome("in doubt", "\xcf\0\0\0\2", 5, (enip_outcome){0, ENIP_ONCE_IN_DOUBT, 0}, "");
    outcome("malformed", "\xcb\0\0\0\3", 5, (enip_outcome){0, ENIP_ONCE_MALFORMED, 0}, "");
    outcome("a smaller number", "\xcf\0\x0c\0", 4, (enip_outcome){0, ENIP_ONCE_SMALLER, 0x0c}, "");
    outcome("another life", "\xcf\0\x10\0", 4, (enip_outcome){0, ENIP_ONCE_OTHER_LIFE, 0x10}, "");
    outcome("done", "\xcf\0\0\0\0\x8e\0\x0a\0\7", 10, (enip_outcome){5, ENIP_ONCE_DONE, 0x0a}, "\x8e\0\x0a\0\7");
    outcome("nothing", "\xcf\0\0\0\3", 5, (enip_outcome){0, ENIP_ONCE_NOTHING, 0}, "");
    written("another command", once_command, ENIP_MESSAGE_ROOM, sizeof message);
    outcome("withdrawn", "\xcf\0\0\0\3", 5, (enip_outcome){0, ENIP_ONCE_WITHDRAWN, 0}, "");
    take = enip_once_receive;
    is("free", enip_once_free(once), ENIP_OK);
}

/* Each field of what the owner gets, and each byte of its data. The reply fills its room, or has no data. */
static int answers(void *context, const enip_asked *asked, enip_reply *its_reply) {
    is("asked", asked->instance, 0x0304);
    is("asked", asked->class_code, 0x0506);
    is("asked", asked->attribute, asked->length == 0 ? 0x0708 : 0);
    is("asked", asked->has_attribute, asked->length == 0);
    is("asked", asked->service, 0x63);
    is("asked", (long long)asked->reply_limit, 480);
    is("asked", context == &now, 1);
    for (size_t i = 0; i < asked->length; i++)
        is("asked", asked->data[i], (unsigned char)i);
    for (size_t i = 0; i < asked->length; i++)
        its_reply->data[i] = (unsigned char)~i;
    its_reply->length = asked->length;
    its_reply->status = asked->length == 0 ? 0x77 : 0;
    return 0;
}

/* The owner executes a service without data and with the longest data. */
static void owned(void) {
    static const char text[] =
        "vendor = 1\ndevice_type = 43\nproduct_code = 7\nmajor = 2\nminor = 5\nserial = 1\nname = \"M\"\n"
        "address = [127, 0, 0, 1]\n[counter]\nlimit = 1\n[[object]]\nclass = 1286\ninstance = 772\n"
        "[[object.service]]\nnumber = 99\nsizes = [0, 480]\nreply = 480\n";
    static const unsigned char path[] = {0x21, 0, 6, 5, 0x25, 0, 4, 3, 0x31, 0, 8, 7};
    static const unsigned char registering[28] = {0x65, 0, 4, 0, [24] = 1};
    enip_adapter *other = adapter;
    uint32_t its_peer = peer;
    is("an adapter with an owner", enip_adapter_new(text, sizeof text - 1, &adapter, NULL), ENIP_OK);
    is("a peer", enip_adapter_begin(adapter, &peer), ENIP_OK);
    owner = answers;
    fed("a session", registering, 28, (enip_fed){28, 28, 0, 0});
    for (size_t length = 0; length <= 480; length += 240) {
        unsigned char asks[40 + 16 + 480] = {0x6f, 0, [4] = (unsigned char)peer, [30] = 2, [36] = 0xb2};
        size_t path_size = length == 0 ? sizeof path : sizeof path - 4, request_size = 2 + path_size + length;
        asks[2] = (unsigned char)(16 + request_size);
        asks[3] = (unsigned char)((16 + request_size) >> 8);
        asks[38] = (unsigned char)request_size;
        asks[39] = (unsigned char)(request_size >> 8);
        asks[40] = 0x63;
        asks[41] = (unsigned char)(path_size / 2);
        memcpy(asks + 42, path, path_size);
        for (size_t i = 0; i < length; i++)
            asks[42 + path_size + i] = (unsigned char)i;
        fed("an own service", asks, 40 + request_size, (enip_fed){40 + request_size, 44 + length, 0, 0});
        is_bytes("its reply", answer + 38, length == 0 ? "\4\0\xe3\0\x77\0" : length == 240 ? "\xf4\0\xe3\0\0\0"
                     : "\xe4\1\xe3\0\0\0", 6);
        for (size_t i = 0; i < length; i++)
            is("its data", answer[44 + i], (unsigned char)~i);
    }
    owner = NULL;
    is("free", enip_adapter_free(adapter), ENIP_OK);
    adapter = other;
    peer = its_peer;
}

/* A refusal whose text is a line of so many bytes, or empty if it does not fit. */
static void refused(size_t length) {
    static char text[2000];
    enip_adapter *none = NULL, *made = none;
    enip_refusal *refusal = in(RESULT, sizeof *refusal);
    size_t head = (size_t)sprintf(text, "%s", configuration), words = strlen("line 17: unknown key assembly.");
    memset(text + head, 'x', length - words);
    head += length - words;
    head += (size_t)sprintf(text + head, " = 1\n");
    is("refused", enip_adapter_new(text, head, &made, refusal), ENIP_CONFIGURATION);
    is("its number", refusal->number, ENIP_CONFIG_KEY);
    is("its text", (long long)strlen(refusal->text), length <= 511 ? (long long)length : 0);
    is("its text", length > 511 || strncmp(refusal->text, "line 17: unknown key assembly.xx", 32) == 0, 1);
    is("nothing is made", made == none, 1);
    for (size_t i = strlen(refusal->text) + 1; i < sizeof refusal->text; i++)
        is("only the text is written", (unsigned char)refusal->text[i], FILL);
    is_rest_kept("refused", RESULT);
}

/* A text in buffers that are large enough, or cut it. */
static void texts(void) {
    static const char text[] = "its originator closed it";
    const size_t length = sizeof text - 1;
    for (size_t size = 1; size < length + 4; size++) {
        char *buffer = in(BUFFER, size);
        size_t shown = size <= length ? size - 1 : length;
        is("a text", (long long)enip_status_text(ENIP_OF_ENDING, ENIP_ENDED_CLOSED, buffer, size), (long long)length);
        is_bytes("a text", buffer, text, shown);
        is("a text", buffer[shown], '\0');
        for (size_t i = shown + 1; i < size; i++)
            is("only the text is written", (unsigned char)buffer[i], FILL);
        is_rest_kept("a text", BUFFER);
    }
    for (int kind = -1; kind < 6; kind++) {
        char *buffer = in(BUFFER, 2);
        is("no text", (long long)enip_status_text(kind, 0x10000 + 77, buffer, 2), 0);
        is("no text", buffer[0] == '\0' && (unsigned char)buffer[1] == FILL, 1);
        is_rest_kept("no text", BUFFER);
    }
}

int main(void) {
    static char output[1 << 16];
    enip_endings *endings;
    setvbuf(stdout, output, _IOFBF, sizeof output);
    if (!map_regions() || enip_adapter_new(configuration, sizeof configuration - 1, &adapter, NULL) != ENIP_OK
        || enip_endings_new(&endings) != ENIP_OK || enip_adapter_write(adapter, 100, 0, "\1\2\3\4", 4) != ENIP_OK)
        return 9;
    for (at_end = 1; at_end >= 0; at_end--) {
        datagrams();
        conversation();
        refused_opening();
        device_side(endings);
        commands();
        owned();
        refused(100);
        refused(511);
        refused(512);
        refused(513);
        texts();
    }
    is("free", enip_endings_free(endings), ENIP_OK);
    is("free", enip_adapter_free(adapter), ENIP_OK);
    printf("%d passed, %d failed\n", passed, failed);
    return failed != 0;
}
