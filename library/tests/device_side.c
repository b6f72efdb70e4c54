/* The device's own writes, the count of changes, and the connections that ended. Prints `N passed, M failed`. */
#include <enip.h>
#include <stdio.h>
#include <string.h>

static int passed, failed;

static void is(const char *what, long long got, long long wanted) {
    if (got == wanted) {
        passed++;
    } else {
        failed++;
        printf("device_side: %s: %lld instead of %lld\n", what, got, wanted);
    }
}

#define MISUSE(call) is(#call, call, ENIP_MISUSE)

#define DEVICE \
    "vendor = 4660\ndevice_type = 43\nproduct_code = 7\nmajor = 2\nminor = 5\nserial = 1\nname = \"M\"\n" \
    "address = [127, 0, 0, 1]\n[counter]\nlimit = 100\n" \
    "[[assembly]]\ninstance = 100\nsettable = true\nmembers = [1, 2, 1]\n" \
    "[[assembly]]\ninstance = 101\nmembers = [2]\n"
static const char configuration[] = DEVICE;

/* The same device. One address has one peer at a time. */
static const char shared[] = DEVICE "[access]\nper_address = 1\n";

/* The same device, which peers can reset. */
static const char resettable[] = DEVICE "[identity]\nreset = true\n";

/* Set_Attribute_Single of assembly 100 with 4 bytes and with 3, of assembly 101, and Set_Member 2 of assembly 100. */
static const unsigned char set_100[] = {0x10, 3, 0x20, 4, 0x24, 100, 0x30, 3, 9, 8, 7, 6};
static const unsigned char set_101[] = {0x10, 3, 0x20, 4, 0x24, 101, 0x30, 3, 9, 8};
static const unsigned char set_member[] = {0x19, 4, 0x20, 4, 0x24, 100, 0x30, 3, 0x28, 2, 5, 4};

static enip_adapter *adapter;
static enip_endings *endings;
static unsigned char buffer[ENIP_ANSWER_ROOM];
static enip_fed fed;
static uint64_t now = 1000000;

static void put_header(unsigned char *frame, unsigned char command, size_t length, uint32_t peer) {
    memset(frame, 0, 24);
    frame[0] = command;
    frame[2] = (unsigned char)length;
    frame[4] = (unsigned char)peer;
}

static void send_frame(const unsigned char *frame, size_t size, uint32_t peer) {
    is("feed", enip_adapter_feed(adapter, now, peer, frame, size, buffer, sizeof buffer, &fed), ENIP_OK);
    is("a frame is taken", (long long)fed.taken, (long long)size);
}

/* The general status of the reply to an unconnected request. */
static int ask(uint32_t peer, const unsigned char *request, size_t size) {
    unsigned char frame[128] = {0};
    put_header(frame, 0x6f, 16 + size, peer);
    frame[30] = 2;
    frame[36] = 0xb2;
    frame[38] = (unsigned char)size;
    memcpy(frame + 40, request, size);
    send_frame(frame, 40 + size, peer);
    return fed.answer > 42 ? buffer[42] : -1;
}

/* The general status of the reply to a request on a connection. */
static int submit(uint32_t peer, uint32_t connection, unsigned char count, const unsigned char *request, size_t size) {
    unsigned char frame[128] = {0};
    put_header(frame, 0x70, 22 + size, peer);
    frame[30] = 2;
    frame[32] = 0xa1;
    frame[34] = 4;
    frame[36] = (unsigned char)connection;
    frame[40] = 0xb1;
    frame[42] = (unsigned char)(size + 2);
    frame[44] = count;
    memcpy(frame + 46, request, size);
    send_frame(frame, 46 + size, peer);
    return fed.answer > 48 ? buffer[48] : -1;
}

static void register_session(uint32_t peer) {
    unsigned char frame[28] = {0};
    put_header(frame, 0x65, 4, 0);
    frame[24] = 1;
    send_frame(frame, sizeof frame, peer);
}

/* Begins a peer, and registers its session. */
static uint32_t registered(void) {
    uint32_t peer = 0;
    is("begin", enip_adapter_begin(adapter, &peer), ENIP_OK);
    register_session(peer);
    return peer;
}

/* Forward_Open: RPIs of 2 s, multiplier 0, so that it ends 10 s after the opening. */
static void open_connection(uint32_t peer, unsigned char serial) {
    unsigned char request[] = {0x54, 2, 0x20, 6, 0x24, 1, 0x0a, 0x0e, 0, 0, 0, 0, 0x44, 0x33, 0x22, 0x11, serial, 0,
                               0x42, 0, 0x78, 0x56, 0x34, 0x12, 0, 0, 0, 0, 0x80, 0x84, 0x1e, 0, 0xf4, 0x43, 0x80, 0x84,
                               0x1e, 0, 0xf4, 0x43, 0xa3, 2, 0x20, 2, 0x24, 1};
    is("an opening", ask(peer, request, sizeof request), 0);
}

static void close_connection(uint32_t peer, unsigned char serial) {
    unsigned char request[] = {0x4e, 2, 0x20, 6, 0x24, 1, 0x0a, 0x0e, serial, 0, 0x42, 0, 0x78, 0x56, 0x34, 0x12, 2, 0,
                               0x20, 2, 0x24, 1};
    is("a closing", ask(peer, request, sizeof request), 0);
}

static uint32_t changes_of(uint32_t instance) {
    uint32_t changes = 12345;
    is("changes", enip_adapter_changes(adapter, instance, &changes), ENIP_OK);
    return changes;
}

/* Checks that an update lists `count` connections of one peer, with IDs from `first` on, all ended for one reason. */
static void ended(const char *what, size_t count, uint32_t first, uint32_t peer, uint32_t why) {
    enip_ended one = {77, 77, 77};
    size_t index;
    is(what, enip_endings_update(endings, adapter), ENIP_OK);
    for (index = 0; index < count; index++) {
        is(what, enip_endings_at(endings, index, &one), ENIP_OK);
        is(what, one.connection, first + (uint32_t)index);
        is(what, one.peer, peer);
        is(what, one.why, why);
    }
    one.why = 77;
    is(what, enip_endings_at(endings, count, &one), ENIP_ABSENT);
    is("an absent entry changes nothing", one.why, 77);
}

static void writes(void) {
    const unsigned char bytes[] = {1, 2, 3};
    uint32_t peer = registered(), changes = 5;
    size_t count = 0;
    is("its own assembly", enip_adapter_write(adapter, 101, 0, bytes, 2), ENIP_OK);
    is("the rest of it", enip_adapter_write(adapter, 101, 1, bytes + 2, 1), ENIP_OK);
    is("past its end", enip_adapter_write(adapter, 101, 1, bytes, 2), ENIP_ABSENT);
    is("longer than it", enip_adapter_write(adapter, 101, 0, bytes, 3), ENIP_ABSENT);
    is("no such assembly", enip_adapter_write(adapter, 77, 0, bytes, 1), ENIP_ABSENT);
    is("read", enip_adapter_read(adapter, 4, 101, 3, buffer, sizeof buffer, &count), ENIP_OK);
    is("what was written", count == 2 && buffer[0] == 1 && buffer[1] == 3, 1);
    is("changes of no assembly", enip_adapter_changes(adapter, 77, &changes), ENIP_ABSENT);
    is("are not written", changes, 5);
    is("no peer has written", changes_of(101), 0);
    is("set", ask(peer, set_100, sizeof set_100), 0);
    is("set too short", ask(peer, set_100, sizeof set_100 - 1), 0x13);
    is("set a member", ask(peer, set_member, sizeof set_member), 0);
    is("not settable", ask(peer, set_101, sizeof set_101), 0x0e);
    is("two of them", changes_of(100), 2);
    is("none of these", changes_of(101), 0);
    open_connection(peer, 1);
    is("on a connection", submit(peer, 1, 1, set_100, sizeof set_100), 0);
    is("the same again", submit(peer, 1, 1, set_100, sizeof set_100), 0);
    is("a repeat does not count", changes_of(100), 3);
    is("the status", enip_adapter_set_status(adapter, 0x1234), ENIP_OK);
    is("the state", enip_adapter_set_state(adapter, 5), ENIP_OK);
    is("read", enip_adapter_read(adapter, 1, 1, 5, buffer, sizeof buffer, &count), ENIP_OK);
    is("the status is read", count == 2 && buffer[0] == 0x34 && buffer[1] == 0x12, 1);
    is("read", enip_adapter_read(adapter, 1, 1, 8, buffer, sizeof buffer, &count), ENIP_OK);
    is("the state is read", count == 1 && buffer[0] == 5, 1);
}

static void ends(void) {
    unsigned char frame[24];
    uint32_t peer = 1;
    ended("nothing was open at the first update", 0, 0, 0, 0);
    close_connection(peer, 1);
    ended("closed", 1, 1, peer, ENIP_ENDED_CLOSED);
    ended("listed once", 0, 0, 0, 0);
    open_connection(peer, 2);
    open_connection(peer, 3);
    ended("an opening is not listed", 0, 0, 0, 0);
    put_header(frame, 0x66, 0, peer);
    send_frame(frame, sizeof frame, peer);
    ended("unregistered", 2, 2, peer, ENIP_ENDED_SESSION);
    is("end", enip_adapter_end(adapter, peer), ENIP_OK);
    peer = registered();
    open_connection(peer, 1);
    ended("open", 0, 0, 0, 0);
    is("end", enip_adapter_end(adapter, peer), ENIP_OK);
    ended("its peer ended", 1, 4, peer, ENIP_ENDED_PEER);
    peer = registered();
    open_connection(peer, 1);
    ended("open", 0, 0, 0, 0);
    is("a microsecond before", enip_adapter_tick(adapter, now + 9999999), ENIP_OK);
    ended("a microsecond before its deadline", 0, 0, 0, 0);
    is("its deadline", enip_adapter_tick(adapter, now + 10000000), ENIP_OK);
    ended("timed out", 1, 5, peer, ENIP_ENDED_TIMED_OUT);
}

static void misused(void) {
    static uint64_t foreign[16];
    enip_ended one;
    char text[64];
    uint32_t changes;
    MISUSE(enip_adapter_write(NULL, 101, 0, "a", 1));
    MISUSE(enip_adapter_write((enip_adapter *)foreign, 101, 0, "a", 1));
    MISUSE(enip_adapter_write(adapter, 101, 0, NULL, 1));
    MISUSE(enip_adapter_write(adapter, 101, 0, "a", 0));
    MISUSE(enip_adapter_write(adapter, 101, (size_t)PTRDIFF_MAX + 1, "a", 1));
    MISUSE(enip_adapter_changes(NULL, 100, &changes));
    MISUSE(enip_adapter_changes(adapter, 100, NULL));
    MISUSE(enip_adapter_set_status(NULL, 1));
    MISUSE(enip_adapter_set_state((enip_adapter *)foreign, 1));
    MISUSE(enip_endings_new(NULL));
    MISUSE(enip_endings_update(NULL, adapter));
    MISUSE(enip_endings_update(endings, NULL));
    MISUSE(enip_endings_update((enip_endings *)adapter, adapter));
    MISUSE(enip_endings_update(endings, (enip_adapter *)endings));
    MISUSE(enip_endings_at(NULL, 0, &one));
    MISUSE(enip_endings_at(endings, 0, NULL));
    MISUSE(enip_endings_free((enip_endings *)foreign));
    is("free NULL", enip_endings_free(NULL), ENIP_OK);
    is("the text of an ending", (long long)enip_status_text(ENIP_OF_ENDING, ENIP_ENDED_CLOSED, text, sizeof text), 24);
    is("is this one", strcmp(text, "its originator closed it"), 0);
    is("no such ending", (long long)enip_status_text(ENIP_OF_ENDING, 5, text, sizeof text), 0);
}

/* The calls that only read take a const object. */
static void reads(const enip_adapter *reader, const enip_endings *list) {
    static const unsigned char list_identity[24] = {0x63};
    uint64_t deadline;
    uint32_t changes;
    uint16_t peers, connections;
    size_t count;
    enip_ended one;
    is("no deadline", enip_adapter_deadline(reader, &deadline), ENIP_ABSENT);
    is("the slots", enip_adapter_places(reader, &peers, &connections), ENIP_OK);
    is("a read", enip_adapter_read(reader, 4, 101, 3, buffer, sizeof buffer, &count), ENIP_OK);
    is("the changes", enip_adapter_changes(reader, 100, &changes), ENIP_OK);
    is("a datagram", enip_adapter_discover(reader, list_identity, 24, buffer, sizeof buffer, &count), ENIP_OK);
    is("the status and the state in its answer", buffer[56] == 0x34 && buffer[57] == 0x12 && buffer[count - 1] == 5, 1);
    is("an update", enip_endings_update(endings, reader), ENIP_OK);
    is("an empty list", enip_endings_at(list, 0, &one), ENIP_ABSENT);
}

/* A reader changes nothing, and a group has one peer at a time. */
static void readers(void) {
    static const unsigned char get_100[] = {0x0e, 3, 0x20, 4, 0x24, 100, 0x30, 3};
    static const uint8_t first[16] = {1}, last[16] = {[15] = 1};
    uint32_t reader = 0, writer = 0, none = 77;
    is("new", enip_adapter_new(shared, sizeof shared - 1, &adapter, NULL), ENIP_OK);
    is("a reader", enip_adapter_begin_as(adapter, ENIP_MAY_READ, first, &reader), ENIP_OK);
    is("the share of a group", enip_adapter_begin_as(adapter, ENIP_MAY_WRITE, first, &none), ENIP_SHARE);
    is("no peer", none, 77);
    is("a writer of another group", enip_adapter_begin_as(adapter, ENIP_MAY_WRITE, last, &writer), ENIP_OK);
    is("the share of the other group", enip_adapter_begin_as(adapter, ENIP_MAY_READ, last, &none), ENIP_SHARE);
    is("a peer of no group", enip_adapter_begin_as(adapter, ENIP_MAY_READ, NULL, &none), ENIP_OK);
    register_session(reader);
    register_session(writer);
    is("a reader reads", ask(reader, get_100, sizeof get_100), 0);
    is("a reader writes", ask(reader, set_100, sizeof set_100), 0x0f);
    is("nothing changed", changes_of(100), 0);
    is("a writer writes", ask(writer, set_100, sizeof set_100), 0);
    is("a change", changes_of(100), 1);
    is("end", enip_adapter_end(adapter, reader), ENIP_OK);
    is("the group again", enip_adapter_begin_as(adapter, ENIP_MAY_WRITE, first, &none), ENIP_OK);
    is("free", enip_adapter_free(adapter), ENIP_OK);
}

/* A reset counts, and gives what peers can set its first value. */
static void resets(void) {
    static const unsigned char reset[] = {0x05, 2, 0x20, 1, 0x24, 1, 1}, no_type[] = {0x05, 2, 0x20, 1, 0x24, 1, 2};
    uint32_t count = 5, peer;
    size_t size = 0;
    is("new", enip_adapter_new(configuration, sizeof configuration - 1, &adapter, NULL), ENIP_OK);
    peer = registered();
    is("without the key", ask(peer, reset, sizeof reset), 0x08);
    is("there is no number", enip_adapter_resets(adapter, &count), ENIP_ABSENT);
    is("and none is written", count, 5);
    is("free", enip_adapter_free(adapter), ENIP_OK);
    is("new", enip_adapter_new(resettable, sizeof resettable - 1, &adapter, NULL), ENIP_OK);
    peer = registered();
    is("resets", enip_adapter_resets(adapter, &count), ENIP_OK);
    is("none yet", count, 0);
    is("set", ask(peer, set_100, sizeof set_100), 0);
    is("no such type", ask(peer, no_type, sizeof no_type), 0x20);
    is("type 0", ask(peer, reset, sizeof reset - 1), 0);
    is("the data stay", enip_adapter_read(adapter, 4, 100, 3, buffer, sizeof buffer, &size) == ENIP_OK && buffer[0] == 9, 1);
    is("type 1", ask(peer, reset, sizeof reset), 0);
    is("the first data", enip_adapter_read(adapter, 4, 100, 3, buffer, sizeof buffer, &size) == ENIP_OK && buffer[0] == 0, 1);
    is("resets", enip_adapter_resets(adapter, &count), ENIP_OK);
    is("two of them", count, 2);
    is("it is no change", changes_of(100), 1);
    MISUSE(enip_adapter_resets(NULL, &count));
    MISUSE(enip_adapter_resets(adapter, NULL));
    is("free", enip_adapter_free(adapter), ENIP_OK);
}

int main(void) {
    readers();
    resets();
    is("new", enip_adapter_new(configuration, sizeof configuration - 1, &adapter, NULL), ENIP_OK);
    is("endings", enip_endings_new(&endings), ENIP_OK);
    writes();
    ends();
    reads(adapter, endings);
    misused();
    is("free", enip_endings_free(endings), ENIP_OK);
    is("free", enip_adapter_free(adapter), ENIP_OK);
    printf("%d passed, %d failed\n", passed, failed);
    return failed != 0;
}
