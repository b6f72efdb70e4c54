/*
 * An adapter that is kept over restarts: its state as bytes, what changes its generation, each state that is refused,
 * and commands in doubt. Prints `N passed, M failed`.
 *
 *     saved            checks what each call does and returns
 *     saved ROUNDS     serves so many commands, each saved twice (for measurements)
 */
#include <enip.h>
#include <stdio.h>
#include <stdlib.h>
#include <string.h>

static int passed, failed;

static void is(const char *what, long long got, long long wanted) {
    if (got == wanted) {
        passed++;
    } else {
        failed++;
        printf("saved: %s: %lld instead of %lld\n", what, got, wanted);
    }
}

#define IDENTITY(vendor, product, serial)                                                             \
    "vendor = " vendor "\ndevice_type = 43\nproduct_code = " product "\nmajor = 2\nminor = 5\nserial = " serial "\n"
#define REST "name = \"M\"\naddress = [127, 0, 0, 1]\n[counter]\nlimit = 1000\n"
#define LEDGER "[ledger]\noriginators = 2\nlife = 3\n"
#define DATA "[[assembly]]\ninstance = 100\nsettable = true\nmembers = [4]\n"
#define MACHINE                                                                                         \
    "[[object]]\nclass = 768\ninstance = 1\n[[object.attribute]]\nnumber = 1\ntype = \"UINT\"\nsettable = true\n" \
    "[[object.service]]\nnumber = 50\nsize = 4\nreply = 4\n"

static const char configuration[] = IDENTITY("4660", "7", "1") REST LEDGER DATA MACHINE;

enum { FIRST_LIFE = 11, LATER_LIFE = 12, ORIGINATOR = 77, ROOM = 8192 };

/* The data of assembly 100, and the speed of the machine. */
static const uint16_t data[] = {4, 100, 3}, speed[] = {768, 1, 1};

/* A move of 5: the machine's service 50. Its reply is a success with the position. */
static const unsigned char move[] = {0x32, 0x03, 0x21, 0x00, 0x00, 0x03, 0x24, 0x01, 5, 0, 0, 0};
static const unsigned char moved[] = {0xb2, 0, 0, 0, 5, 0, 0, 0};

/* An Add of 5 to the counter. */
static const unsigned char add[] = {0x32, 0x02, 0x20, 0x64, 0x24, 0x01, 5, 0, 0, 0};

static enip_adapter *adapter;
static uint32_t peer;
static unsigned char buffer[ENIP_ANSWER_ROOM];
static enip_fed fed;

/* The last saved state, as a device has it in its flash. */
static unsigned char state[ROOM];
static size_t state_size;
static uint64_t state_generation;

/* The states that the owner saved while it was asked. */
static unsigned char asked_state[ROOM];
static size_t asked_size;
static int moves;

static uint64_t generation(void) {
    uint64_t number = 0;
    is("generation", enip_adapter_generation(adapter, state_size == 0 ? NULL : state, state_size, &number), ENIP_OK);
    return number;
}

/* Saves the state if anything has changed, as a device does before it sends an answer. Whether it was saved. */
static int keep(void) {
    uint64_t number = generation();
    if (number == state_generation)
        return 0;
    is("save", enip_adapter_save(adapter, number, state, sizeof state, &state_size), ENIP_OK);
    state_generation = number;
    return 1;
}

/* Registers a peer of the adapter. */
static void registers(void) {
    static const unsigned char frame[28] = {0x65, 0, 4, 0, [24] = 1};
    is("begin", enip_adapter_begin(adapter, &peer), ENIP_OK);
    is("register", enip_adapter_feed(adapter, 1, peer, frame, 28, buffer, sizeof buffer, &fed), ENIP_OK);
}

/* Starts from a state, and frees the adapter that there was. */
static void start(const void *from, size_t size) {
    enip_refusal refusal;
    enip_adapter_free(adapter);
    adapter = NULL;
    is("start", enip_adapter_new_kept(configuration, sizeof configuration - 1, from, size,
                                      size == 0 ? FIRST_LIFE : LATER_LIFE, &adapter, &refusal), ENIP_OK);
    registers();
}

/* Starts again from the last saved state. */
static void restart(void) {
    start(state, state_size);
}

static uint64_t value(const uint16_t *at) {
    unsigned char bytes[8] = {0};
    size_t count = 0;
    uint64_t number = 0;
    is("read", enip_adapter_read(adapter, at[0], at[1], at[2], bytes, sizeof bytes, &count), ENIP_OK);
    while (count-- > 0)
        number = number << 8 | bytes[count];
    return number;
}

/* The owner: it finds out which command it is asked, saves the state with it in doubt, and moves. */
static int owner(void *context, const enip_asked *asked, enip_reply *reply) {
    uint64_t originator = 0, number = 0, next = 0;
    uint32_t command = 0;
    const int *is_numbered = context;
    is("its command", enip_adapter_asked_command(adapter, &originator, &command), *is_numbered ? ENIP_OK : ENIP_ABSENT);
    is("its originator", (long long)originator, *is_numbered ? ORIGINATOR : 0);
    number = command;
    is("its number", number > 0, *is_numbered);
    is("in doubt already", enip_adapter_in_doubt(adapter, 0, &originator, &command), ENIP_ABSENT);
    is("generation", enip_adapter_generation(adapter, state, state_size, &next), ENIP_OK);
    is("a command changes the generation", next != state_generation, *is_numbered);
    is("save", enip_adapter_save(adapter, next, asked_state, sizeof asked_state, &asked_size), ENIP_OK);
    is("settle", enip_adapter_settle(adapter, ORIGINATOR, command, moved, sizeof moved), ENIP_MISUSE);
    moves++;
    memcpy(reply->data, asked->data, 4);
    reply->length = 4;
    return 0;
}

/* Sends a request, unconnected: the size of its reply, which begins at buffer + 40. */
static size_t ask(const void *request, size_t size, int is_numbered) {
    unsigned char frame[600] = {0x6f, [30] = 2, [36] = 0xb2};
    frame[2] = (unsigned char)(16 + size);
    frame[3] = (unsigned char)((16 + size) >> 8);
    memcpy(frame + 4, &peer, 4);
    frame[38] = (unsigned char)size;
    frame[39] = (unsigned char)(size >> 8);
    memcpy(frame + 40, request, size);
    is("serve",
       enip_adapter_serve(adapter, 1, peer, frame, 40 + size, buffer, sizeof buffer, owner, &is_numbered, &fed),
       ENIP_OK);
    return fed.answer > 40 ? fed.answer - 40 : 0;
}

/* The life of the ledger, as a peer reads it. */
static uint64_t life(void) {
    static const unsigned char get[] = {0x0e, 0x03, 0x20, 0x65, 0x24, 0x01, 0x30, 0x03};
    uint64_t number = 0;
    if (ask(get, sizeof get, 0) == 12)
        memcpy(&number, buffer + 44, 8);
    return number;
}

/* The adapter's first state, and what its size is. */
static void first_state(void) {
    unsigned char small[ROOM];
    size_t count = 0;
    uint64_t number;
    start(NULL, 0);
    is("the first life", (long long)life(), FIRST_LIFE);
    is("the first generation", (long long)generation(), 1);
    is("saved", keep(), 1);
    is("kept", keep(), 0);
    memset(small, 0xa5, sizeof small);
    is("no room", enip_adapter_save(adapter, 1, small, state_size - 1, &count), ENIP_ROOM);
    is("the size that it needs", (long long)count, (long long)state_size);
    is("nothing is written", small[0] == 0xa5 && memcmp(small, small + 1, sizeof small - 1) == 0, 1);
    is("just room", enip_adapter_save(adapter, 1, small, state_size, &count), ENIP_OK);
    is("the same bytes", memcmp(small, state, state_size), 0);
    is("nothing behind them", small[state_size], 0xa5);
    /* the mark, the version, the size and the generation: docs/STATE.md */
    is("the mark", memcmp(state, "SOMBIKPT\1\0\0\0", 12), 0);
    memcpy(&number, state + 16, 8);
    is("its generation", (long long)number, 1);
    is("its size", state[12] + 256 * state[13], (long long)state_size);
}

/* What changes the generation: a change of what is kept, and nothing else. */
static void generations(void) {
    static const unsigned char get[] = {0x0e, 0x03, 0x20, 0x04, 0x24, 0x64, 0x30, 0x03};
    static const unsigned char set[] = {0x10, 0x03, 0x20, 0x04, 0x24, 0x64, 0x30, 0x03, 1, 2, 3, 4};
    uint64_t before = state_generation;
    is("a get", (long long)ask(get, sizeof get, 0), 8);
    is("a get keeps the generation", keep(), 0);
    ask(set, sizeof set, 0);
    is("a set", (long long)generation(), (long long)before + 1);
    is("nothing is saved yet", (long long)generation(), (long long)before + 1);
    is("a set is saved", keep(), 1);
    ask(set, sizeof set, 0);
    is("the same value again", keep(), 0);
    ask(add, sizeof add, 0);
    is("an Add", keep(), 1);
    is("the device's status", enip_adapter_set_status(adapter, 4), ENIP_OK);
    is("it is not kept", keep(), 0);
    is("a write of the device", enip_adapter_write_attribute(adapter, 768, 1, 1, 0, "\x10\x27", 2), ENIP_OK);
    is("it is kept", keep(), 1);
    is("three changes", (long long)state_generation, (long long)before + 3);
    restart();
    is("nothing has changed", keep(), 0);
    is("the data", (long long)value(data), 0x04030201);
    is("the speed", (long long)value(speed), 10000);
    is("the life goes on", (long long)life(), FIRST_LIFE);
}

/* A state of so many bytes that is refused by this check: nothing is made. */
static void refused(const char *what, const char *text, const void *from, size_t size, int status, uint32_t number,
                    const char *why) {
    enip_adapter *made = (void *)state;
    enip_refusal refusal = {99, ""};
    is(what, enip_adapter_new_kept(text, strlen(text), from, size, LATER_LIFE, &made, &refusal), status);
    is(what, refusal.number, number);
    is(what, why == NULL ? refusal.text[0] != 0 : strcmp(refusal.text, why) == 0, 1);
    is(what, made == (void *)state, 1);
    is(what, enip_adapter_new_kept(text, strlen(text), from, size, LATER_LIFE, &made, NULL), status);
}

/* Each byte of the state changed, and each length. */
static void damaged(void) {
    unsigned char other[ROOM];
    uint64_t number = 0;
    for (size_t at = 0; at < state_size; at++) {
        uint32_t check = at < 8 ? ENIP_SAVED_NOT_A_STATE : at < 12 ? ENIP_SAVED_VERSION : ENIP_SAVED_CHECKSUM;
        memcpy(other, state, state_size);
        other[at]++;
        if (at >= 12 && at < 16)
            check = other[at] > state[at] ? ENIP_SAVED_CUT : ENIP_SAVED_TOO_LONG;
        refused("a changed byte", configuration, other, state_size, ENIP_SAVED_STATE, check, NULL);
    }
    memcpy(other, state, state_size);
    other[state_size] = 0;
    for (size_t size = 1; size < state_size; size++)
        refused("a cut state", configuration, other, size, ENIP_SAVED_STATE,
                size < 8 ? ENIP_SAVED_NOT_A_STATE : ENIP_SAVED_CUT, NULL);
    refused("no byte", configuration, other, 1, ENIP_SAVED_STATE, ENIP_SAVED_NOT_A_STATE, "not a saved state");
    refused("a byte more", configuration, other, state_size + 1, ENIP_SAVED_STATE, ENIP_SAVED_TOO_LONG,
            "bytes follow the saved state");
    is("generation of no state", enip_adapter_generation(adapter, other, state_size + 1, &number), ENIP_SAVED_STATE);
    is("nothing is written", (long long)number, 0);
    other[8] = 2;
    refused("a newer version", configuration, other, state_size, ENIP_SAVED_STATE, ENIP_SAVED_VERSION,
            "the saved state has version 2 of the format, not 1");
}

/* States of other devices, and configurations that are refused. */
static void others(void) {
    static const char another[] = "the saved state is that of another device";
    refused("a vendor", IDENTITY("4661", "7", "1") REST LEDGER DATA MACHINE, state, state_size, ENIP_SAVED_STATE,
            ENIP_SAVED_DEVICE, another);
    refused("a product code", IDENTITY("4660", "8", "1") REST LEDGER DATA MACHINE, state, state_size, ENIP_SAVED_STATE,
            ENIP_SAVED_DEVICE, another);
    refused("a serial number", IDENTITY("4660", "7", "2") REST LEDGER DATA MACHINE, state, state_size,
            ENIP_SAVED_STATE, ENIP_SAVED_DEVICE, another);
    refused("a configuration", IDENTITY("4660", "7", "1") "colour = 1\n" REST, state, state_size, ENIP_CONFIGURATION,
            ENIP_CONFIG_KEY, NULL);
    refused("a list of addresses", IDENTITY("4660", "7", "1") REST "[access]\nread = [\"10.0.0.5/8\"]\n", state, state_size,
            ENIP_CONFIGURATION, ENIP_CONFIG_ACCESS, NULL);
    refused("a queue", IDENTITY("4660", "7", "1") REST "[commands]\n", state, state_size, ENIP_CONFIGURATION,
            ENIP_CONFIG_COMMANDS, "line 11: there is a table commands, but no service is queued");
    refused("a queued service", IDENTITY("4660", "7", "1") REST LEDGER DATA MACHINE "queued = true\n", state, state_size,
            ENIP_CONFIGURATION, ENIP_CONFIG_QUEUED,
            "service 0x32 of class 0x300, instance 1 is queued, and this library has no queue");
    refused("a falling order",
            IDENTITY("4660", "7", "1") REST LEDGER DATA "[[assembly]]\ninstance = 99\nmembers = [4]\n", NULL, 0, ENIP_CONFIGURATION, ENIP_CONFIG_ORDER,
            "the assemblies or the objects are not configured in rising order");
}

/* An adapter that cannot be saved: its assemblies are not in rising order. */
static void unsaved(void) {
    static const char falling[] = IDENTITY("4660", "7", "1") REST DATA "[[assembly]]\ninstance = 99\nmembers = [4]\n";
    unsigned char room[ROOM];
    enip_adapter *made = NULL;
    size_t count = 5;
    room[0] = 0xa5;
    is("new", enip_adapter_new(falling, sizeof falling - 1, &made, NULL), ENIP_OK);
    is("no state", enip_adapter_save(made, 1, room, sizeof room, &count), ENIP_STATE);
    is("nothing is written", count == 5 && room[0] == 0xa5, 1);
    is("free", enip_adapter_free(made), ENIP_OK);
}

/* Sends a message of a command, and compares what the originator learns. */
static void sent(const char *what, enip_once *once, uint32_t kind, const void *reply, size_t size) {
    unsigned char message[ENIP_MESSAGE_ROOM], answer[ENIP_ANSWER_ROOM];
    enip_outcome outcome = {0, 99, 0};
    size_t count = 0, length;
    is(what, enip_once_resend(once, message, sizeof message, &count), ENIP_OK);
    length = ask(message, count, 1);
    is(what, enip_once_receive(once, buffer + 40, length, answer, sizeof answer, &outcome), ENIP_OK);
    is(what, outcome.kind, kind);
    is(what, (long long)outcome.reply, (long long)size);
    is(what, memcmp(answer, reply, size), 0);
}

static enip_once *command(uint32_t number) {
    enip_once *once = NULL;
    unsigned char message[ENIP_MESSAGE_ROOM];
    size_t count;
    is("once", enip_once_new(FIRST_LIFE, ORIGINATOR, number - 1, &once), ENIP_OK);
    is("command", enip_once_command(once, move, sizeof move, message, sizeof message, &count), ENIP_OK);
    return once;
}

/* A command that is done is answered by the same bytes after a restart, and is not executed again. */
static void done(void) {
    enip_once *first = command(1), *again = command(1);
    moves = 0;
    sent("a command", first, ENIP_ONCE_DONE, moved, sizeof moved);
    is("it moves", moves, 1);
    is("a command is saved", keep(), 1);
    restart();
    sent("its repeat", again, ENIP_ONCE_DONE, moved, sizeof moved);
    is("it moves once", moves, 1);
    is("a repeat changes nothing", keep(), 0);
    enip_once_free(first);
    enip_once_free(again);
}

/* A command that is in doubt is never executed, and is answered once the owner has settled it. */
static void in_doubt(void) {
    static const unsigned char stopped[] = {0xb2, 0, 0x0c, 0}, three[3] = {0xb2, 0, 0}, long_reply[481] = {0xb2};
    enip_once *first = command(2), *later = command(2), *last = command(2);
    uint64_t originator = 0;
    uint32_t number = 0;
    moves = 0;
    sent("a command", first, ENIP_ONCE_DONE, moved, sizeof moved);
    is("it moves", moves, 1);
    /* the power fails before the state is saved again: the state that the owner saved before it moved is left */
    memcpy(state, asked_state, asked_size);
    state_size = asked_size;
    restart();
    state_generation = generation();
    is("no entry 1", enip_adapter_in_doubt(adapter, 1, &originator, &number), ENIP_ABSENT);
    is("it is in doubt", enip_adapter_in_doubt(adapter, 0, &originator, &number), ENIP_OK);
    is("its originator", (long long)originator, ORIGINATOR);
    is("its number", number, 2);
    sent("a repeat in doubt", later, ENIP_ONCE_IN_DOUBT, "", 0);
    is("it does not move again", moves, 1);
    is("nothing changes", keep(), 0);
    restart();
    sent("a repeat in doubt after another restart", later, ENIP_ONCE_IN_DOUBT, "", 0);
    is("another number", enip_adapter_settle(adapter, ORIGINATOR, 1, stopped, 4), ENIP_ABSENT);
    is("another originator", enip_adapter_settle(adapter, ORIGINATOR + 1, 2, stopped, 4), ENIP_ABSENT);
    is("a short reply", enip_adapter_settle(adapter, ORIGINATOR, 2, three, 3), ENIP_ABSENT);
    is("a long reply", enip_adapter_settle(adapter, ORIGINATOR, 2, long_reply, 481), ENIP_ABSENT);
    is("nothing changes", keep(), 0);
    is("settle", enip_adapter_settle(adapter, ORIGINATOR, 2, stopped, sizeof stopped), ENIP_OK);
    is("settled once", enip_adapter_settle(adapter, ORIGINATOR, 2, moved, sizeof moved), ENIP_ABSENT);
    is("no longer in doubt", enip_adapter_in_doubt(adapter, 0, &originator, &number), ENIP_ABSENT);
    is("it is saved", keep(), 1);
    sent("a repeat", later, ENIP_ONCE_DONE, stopped, sizeof stopped);
    restart();
    sent("a repeat after a restart", last, ENIP_ONCE_DONE, stopped, sizeof stopped);
    is("it moved once", moves, 1);
    enip_once_free(first);
    enip_once_free(later);
    enip_once_free(last);
}

/* Fewer slots than are kept: the ledger starts empty, in another life, so that nothing is executed twice. */
static void another_life(void) {
    static const char one[] = IDENTITY("4660", "7", "1") REST "[ledger]\noriginators = 1\n" DATA MACHINE;
    static const char none[] = IDENTITY("4660", "7", "1") REST DATA MACHINE;
    static const unsigned char forget[] = {0x4d, 0x02, 0x20, 0x65, 0x24, 0x01, 78, 0, 0, 0, 0, 0, 0, 0, 1, 0, 0, 0};
    enip_once *other = NULL;
    enip_adapter *made = NULL;
    unsigned char message[ENIP_MESSAGE_ROOM];
    size_t count;
    is("once", enip_once_new(FIRST_LIFE, 78, 0, &other), ENIP_OK);
    is("command", enip_once_command(other, add, sizeof add, message, sizeof message, &count), ENIP_OK);
    ask(message, count, 0);
    is("another originator", keep(), 1);
    restart();
    is("two slots", (long long)life(), FIRST_LIFE);
    enip_adapter_free(adapter);
    is("one slot", enip_adapter_new_kept(one, sizeof one - 1, state, state_size, LATER_LIFE, &adapter, NULL), ENIP_OK);
    registers();
    is("another life", (long long)life(), LATER_LIFE);
    is("the data are kept", (long long)value(data), 0x04030201);
    is("without a ledger", enip_adapter_new_kept(none, sizeof none - 1, state, state_size, LATER_LIFE, &made, NULL),
       ENIP_OK);
    is("free", enip_adapter_free(made), ENIP_OK);
    restart();
    ask(forget, sizeof forget, 0);
    is("a slot that is freed", keep(), 1);
    enip_once_free(other);
}

static void rounds(uint32_t count) {
    unsigned char message[ENIP_MESSAGE_ROOM];
    enip_once *once = command(1);
    size_t size;
    start(NULL, 0);
    keep();
    for (uint32_t number = 1; number <= count; number++) {
        sent("a command", once, ENIP_ONCE_DONE, moved, sizeof moved);
        keep();
        is("command", enip_once_command(once, move, sizeof move, message, sizeof message, &size), ENIP_OK);
    }
    enip_once_free(once);
}

int main(int count, char **arguments) {
    if (count == 2) {
        rounds((uint32_t)strtoul(arguments[1], NULL, 10));
    } else {
        first_state();
        generations();
        damaged();
        others();
        unsaved();
        done();
        in_doubt();
        another_life();
    }
    is("free", enip_adapter_free(adapter), ENIP_OK);
    printf("%d passed, %d failed\n", passed, failed);
    return failed != 0;
}
