/*
 * Numbered commands: a commander, a client and a device with a command ledger in one process.
 *
 *     once           checks what each call does and returns. Prints `N passed, M failed`.
 *     once ROUNDS    gives so many commands, and sends each twice. Exits with 5 if memory is refused.
 */
#include <enip.h>
#include <stdio.h>
#include <stdlib.h>
#include <string.h>

static int passed, failed;

static void is(const char *what, long long got, long long wanted) {
    if (got == wanted) {
        passed++;
    } else {
        failed++;
        printf("once: %s: %lld instead of %lld\n", what, got, wanted);
    }
}

enum { LIFE = 7, SLOTS = 2, LONGEST = 478 };

static const uint64_t originator = UINT64_C(0x0123456789abcdef);

static const char configuration[] =
    "vendor = 4660\ndevice_type = 43\nproduct_code = 7\nmajor = 2\nminor = 5\nserial = 1\nname = \"M\"\n"
    "address = [127, 0, 0, 1]\npeers = 4\n[counter]\nlimit = 1000000\n[ledger]\noriginators = 2\nlife = 7\n";

/* Add 5 to the counter, Add 7, and Get_Last of an originator that has no slot. */
static const unsigned char add_5[] = {0x32, 0x02, 0x20, 0x64, 0x24, 0x01, 5, 0, 0, 0};
static const unsigned char add_7[] = {0x32, 0x02, 0x20, 0x64, 0x24, 0x01, 7, 0, 0, 0};
static const unsigned char get_last[] = {0x4c, 0x02, 0x20, 0x65, 0x24, 0x01, 9, 9, 9, 9, 9, 9, 9, 9};

static enip_adapter *device;
static uint32_t peer;
static enip_client *client;
static enip_once *once;
static enip_heard heard;
static enip_outcome outcome;
static unsigned char frame[ENIP_FRAME_ROOM], answer[ENIP_ANSWER_ROOM], reply[ENIP_REPLY_ROOM];
static unsigned char message[ENIP_MESSAGE_ROOM], embedded[ENIP_REPLY_ROOM], request[LONGEST];
static size_t count, size;

/* Passes the frame that a call wrote to the device, and its answer to the client. */
static void exchange(int status) {
    enip_fed fed;
    is("a frame is written", status, ENIP_OK);
    is("the device takes it", enip_adapter_feed(device, 1, peer, frame, count, answer, sizeof answer, &fed), ENIP_OK);
    is("the client takes the answer",
       enip_client_feed(client, answer, fed.answer, reply, sizeof reply, &heard), ENIP_OK);
}

/* A new connection to the device, in place of the old one. */
static void connect_again(uint16_t t_to_o_size) {
    const enip_wants wants = {.rpi = 1000000, .o_to_t_size = 600, .t_to_o_size = t_to_o_size};
    int status;
    enip_client_free(client);
    client = NULL;
    enip_adapter_end(device, peer);
    is("a peer", enip_adapter_begin(device, &peer), ENIP_OK);
    if ((status = enip_client_new(&wants, &client)) == ENIP_MEMORY)
        exit(5);
    is("a client", status, ENIP_OK);
    exchange(enip_client_register(client, frame, sizeof frame, &count));
}

static void make_once(uint64_t life, uint64_t who, uint32_t last_number) {
    int status;
    enip_once_free(once);
    once = NULL;
    if ((status = enip_once_new(life, who, last_number, &once)) == ENIP_MEMORY)
        exit(5);
    is("a commander", status, ENIP_OK);
}

static int command(const unsigned char *bytes, size_t length) {
    return enip_once_command(once, bytes, length, message, sizeof message, &size);
}

/* Sends the message unconnected, and takes the reply. */
static void send_message(void) {
    exchange(enip_client_ask(client, message, size, frame, sizeof frame, &count));
    is("a reply", enip_once_receive(once, reply, heard.reply, embedded, sizeof embedded, &outcome), ENIP_OK);
}

static void is_outcome(const char *what, uint32_t kind, uint32_t general, size_t length) {
    is(what, outcome.kind, kind);
    is(what, outcome.general, general);
    is(what, (long long)outcome.reply, (long long)length);
}

/* What a reply of these bytes says. */
static void receive(const char *what, const char *bytes, size_t length, uint32_t kind, uint32_t general, size_t inner) {
    is(what, enip_once_receive(once, bytes, length, embedded, sizeof embedded, &outcome), ENIP_OK);
    is_outcome(what, kind, general, inner);
}

/* What a reply of these bytes says to Withdraw. */
static void withdrawn(const char *what, const char *bytes, size_t length, uint32_t kind, uint32_t general,
                      size_t inner) {
    is(what, enip_once_withdrawn(once, bytes, length, embedded, sizeof embedded, &outcome), ENIP_OK);
    is_outcome(what, kind, general, inner);
}

/* Withdraws the pending command from the device. */
static void withdraw(const char *what, uint32_t kind, uint32_t general, size_t inner) {
    is(what, enip_once_withdraw(once, message, sizeof message, &size), ENIP_OK);
    exchange(enip_client_ask(client, message, size, frame, sizeof frame, &count));
    withdrawn(what, (const char *)reply, heard.reply, kind, general, inner);
}

static void has_values(const char *what, uint64_t life, uint64_t who, uint32_t last_number) {
    uint64_t its_life, its_originator;
    uint32_t its_number;
    is(what, enip_once_values(once, &its_life, &its_originator, &its_number), ENIP_OK);
    is(what, its_life == life && its_originator == who && its_number == last_number, 1);
}

/* Whether the command with these bytes is pending; none if there are none. */
static void is_pending(const char *what, const unsigned char *bytes, size_t length) {
    size_t its_length = 0;
    int status = enip_once_request(once, request, sizeof request, &its_length);
    is(what, status, length > 0 ? ENIP_OK : ENIP_ABSENT);
    is(what, its_length == length && (length == 0 || memcmp(request, bytes, length) == 0), 1);
}

static uint32_t counter(void) {
    unsigned char value[4];
    enip_adapter_read(device, 0x64, 1, 1, value, sizeof value, &count);
    return value[0] | (uint32_t)value[1] << 8 | (uint32_t)value[2] << 16 | (uint32_t)value[3] << 24;
}

/* The table of docs/PROTOCOL.md: what a message is, and the reply of an execution. */
static void one_command(void) {
    const unsigned char wanted[] = {0x4b, 0x02, 0x20, 0x65, 0x24, 0x01, 7,    0,    0,    0,    0,    0,
                                    0,    0,    0xef, 0xcd, 0xab, 0x89, 0x67, 0x45, 0x23, 0x01, 42,   0,
                                    0,    0,    0x32, 0x02, 0x20, 0x64, 0x24, 0x01, 5,    0,    0,    0};
    const unsigned char done[] = {0xb2, 0, 0, 0, 5, 0, 0, 0};
    make_once(LIFE, originator, 41);
    has_values("a new commander", LIFE, originator, 41);
    is_pending("a new commander", NULL, 0);
    is("nothing to send again", enip_once_resend(once, message, sizeof message, &size), ENIP_ABSENT);
    is("a command", command(add_5, sizeof add_5), ENIP_OK);
    is("its message", size == sizeof wanted && memcmp(message, wanted, sizeof wanted) == 0, 1);
    has_values("it has the next number", LIFE, originator, 42);
    is_pending("a command", add_5, sizeof add_5);
    is("a second command", command(add_7, sizeof add_7), ENIP_WAITING);
    is_pending("a second command", add_5, sizeof add_5);
    has_values("a second command", LIFE, originator, 42);
    send_message();
    is_outcome("it is done", ENIP_ONCE_DONE, 0, sizeof done);
    is("its reply", memcmp(embedded, done, sizeof done), 0);
    is("it is executed", counter(), 5);
    is_pending("it is done", NULL, 0);
    has_values("it is done", LIFE, originator, 42);
    receive("its reply again", (const char *)reply, heard.reply, ENIP_ONCE_NOTHING, 0, 0);
    is("nothing to give up", enip_once_abandon(once), ENIP_ABSENT);
}

/* The answer is lost with its connection, and the message goes over a new one. */
static void lost_connection(void) {
    unsigned char first[ENIP_MESSAGE_ROOM];
    size_t length;
    is("a command", command(add_7, sizeof add_7), ENIP_OK);
    length = size;
    memcpy(first, message, size);
    exchange(enip_client_ask(client, message, size, frame, sizeof frame, &count));
    is("it is executed", counter(), 12);
    connect_again(600);
    is("it is sent again", enip_once_resend(once, message, sizeof message, &size), ENIP_OK);
    is("the same bytes", size == length && memcmp(message, first, length) == 0, 1);
    send_message();
    is_outcome("it is done", ENIP_ONCE_DONE, 0, 8);
    is("it is executed once", counter(), 12);
    /* after a kill */
    is("a command", command(add_5, sizeof add_5), ENIP_OK);
    length = size;
    memcpy(first, message, size);
    enip_once_free(once);
    once = NULL;
    is("resumed", enip_once_resume(LIFE, originator, 44, add_5, sizeof add_5, &once), ENIP_OK);
    has_values("resumed", LIFE, originator, 44);
    is_pending("resumed", add_5, sizeof add_5);
    is("resumed", enip_once_resend(once, message, sizeof message, &size), ENIP_OK);
    is("the same bytes", size == length && memcmp(message, first, length) == 0, 1);
    send_message();
    is_outcome("it is done", ENIP_ONCE_DONE, 0, 8);
    is("it is executed once", counter(), 17);
}

/* Each status of the ledger. The command is pending after each. */
static void refusals(void) {
    static const unsigned char get_life[] = {0x0e, 0x03, 0x20, 0x65, 0x24, 0x01, 0x30, 0x03};
    exchange(enip_client_ask(client, get_life, sizeof get_life, frame, sizeof frame, &count));
    is("the life", heard.reply == 12 && reply[4] == LIFE && reply[5] == 0, 1);
    make_once(LIFE + 1, originator, 100);
    command(add_5, sizeof add_5);
    send_message();
    is_outcome("another life", ENIP_ONCE_REFUSED, ENIP_LEDGER_LIFE, 0);
    is_pending("another life", add_5, sizeof add_5);
    make_once(LIFE, originator, 42);
    command(add_5, sizeof add_5);
    send_message();
    is_outcome("a smaller number", ENIP_ONCE_REFUSED, ENIP_LEDGER_NUMBER, 0);
    is_pending("a smaller number", add_5, sizeof add_5);
    for (uint64_t who = 1; who < SLOTS; who++) {
        make_once(LIFE, who, 0);
        command(add_5, sizeof add_5);
        send_message();
        is_outcome("another originator", ENIP_ONCE_DONE, 0, 8);
    }
    make_once(LIFE, SLOTS, 0);
    command(add_5, sizeof add_5);
    send_message();
    is_outcome("no slot", ENIP_ONCE_REFUSED, ENIP_LEDGER_SLOTS, 0);
    is_pending("no slot", add_5, sizeof add_5);
    exchange(enip_client_ask(client, get_last, sizeof get_last, frame, sizeof frame, &count));
    is("an originator without a slot", heard.general, ENIP_LEDGER_ORIGINATOR);
    is("what was refused is not executed", counter(), 22);
}

/* On a class 3 connection, whose T->O size is 487 bytes at least: the count, and the longest reply. */
static void connected(void) {
    make_once(LIFE, originator, 50);
    command(add_5, sizeof add_5);
    for (uint16_t t_to_o_size = 486; t_to_o_size <= 487; t_to_o_size++) {
        connect_again(t_to_o_size);
        exchange(enip_client_open(client, frame, sizeof frame, &count));
        is("a connection", heard.kind, ENIP_HEARD_OPENED);
        exchange(enip_client_submit(client, message, size, frame, sizeof frame, &count));
        is("a reply", enip_once_receive(once, reply, heard.reply, embedded, sizeof embedded, &outcome), ENIP_OK);
        if (t_to_o_size == 486)
            is_outcome("a small connection", ENIP_ONCE_REFUSED, ENIP_LEDGER_SIZE, 0);
    }
    is_outcome("a connection", ENIP_ONCE_DONE, 0, 8);
    is("it is executed once", counter(), 27);
    /* a refusal of the embedded request is a reply too: there is no class 0x66 */
    command((const unsigned char *)"\x0e\x02\x20\x66\x24\x01", 6);
    send_message();
    is_outcome("an embedded refusal", ENIP_ONCE_DONE, 0x05, 4);
    is("an embedded refusal", memcmp(embedded, "\x8e\0\5\0", 4), 0);
}

/* What is not a reply that ends the command. */
static void other_replies(void) {
    make_once(LIFE, originator, 60);
    receive("nothing is pending", "\xcb\0\0\0\0\xb2\0\0\0", 9, ENIP_ONCE_NOTHING, 0, 0);
    command(add_5, sizeof add_5);
    receive("one byte", "\xcb", 1, ENIP_ONCE_MALFORMED, 0, 0);
    receive("no state", "\xcb\0\0\0", 4, ENIP_ONCE_MALFORMED, 0, 0);
    receive("another state", "\xcb\0\0\0\4", 5, ENIP_ONCE_MALFORMED, 0, 0);
    receive("another service", "\xcc\0\0\0\0\xb2\0\0\0", 9, ENIP_ONCE_MALFORMED, 0, 0);
    receive("a request", "\x4b\0\0\0\0\xb2\0\0\0", 9, ENIP_ONCE_MALFORMED, 0, 0);
    receive("pending", "\xcb\0\0\0\1", 5, ENIP_ONCE_PENDING, 0, 0);
    receive("in doubt", "\xcb\0\0\0\2", 5, ENIP_ONCE_IN_DOUBT, 0, 0);
    receive("refused", "\xcb\0\x08\0", 4, ENIP_ONCE_REFUSED, 0x08, 0);
    receive("refused, with data", "\xcb\0\x10\0\0", 5, ENIP_ONCE_REFUSED, 0x10, 0);
    is_pending("after all of these", add_5, sizeof add_5);
    memset(embedded, 9, sizeof embedded);
    outcome.kind = 77;
    is("a small buffer", enip_once_receive(once, "\xcb\0\0\0\0\xb2\0\0\0", 9, embedded, 8, &outcome), ENIP_ROOM);
    is("a small buffer", outcome.kind == 77 && embedded[0] == 9, 1);
    is_pending("a small buffer", add_5, sizeof add_5);
    is("a large one", enip_once_receive(once, "\xcb\0\0\0\0\xb2\0\3\0", 9, embedded, 9, &outcome), ENIP_OK);
    is_outcome("done", ENIP_ONCE_DONE, 3, 4);
    is("only its bytes", embedded[0] == 0xb2 && embedded[2] == 3 && embedded[4] == 9, 1);
    command(add_5, sizeof add_5);
    receive("an empty reply", "\xcb\0\0\0\0", 5, ENIP_ONCE_DONE, 0, 0);
    is_pending("an empty reply", NULL, 0);
    command(add_5, sizeof add_5);
    receive("withdrawn by another", "\xcb\0\0\0\3", 5, ENIP_ONCE_WITHDRAWN, 0, 0);
    is_pending("withdrawn by another", NULL, 0);
}

/* What the replies to Withdraw say, and which of them end the command. */
static void withdrawals(void) {
    static const unsigned char wanted[] = {0x4f, 2, 0x20, 0x65, 0x24, 1, LIFE, 0, 0, 0, 0, 0, 0, 0};
    make_once(LIFE, originator, 70);
    is("nothing to withdraw", enip_once_withdraw(once, message, sizeof message, &size), ENIP_ABSENT);
    withdrawn("nothing is pending", "\xcf\0\0\0\3", 5, ENIP_ONCE_NOTHING, 0, 0);
    command(add_5, sizeof add_5);
    is("a small buffer", enip_once_withdraw(once, message, 25, &size), ENIP_ROOM);
    is("withdraw", enip_once_withdraw(once, message, 26, &size), ENIP_OK);
    is("its message", size == 26 && memcmp(message, wanted, sizeof wanted) == 0 && message[22] == 71, 1);
    withdrawn("one byte", "\xcf", 1, ENIP_ONCE_MALFORMED, 0, 0);
    withdrawn("no state", "\xcf\0\0\0", 4, ENIP_ONCE_MALFORMED, 0, 0);
    withdrawn("another state", "\xcf\0\0\0\4", 5, ENIP_ONCE_MALFORMED, 0, 0);
    withdrawn("a reply to the command", "\xcb\0\0\0\3", 5, ENIP_ONCE_MALFORMED, 0, 0);
    withdrawn("handed over", "\xcf\0\0\0\1", 5, ENIP_ONCE_PENDING, 0, 0);
    withdrawn("in doubt", "\xcf\0\0\0\2", 5, ENIP_ONCE_IN_DOUBT, 0, 0);
    withdrawn("a smaller number", "\xcf\0\x0c\0", 4, ENIP_ONCE_SMALLER, 0x0c, 0);
    withdrawn("another life", "\xcf\0\x10\0", 4, ENIP_ONCE_OTHER_LIFE, 0x10, 0);
    withdrawn("an older device", "\xcf\0\x08\0", 4, ENIP_ONCE_REFUSED, 0x08, 0);
    is_pending("after all of these", add_5, sizeof add_5);
    memset(embedded, 9, sizeof embedded);
    outcome.kind = 77;
    is("a small buffer", enip_once_withdrawn(once, "\xcf\0\0\0\0\xb2\0\0\0", 9, embedded, 8, &outcome), ENIP_ROOM);
    is("a small buffer", outcome.kind == 77 && embedded[0] == 9, 1);
    withdrawn("done", "\xcf\0\0\0\0\xb2\0\3\0", 9, ENIP_ONCE_DONE, 3, 4);
    is("its reply", memcmp(embedded, "\xb2\0\3\0", 4), 0);
    is_pending("done", NULL, 0);
    command(add_5, sizeof add_5);
    withdrawn("withdrawn", "\xcf\0\0\0\3", 5, ENIP_ONCE_WITHDRAWN, 0, 0);
    is_pending("withdrawn", NULL, 0);
    has_values("withdrawn", LIFE, originator, 72);
}

/* At the device: a command that did not reach it, and one whose answer was lost. */
static void withdrawn_at_the_device(void) {
    unsigned char first[ENIP_MESSAGE_ROOM];
    size_t length;
    const int before = counter();
    make_once(LIFE, originator, 80);
    command(add_5, sizeof add_5);
    length = size;
    memcpy(first, message, size);
    withdraw("it did not arrive", ENIP_ONCE_WITHDRAWN, 0, 0);
    is_pending("it did not arrive", NULL, 0);
    exchange(enip_client_ask(client, first, length, frame, sizeof frame, &count));
    is("it arrives later", heard.reply == 5 && reply[4] == 3, 1);
    is("it is not executed", counter(), before);
    command(add_5, sizeof add_5);
    exchange(enip_client_ask(client, message, size, frame, sizeof frame, &count));
    withdraw("it was executed", ENIP_ONCE_DONE, 0, 8);
    is_pending("it was executed", NULL, 0);
    is("it was executed", counter(), before + 5);
    make_once(LIFE, originator, 80);
    command(add_5, sizeof add_5);
    withdraw("a smaller number", ENIP_ONCE_SMALLER, 0x0c, 0);
    make_once(LIFE + 1, originator, 90);
    command(add_5, sizeof add_5);
    withdraw("another life", ENIP_ONCE_OTHER_LIFE, 0x10, 0);
    is_pending("another life", add_5, sizeof add_5);
    make_once(LIFE, SLOTS, 0);
    command(add_5, sizeof add_5);
    withdraw("no slot", ENIP_ONCE_REFUSED, ENIP_LEDGER_SLOTS, 0);
    is("what was withdrawn is not executed", counter(), before + 5);
}

/* Each refusal of a command, and each pair of neighbours in the order of the checks. */
static void refused_commands(void) {
    static unsigned char longest[LONGEST + 1] = {0x32}, marked[LONGEST + 1] = {0x80};
    make_once(LIFE, originator, UINT32_MAX - 1);
    is("one byte", command(add_5, 1), ENIP_REQUEST);
    is("bit 7", command(marked, 2), ENIP_REQUEST);
    is("bit 7, and too long", command(marked, sizeof marked), ENIP_REQUEST);
    is("too long", command(longest, sizeof longest), ENIP_LONG_REQUEST);
    size = 77;
    message[0] = 9;
    is("a small buffer", enip_once_command(once, add_5, sizeof add_5, message, sizeof message - 1, &size), ENIP_ROOM);
    is("a small buffer", size == 77 && message[0] == 9, 1);
    is("a small buffer, and one byte", enip_once_command(once, add_5, 1, message, 1, &size), ENIP_ROOM);
    has_values("no number is taken", LIFE, originator, UINT32_MAX - 1);
    is_pending("no number is taken", NULL, 0);
    is("the longest", command(longest, LONGEST), ENIP_OK);
    is("the longest", size == ENIP_MESSAGE_ROOM && message[0] == 0x4b && message[25] == 0xff, 1);
    is("pending, and one byte", command(add_5, 1), ENIP_WAITING);
    is("small buffers", enip_once_resend(once, embedded, ENIP_MESSAGE_ROOM - 1, &size), ENIP_ROOM);
    is("small buffers", enip_once_request(once, embedded, LONGEST - 1, &size), ENIP_ROOM);
    is("large enough", enip_once_resend(once, embedded, ENIP_MESSAGE_ROOM, &size), ENIP_OK);
    is("given up", enip_once_abandon(once), ENIP_OK);
    is_pending("given up", NULL, 0);
    has_values("its number is not used again", LIFE, originator, UINT32_MAX);
    is("no number is left", command(add_5, sizeof add_5), ENIP_NUMBERS);
    is("no number is left, and too long", command(longest, sizeof longest), ENIP_LONG_REQUEST);
    make_once(LIFE, originator, 0);
    is("the shortest", command(add_5, 2), ENIP_OK);
}

static void refused_resumptions(void) {
    static unsigned char longest[LONGEST + 1] = {0x32}, marked[2] = {0xff};
    enip_once *none = NULL;
    is("one byte", enip_once_resume(LIFE, 1, 1, add_5, 1, &none), ENIP_REQUEST);
    is("bit 7", enip_once_resume(LIFE, 1, 1, marked, 2, &none), ENIP_REQUEST);
    is("too long", enip_once_resume(LIFE, 1, 1, longest, sizeof longest, &none), ENIP_LONG_REQUEST);
    is("nothing was made", none == NULL, 1);
    is("the longest", enip_once_resume(LIFE, 1, UINT32_MAX, longest, LONGEST, &none), ENIP_OK);
    enip_once_free(none);
}

int main(int argument_count, char **arguments) {
    int rounds = argument_count == 2 ? atoi(arguments[1]) : 0;
    int status = enip_adapter_new(configuration, sizeof configuration - 1, &device, NULL);
    if (status != ENIP_OK)
        return 5;
    connect_again(600);
    if (rounds > 0) {
        make_once(LIFE, originator, 0);
        for (int round = 1; round <= rounds; round++) {
            command(add_5, sizeof add_5);
            exchange(enip_client_ask(client, message, size, frame, sizeof frame, &count));
            enip_once_resend(once, message, sizeof message, &size);
            send_message();
            is("a round", counter(), 5 * round);
            command(add_5, 1);
            is_pending("a round", NULL, 0);
        }
        enip_once_abandon(once);
    } else {
        one_command();
        lost_connection();
        refusals();
        connected();
        other_replies();
        withdrawals();
        withdrawn_at_the_device();
        refused_commands();
        refused_resumptions();
        printf("%d passed, %d failed\n", passed, failed);
    }
    enip_once_free(once);
    enip_client_free(client);
    enip_adapter_free(device);
    return failed != 0;
}
