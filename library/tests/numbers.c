/* The named numbers of enip.h are those that the library returns. Prints `N passed, M failed`. */
#include <enip.h>
#include <stdio.h>
#include <string.h>

static int passed, failed;

static void is(const char *what, long long got, long long wanted) {
    if (got == wanted) {
        passed++;
    } else {
        failed++;
        printf("numbers: %s: %lld instead of %lld\n", what, got, wanted);
    }
}

#define HEAD "vendor = 1\ndevice_type = 43\nproduct_code = 1\nmajor = 1\nminor = 1\nserial = 1\naddress = [127, 0, 0, 1]\n"
#define NAME "name = \"N\"\n"
#define COUNTER "[counter]\nlimit = 9\n"
#define ASSEMBLY "[[assembly]]\ninstance = 100\n"
#define SIZES_16 "1, 1, 1, 1, 1, 1, 1, 1, 1, 1, 1, 1, 1, 1, 1, 1, "

static enip_adapter *adapter;
static unsigned char answer[ENIP_ANSWER_ROOM];

/* The check that refuses a configuration; 0 if it is accepted. */
static uint32_t refused(const char *text) {
    enip_refusal refusal = {0, ""};
    enip_adapter *made = NULL;
    int status = enip_adapter_new(text, strlen(text), &made, &refusal);
    is("a status", status, refusal.number == 0 ? ENIP_OK : ENIP_CONFIGURATION);
    is("a line of text", strlen(refusal.text) > 0, refusal.number != 0);
    enip_adapter_free(made);
    return refusal.number;
}

static void refusals(void) {
    is("a configuration", refused(HEAD NAME COUNTER), 0);
    is("a name", refused(HEAD "name = \"012345678901234567890123456789012\"\n" COUNTER), ENIP_CONFIG_NAME);
    is("a size", refused(HEAD NAME COUNTER ASSEMBLY "members = [3901]\n"), ENIP_CONFIG_SIZE);
    is("members", refused(HEAD NAME COUNTER ASSEMBLY "members = [" SIZES_16 SIZES_16 SIZES_16 SIZES_16 "1]\n"),
       ENIP_CONFIG_MEMBERS);
    is("an instance", refused(HEAD NAME COUNTER ASSEMBLY "members = [1]\n" ASSEMBLY "members = [1]\n"),
       ENIP_CONFIG_INSTANCE);
    is("a limit", refused(HEAD NAME "[counter]\nvalue = 10\nlimit = 9\n"), ENIP_CONFIG_LIMIT);
    is("TOML", refused("vendor ="), ENIP_CONFIG_TOML);
    is("a value", refused(HEAD NAME "[counter]\nlimit = -1\n"), ENIP_CONFIG_VALUE);
    is("a key", refused(HEAD NAME "colour = 1\n" COUNTER), ENIP_CONFIG_KEY);
    is("an object", refused(HEAD NAME "[[object]]\nclass = 1\ninstance = 1\n"), ENIP_CONFIG_OBJECT);
    is("an attribute",
       refused(HEAD NAME "[[object]]\nclass = 768\ninstance = 1\n[[object.attribute]]\nnumber = 0\ntype = \"UINT\"\n"),
       ENIP_CONFIG_ATTRIBUTE);
    is("a service", refused(HEAD NAME "[[object]]\nclass = 768\ninstance = 1\n[[object.service]]\nnumber = 49\nsize = 4\n"),
       ENIP_CONFIG_SERVICE);
    is("a queue", refused(HEAD NAME "[commands]\nqueue = 1\n"), ENIP_CONFIG_COMMANDS);
    is("a queued service",
       refused(HEAD NAME
               "[[object]]\nclass = 768\ninstance = 1\n[[object.service]]\nnumber = 50\nsize = 4\nqueued = true\n"),
       ENIP_CONFIG_QUEUED);
}

/* A header with this command, data length and session. */
static void put_header(unsigned char *frame, unsigned char command, unsigned char length, uint32_t session) {
    memset(frame, 0, 24);
    frame[0] = command;
    frame[2] = length;
    frame[4] = (unsigned char)session;
}

/* Why a frame gets no answer; 0 if it gets one. */
static uint32_t no_reply(uint32_t peer, const unsigned char *frame, size_t size) {
    enip_fed fed = {0, 0, 99, 0};
    is("feed", enip_adapter_feed(adapter, 1, peer, frame, size, answer, sizeof answer, &fed), ENIP_OK);
    is("an answer, or a reason", fed.answer > 0, fed.no_reply == 0);
    return fed.no_reply;
}

static void reasons(void) {
    /* SendUnitData of an item of 4 bytes to connection 9 */
    static const unsigned char item[] = {0, 0, 0, 0, 0, 0, 2, 0, 0xa1, 0, 4, 0, 9, 0, 0, 0, 0xb1, 0, 4, 0, 1, 0, 1, 0};
    unsigned char frame[64] = {0};
    uint32_t peer = 0;
    is("begin", enip_adapter_begin(adapter, &peer), ENIP_OK);
    put_header(frame, 0x65, 4, 0);
    frame[24] = 1;
    is("half a frame", no_reply(peer, frame, 14), ENIP_NO_REPLY_INCOMPLETE);
    is("the other half", no_reply(peer, frame + 14, 14), 0);
    put_header(frame, 0x63, 0, peer);
    frame[20] = 1;
    is("options", no_reply(peer, frame, 24), ENIP_NO_REPLY_OPTIONS);
    put_header(frame, 0x63, 0, peer);
    frame[8] = 1;
    is("a status", no_reply(peer, frame, 24), ENIP_NO_REPLY_STATUS);
    put_header(frame, 0x00, 0, peer);
    is("a NOP", no_reply(peer, frame, 24), ENIP_NO_REPLY_NOP);
    put_header(frame, 0x70, sizeof item, peer + 1);
    memcpy(frame + 24, item, sizeof item);
    is("another session", no_reply(peer, frame, 24 + sizeof item), ENIP_NO_REPLY_OTHER_SESSION);
    frame[4] = (unsigned char)peer;
    is("no connection", no_reply(peer, frame, 24 + sizeof item), ENIP_NO_REPLY_CONNECTION);
    frame[30] = 3;
    is("another number of items", no_reply(peer, frame, 24 + sizeof item), ENIP_NO_REPLY_MALFORMED);
    put_header(frame, 0x66, 0, peer);
    is("unregistered", no_reply(peer, frame, 24), ENIP_NO_REPLY_UNREGISTERED);
    is("closed", no_reply(peer, frame, 24), ENIP_NO_REPLY_NOT_SERVED);
    is("unknown", no_reply(peer + 1, frame, 24), ENIP_NO_REPLY_NOT_SERVED);
}

/* How many numbers from 0 to 99 of a kind have a text, and whether first to last have one. */
static void texts(const char *what, int kind, uint32_t first, uint32_t last) {
    char text[256];
    uint32_t count = 0;
    for (uint32_t number = 0; number < 100; number++)
        count += enip_status_text(kind, number, text, sizeof text) > 0;
    is(what, count, last - first + 1);
    for (uint32_t number = first; number <= last; number++)
        is(what, enip_status_text(kind, number, text, sizeof text) == strlen(text), 1);
}

int main(void) {
    refusals();
    is("new", enip_adapter_new(HEAD NAME COUNTER, sizeof HEAD NAME COUNTER - 1, &adapter, NULL), ENIP_OK);
    reasons();
    is("free", enip_adapter_free(adapter), ENIP_OK);
    texts("texts of statuses", ENIP_OF_CALL, ENIP_OK, ENIP_SHARE);
    texts("texts of reasons", ENIP_OF_NO_REPLY, ENIP_NO_REPLY_INCOMPLETE, ENIP_NO_REPLY_NOT_SERVED);
    texts("texts of endings", ENIP_OF_ENDING, ENIP_ENDED_TIMED_OUT, ENIP_ENDED_CLOSED);
    is("no text of another kind", (long long)enip_status_text(5, 1, (char[8]){0}, 8), 0);
    printf("%d passed, %d failed\n", passed, failed);
    return failed != 0;
}
