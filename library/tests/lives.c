/*
 * Each kind of object is made, used and freed over and over, and so is each that is refused. All memory is given back.
 * Then each allocation of a life is refused in turn: the call returns ENIP_MEMORY, changes nothing, and keeps no memory.
 * Prints `N passed, M failed`.
 *
 *     lives [ROUNDS]    10,000 rounds by default
 */
#include <enip.h>
#include <malloc.h>
#include <stdio.h>
#include <stdlib.h>
#include <string.h>

void *__libc_malloc(size_t size);
void *__libc_realloc(void *block, size_t size);
void __libc_free(void *block);

/* The blocks and bytes that are in use, the allocations so far, and the one that is refused (0 for none). */
static size_t blocks, bytes, allocations, refused_at;
static int is_refused;

static int refuses(void) {
    if (++allocations != refused_at)
        return 0;
    return is_refused = 1;
}

static void *counted(void *block) {
    blocks += block != NULL;
    bytes += block != NULL ? malloc_usable_size(block) : 0;
    return block;
}

void *malloc(size_t size) {
    return refuses() ? NULL : counted(__libc_malloc(size));
}

void *realloc(void *block, size_t size) {
    if (refuses())
        return NULL;
    blocks -= block != NULL;
    bytes -= block != NULL ? malloc_usable_size(block) : 0;
    return counted(__libc_realloc(block, size));
}

void free(void *block) {
    blocks -= block != NULL;
    bytes -= block != NULL ? malloc_usable_size(block) : 0;
    __libc_free(block);
}

static int passed, failed;

static void is(const char *what, const char *how, size_t got, size_t wanted) {
    if (got == wanted) {
        passed++;
    } else {
        failed++;
        printf("lives: %s: %s: %zu instead of %zu\n", what, how, got, wanted);
    }
}

#define HEAD "vendor = 1\ndevice_type = 43\nproduct_code = 1\nmajor = 1\nminor = 1\nserial = 1\naddress = [127, 0, 0, 1]\n"
#define TAIL "name = \"N\"\npeers = 2\n[counter]\nlimit = 9\n[ledger]\noriginators = 2\n"

static const char configuration[] = HEAD TAIL "[[assembly]]\ninstance = 100\nsettable = true\nmembers = [1, 2]\n";
static const char malformed[] = HEAD TAIL "[[assembly]]\ninstance = 100\nmembers = [1, 0]\n";
static const unsigned char registers[28] = {0x65, 0, 4, 0, [24] = 1};
static const unsigned char list_services[24] = {0x04};
static const unsigned char request[] = {0x32, 0x02, 0x20, 0x64, 0x24, 0x01, 5, 0, 0, 0};
static unsigned char buffer[ENIP_REPLY_ROOM];

/* A pointer that no call may write unless it makes an object. */
static char unchanged;
#define UNCHANGED ((void *)&unchanged)

/* A life returns the status of the call that makes the object. */
typedef int life(void);

static int adapter(void) {
    enip_adapter *made = UNCHANGED;
    enip_fed fed;
    uint32_t peer;
    size_t count;
    int status = enip_adapter_new(configuration, sizeof configuration - 1, &made, NULL);
    if (status != ENIP_OK)
        return made == UNCHANGED ? status : 99;
    if (enip_adapter_begin(made, &peer) != ENIP_OK
        || enip_adapter_feed(made, 1, peer, registers, 28, buffer, sizeof buffer, &fed) != ENIP_OK || fed.answer != 28
        || enip_adapter_discover(made, list_services, 24, buffer, sizeof buffer, &count) != ENIP_OK || count != 50)
        return 98;
    return enip_adapter_free(made);
}

static const char owned[] = HEAD TAIL
    "[[object]]\nclass = 768\ninstance = 1\n[[object.attribute]]\nnumber = 1\ntype = \"UINT[2]\"\nsettable = true\n"
    "checked = true\n[[object.service]]\nnumber = 50\nsizes = [0, 480]\nreply = 480\n";

static int answers(void *context, const enip_asked *asked, enip_reply *reply) {
    size_t *sum = context;
    *sum += asked->length;
    reply->length = asked->reply_limit;
    return 0;
}

static int serves(enip_adapter *made, uint32_t peer, const char *bytes, size_t size, size_t *sum, enip_fed *fed) {
    unsigned char frame[64] = {0x6f, 0, 16, 0, [30] = 2, [36] = 0xb2};
    frame[2] += (unsigned char)size;
    frame[4] = (unsigned char)peer;
    frame[38] = (unsigned char)size;
    memcpy(frame + 40, bytes, size);
    return enip_adapter_serve(made, 1, peer, frame, 40 + size, buffer, sizeof buffer, sum != NULL ? answers : NULL, sum,
                              fed);
}

/* The owner executes a service and approves a set, and nobody executes a service. */
static int owned_adapter(void) {
    enip_adapter *made = UNCHANGED;
    enip_fed fed;
    uint32_t peer;
    size_t sum = 0;
    int status = enip_adapter_new(owned, sizeof owned - 1, &made, NULL);
    if (status != ENIP_OK)
        return made == UNCHANGED ? status : 99;
    if (enip_adapter_begin(made, &peer) != ENIP_OK
        || enip_adapter_serve(made, 1, peer, registers, 28, buffer, sizeof buffer, answers, &sum, &fed) != ENIP_OK)
        return 98;
    if (serves(made, peer, "\x32\3\x21\0\0\3\x24\1abcd", 12, &sum, &fed) != ENIP_OK || fed.answer != 524 || sum != 4)
        return 97;
    if (serves(made, peer, "\x10\4\x21\0\0\3\x24\1\x30\1abcd", 14, &sum, &fed) != ENIP_OK || fed.answer != 44
        || sum != 8)
        return 96;
    if (serves(made, peer, "\x32\3\x21\0\0\3\x24\1abcd", 12, NULL, &fed) != ENIP_OK || fed.answer != 44)
        return 95;
    return enip_adapter_free(made);
}

static int refused_adapter(void) {
    enip_adapter *made = UNCHANGED;
    enip_refusal refusal = {77, "as before"};
    int status = enip_adapter_new(malformed, sizeof malformed - 1, &made, &refusal);
    if (status == ENIP_MEMORY)
        return made == UNCHANGED && refusal.number == 77 && strcmp(refusal.text, "as before") == 0 ? status : 99;
    if (made != UNCHANGED || refusal.number != ENIP_CONFIG_MEMBERS)
        return 98;
    /* The text needs memory, too: without it, the line's number is missing, or the text is empty. */
    return is_refused ? ENIP_MEMORY : strncmp(refusal.text, "line 16: assembly 100 has", 25) == 0 ? status : 97;
}

static int unexplained_adapter(void) {
    enip_adapter *made = UNCHANGED;
    int status = enip_adapter_new(malformed, sizeof malformed - 1, &made, NULL);
    return made == UNCHANGED ? status : 99;
}

static int endings(void) {
    enip_endings *made = UNCHANGED;
    enip_ended ended;
    int status = enip_endings_new(&made);
    if (status != ENIP_OK)
        return made == UNCHANGED ? status : 99;
    if (enip_endings_at(made, 0, &ended) != ENIP_ABSENT)
        return 98;
    return enip_endings_free(made);
}

static int client(void) {
    const enip_wants wants = {.rpi = 1000000, .o_to_t_size = 4002, .t_to_o_size = 4002};
    enip_client *made = UNCHANGED;
    size_t count;
    int status = enip_client_new(&wants, &made);
    if (status != ENIP_OK)
        return made == UNCHANGED ? status : 99;
    if (enip_client_register(made, buffer, sizeof buffer, &count) != ENIP_OK || count != 28)
        return 98;
    return enip_client_free(made);
}

static int refused_client(void) {
    const enip_wants wants = {.rpi = 1000000, .o_to_t_size = 4003, .t_to_o_size = 4002};
    enip_client *made = UNCHANGED;
    int status = enip_client_new(&wants, &made);
    return made == UNCHANGED ? status : 99;
}

static int used_once(enip_once *made, int status, int wanted) {
    size_t count;
    if (status != ENIP_OK)
        return made == UNCHANGED ? status : 99;
    if (enip_once_command(made, request, sizeof request, buffer, sizeof buffer, &count) != wanted)
        return 98;
    return enip_once_free(made);
}

static int once(void) {
    enip_once *made = UNCHANGED;
    int status = enip_once_new(1, 2, 3, &made);
    return used_once(made, status, ENIP_OK);
}

static int resumed_once(void) {
    enip_once *made = UNCHANGED;
    int status = enip_once_resume(1, 2, 3, request, sizeof request, &made);
    return used_once(made, status, ENIP_WAITING);
}

static int refused_once(void) {
    enip_once *made = UNCHANGED;
    int status = enip_once_resume(1, 2, 3, request, 1, &made);
    return made == UNCHANGED ? status : 99;
}

static const struct {
    const char *name;
    life *life;
    int status;
} lives[] = {
    {"an adapter", adapter, ENIP_OK},
    {"an adapter with an owner", owned_adapter, ENIP_OK},
    {"a refused adapter", refused_adapter, ENIP_CONFIGURATION},
    {"a refused adapter without a reason", unexplained_adapter, ENIP_CONFIGURATION},
    {"endings", endings, ENIP_OK},
    {"a client", client, ENIP_OK},
    {"a refused client", refused_client, ENIP_WANTS},
    {"a commander", once, ENIP_OK},
    {"a commander that resumes", resumed_once, ENIP_OK},
    {"a refused commander", refused_once, ENIP_REQUEST},
};

/* Refuses each allocation of a life in turn, until a life needs no more. */
static void refusals(const char *name, life *live, int wanted) {
    size_t blocks_before = blocks, bytes_before = bytes, number;
    for (number = 1; number < 1000; number++) {
        int status;
        allocations = 0;
        is_refused = 0;
        refused_at = number;
        status = live();
        refused_at = 0;
        if (!is_refused) {
            is(name, "its status", (size_t)status, (size_t)wanted);
            break;
        }
        is(name, "out of memory", (size_t)status, ENIP_MEMORY);
        is(name, "out of memory: blocks in use", blocks, blocks_before);
        is(name, "out of memory: bytes in use", bytes, bytes_before);
    }
    is(name, "it allocates, and not without end", number > 1 && number < 1000, 1);
    is(name, "as many allocations as were refused", allocations, number - 1);
}

int main(int count, char **arguments) {
    static char output[1 << 16];
    int rounds = count == 2 ? atoi(arguments[1]) : 10000;
    setvbuf(stdout, output, _IOFBF, sizeof output);
    for (size_t i = 0; i < sizeof lives / sizeof *lives; i++) {
        size_t blocks_before = blocks, bytes_before = bytes;
        int wrong = 0;
        for (int round = 0; round < rounds; round++)
            wrong += lives[i].life() != lives[i].status;
        is(lives[i].name, "lives that went wrong", (size_t)wrong, 0);
        is(lives[i].name, "blocks in use", blocks, blocks_before);
        is(lives[i].name, "bytes in use", bytes, bytes_before);
        refusals(lives[i].name, lives[i].life, lives[i].status);
    }
    printf("%d passed, %d failed\n", passed, failed);
    return failed != 0;
}
