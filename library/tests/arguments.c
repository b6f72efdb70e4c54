/*
 * Each argument of each call, wrong in each way: NULL, a freed handle, a handle of another kind, empty, too long, and
 * ranges that overlap by one byte or only touch. Prints `N passed, M failed`.
 *
 *     arguments          the library
 *     arguments freed    also with handles that were freed, which tools such as valgrind report as errors
 *
 * With LAYER defined, the C layer is compiled into this program, over calls that only note their arguments. So each
 * argument is compared with what the proved call gets, and a sanitizer sees what the layer does.
 */
#include <stdio.h>
#include <stdlib.h>
#include <string.h>
#ifdef LAYER
/* The layer's malloc, which can be refused. */
static int is_memory_refused;

static void *layer_malloc(size_t size) {
    return is_memory_refused ? NULL : malloc(size);
}

#define malloc layer_malloc
#include "../enip.c"
#undef malloc
#else
#include <enip.h>
#endif

static int passed, failed;

static void is(const char *what, const char *how, int holds) {
    if (holds) {
        passed++;
    } else {
        failed++;
        printf("arguments: %s: %s\n", what, how);
    }
}

#define WORD(it) ((uint64_t)(uintptr_t)(it))

enum { MOST_WORDS = 12, NOW = 5, LIFE = 6, ORIGINATOR = 7, NUMBER = 8, GENERATION = 9 };
#ifdef LAYER
/* Arguments that can be told apart. */
enum { CLASS = 11, INSTANCE = 12, ATTRIBUTE = 13 };
#else
/* The vendor, which each device has. */
enum { CLASS = 1, INSTANCE = 1, ATTRIBUTE = 1 };
#endif

static uint32_t peer;

#ifdef LAYER
/* The last call of the core: its name and its arguments. */
static const char *called;
static size_t word_count;
static uint64_t words[MOST_WORDS];
static int call_count, is_new_empty = 1;
static uint32_t core_status;

static uint32_t note(const char *name, size_t count, const uint64_t *arguments) {
    called = name;
    call_count++;
    word_count = count;
    memcpy(words, arguments, count * sizeof *arguments);
    return core_status;
}

#define NOTE(name, ...) note(name, sizeof(uint64_t[]){__VA_ARGS__} / sizeof(uint64_t), (uint64_t[]){__VA_ARGS__})

/* A call that makes an object: it gets memory that the call that frees it gives back. */
static uint32_t make(struct kept *kept, uint32_t status) {
    is_new_empty &= kept->at == NULL;
    if (status == ENIP_OK && (kept->at = malloc(70000)) == NULL)
        abort();
    return status;
}

static void unmake(struct kept *kept) {
    free(kept->at);
    kept->at = NULL;
}

/* What the core explains, and the text of a number: so many bytes. */
static size_t text_length;

static size_t fill(uint8_t *buffer, size_t size) {
    size_t length = text_length <= size ? text_length : 0;
    memset(buffer, 'x', length);
    return length;
}

uint32_t enip_core_adapter_new(struct kept *k, const uint8_t *text, size_t length, uint32_t *number) {
    *number = 9;
    return make(k, NOTE("adapter_new", WORD(text), length));
}
/* The check that refuses a saved state or a configuration, and the version. */
static struct refused core_refused = {9, 2};

uint32_t enip_core_adapter_new_kept(struct kept *k, const uint8_t *text, size_t length, const uint8_t *state,
                                    size_t state_length, uint64_t life, struct refused *why) {
    *why = core_refused;
    return make(k, NOTE("adapter_new_kept", WORD(text), length, state_length == 0 ? 0 : WORD(state), state_length,
                        life));
}
/* The piece that asks, as the calls for the state get it: no bytes if the owner is not asked. */
static const uint8_t *piece;
static size_t piece_length;

static void note_piece(const uint8_t *bytes, size_t length) {
    piece = bytes;
    piece_length = length;
}

uint32_t enip_core_adapter_save(struct kept *k, uint64_t generation, uint32_t p, const uint8_t *bytes, size_t length,
                                uint8_t *buffer, size_t size, size_t *count) {
    note_piece(bytes, length);
    return NOTE("adapter_save", WORD(k), generation, p, WORD(buffer), size, WORD(count));
}
uint32_t enip_core_adapter_generation(struct kept *k, uint32_t p, const uint8_t *bytes, size_t length,
                                      const uint8_t *state, size_t state_length, uint64_t *generation) {
    note_piece(bytes, length);
    return NOTE("adapter_generation", WORD(k), p, state_length == 0 ? 0 : WORD(state), state_length, WORD(generation));
}
uint32_t enip_core_adapter_executing(struct kept *k, uint32_t p, const uint8_t *bytes, size_t length,
                                     uint64_t *originator, uint32_t *number) {
    note_piece(bytes, length);
    return NOTE("adapter_asked_command", WORD(k), p, WORD(originator), WORD(number));
}
uint32_t enip_core_adapter_in_doubt(struct kept *k, size_t index, uint64_t *originator, uint32_t *number) {
    return NOTE("adapter_in_doubt", WORD(k), index, WORD(originator), WORD(number));
}
uint32_t enip_core_adapter_settle(struct kept *k, uint64_t originator, uint32_t number, const uint8_t *reply,
                                  size_t length) {
    return NOTE("adapter_settle", WORD(k), originator, number, WORD(reply), length);
}
void enip_core_adapter_free(struct kept *k) {
    NOTE("adapter_free", WORD(k));
    unmake(k);
}
uint32_t enip_core_adapter_begin(struct kept *k, uint32_t *p) {
    return NOTE("adapter_begin", WORD(k), WORD(p));
}
uint32_t enip_core_adapter_begin_as(struct kept *k, uint32_t rights, uint32_t has_group, uint64_t high, uint64_t low,
                                    uint32_t *p) {
    return NOTE("adapter_begin_as", WORD(k), rights, has_group, high, low, WORD(p));
}
uint32_t enip_core_adapter_feed(struct kept *k, uint64_t now, uint32_t p, const uint8_t *bytes, size_t length,
                                uint8_t *buffer, size_t size, enip_fed *fed) {
    return NOTE("adapter_feed", WORD(k), now, p, WORD(bytes), length, WORD(buffer), size, WORD(fed));
}
/* The arguments of the call that comes before a feed. */
static uint64_t withdraw_words[5];

void enip_core_adapter_withdraw(struct kept *k, uint64_t now, uint32_t p, const uint8_t *bytes, size_t length) {
    const uint64_t its_words[] = {WORD(k), now, p, WORD(bytes), length};
    memcpy(withdraw_words, its_words, sizeof its_words);
}
/* What the core says is asked, and the status of that call; the arguments of it. */
static struct asked core_asked;
static uint32_t asked_status = ENIP_ABSENT;
static uint64_t asked_words[MOST_WORDS];

uint32_t enip_core_adapter_asked(struct kept *k, uint64_t now, uint32_t p, const uint8_t *bytes, size_t length,
                                 uint8_t *data, size_t size, struct asked *asked) {
    const uint64_t its_words[] = {WORD(k), now, p, WORD(bytes), length, size};
    memcpy(asked_words, its_words, sizeof its_words);
    memset(data, 'd', size);
    *asked = core_asked;
    return asked_status;
}
uint32_t enip_core_adapter_feed_prepared(struct kept *k, uint64_t now, uint32_t p, const uint8_t *bytes, size_t length,
                                         uint8_t status, const uint8_t *data, size_t data_length, uint16_t limit,
                                         uint8_t *buffer, size_t size, enip_fed *fed) {
    return NOTE("adapter_feed_prepared", WORD(k), now, p, WORD(bytes), length, status, data[0], data_length, limit,
                WORD(buffer), size, WORD(fed));
}
void enip_core_adapter_tick(struct kept *k, uint64_t now) {
    NOTE("adapter_tick", WORD(k), now);
}
void enip_core_adapter_end(struct kept *k, uint32_t p) {
    NOTE("adapter_end", WORD(k), p);
}
uint32_t enip_core_adapter_deadline(struct kept *k, uint64_t *deadline) {
    return NOTE("adapter_deadline", WORD(k), WORD(deadline));
}
uint32_t enip_core_adapter_read(struct kept *k, uint16_t class_code, uint32_t instance, uint16_t attribute,
                                uint8_t *buffer, size_t size, size_t *count) {
    return NOTE("adapter_read", WORD(k), class_code, instance, attribute, WORD(buffer), size, WORD(count));
}
void enip_core_adapter_places(struct kept *k, uint16_t *peers, uint16_t *connections) {
    NOTE("adapter_places", WORD(k), WORD(peers), WORD(connections));
}
uint32_t enip_core_adapter_write(struct kept *k, uint32_t instance, size_t offset, const uint8_t *bytes, size_t length) {
    return NOTE("adapter_write", WORD(k), instance, offset, WORD(bytes), length);
}
uint32_t enip_core_adapter_write_attribute(struct kept *k, uint16_t class_code, uint32_t instance, uint16_t attribute,
                                           size_t offset, const uint8_t *bytes, size_t length) {
    return NOTE("adapter_write_attribute", WORD(k), class_code, instance, attribute, offset, WORD(bytes), length);
}
uint32_t enip_core_adapter_attribute_changes(struct kept *k, uint16_t class_code, uint32_t instance, uint16_t attribute,
                                             uint32_t *changes) {
    return NOTE("adapter_attribute_changes", WORD(k), class_code, instance, attribute, WORD(changes));
}
uint32_t enip_core_adapter_changes(struct kept *k, uint32_t instance, uint32_t *changes) {
    return NOTE("adapter_changes", WORD(k), instance, WORD(changes));
}
uint32_t enip_core_adapter_resets(struct kept *k, uint32_t *resets) {
    return NOTE("adapter_resets", WORD(k), WORD(resets));
}
void enip_core_adapter_set_status(struct kept *k, uint16_t status) {
    NOTE("adapter_set_status", WORD(k), status);
}
void enip_core_adapter_set_state(struct kept *k, uint8_t state) {
    NOTE("adapter_set_state", WORD(k), state);
}
uint32_t enip_core_endings_new(struct kept *k) {
    return make(k, NOTE("endings_new", 0));
}
void enip_core_endings_free(struct kept *k) {
    NOTE("endings_free", WORD(k));
    unmake(k);
}
void enip_core_endings_update(struct kept *k, struct kept *adapter) {
    NOTE("endings_update", WORD(k), WORD(adapter));
}
uint32_t enip_core_endings_at(struct kept *k, size_t index, enip_ended *ended) {
    return NOTE("endings_at", WORD(k), index, WORD(ended));
}
size_t enip_core_explain(const uint8_t *text, size_t length, uint8_t *buffer, size_t size) {
    NOTE("explain", WORD(text), length, size);
    return fill(buffer, size);
}
size_t enip_core_state_text(uint32_t number, uint32_t version, uint8_t *buffer, size_t size) {
    NOTE("state_text", number, version, size);
    return fill(buffer, size);
}
size_t enip_core_status_text(uint32_t kind, uint32_t number, uint8_t *buffer, size_t size) {
    NOTE("status_text", kind, number);
    return fill(buffer, size);
}
uint32_t enip_core_client_new(struct kept *k, const enip_wants *wants) {
    return make(k, NOTE("client_new", WORD(wants)));
}
void enip_core_client_free(struct kept *k) {
    NOTE("client_free", WORD(k));
    unmake(k);
}
#define CORE_WRITES(kind, call)                                                                        \
    uint32_t enip_core_##kind##_##call(struct kept *k, uint8_t *buffer, size_t size, size_t *count) { \
        return NOTE(#kind "_" #call, WORD(k), WORD(buffer), size, WORD(count));                       \
    }
CORE_WRITES(client, register)
CORE_WRITES(client, open)
CORE_WRITES(client, resend)
CORE_WRITES(client, close)
CORE_WRITES(client, unregister)
CORE_WRITES(once, resend)
CORE_WRITES(once, request)
CORE_WRITES(once, withdraw)
#define CORE_CALL(kind, call, result)                                                                        \
    uint32_t enip_core_##kind##_##call(struct kept *k, const uint8_t *bytes, size_t length, uint8_t *buffer, \
                                       size_t size, result *it) {                                            \
        return NOTE(#kind "_" #call, WORD(k), WORD(bytes), length, WORD(buffer), size, WORD(it));            \
    }
CORE_CALL(adapter, discover, size_t)
CORE_CALL(client, ask, size_t)
CORE_CALL(client, submit, size_t)
CORE_CALL(client, feed, enip_heard)
CORE_CALL(once, command, size_t)
CORE_CALL(once, receive, enip_outcome)
CORE_CALL(once, withdrawn, enip_outcome)
uint32_t enip_core_client_give_up(struct kept *k) {
    return NOTE("client_give_up", WORD(k));
}
uint32_t enip_core_once_new(struct kept *k, uint64_t life, uint64_t originator, uint32_t number) {
    return make(k, NOTE("once_new", life, originator, number));
}
uint32_t enip_core_once_resume(struct kept *k, uint64_t life, uint64_t originator, uint32_t number, const uint8_t *bytes,
                               size_t length) {
    return make(k, NOTE("once_resume", life, originator, number, WORD(bytes), length));
}
void enip_core_once_free(struct kept *k) {
    NOTE("once_free", WORD(k));
    unmake(k);
}
uint32_t enip_core_once_abandon(struct kept *k) {
    return NOTE("once_abandon", WORD(k));
}
void enip_core_once_values(struct kept *k, uint64_t *life, uint64_t *originator, uint32_t *number) {
    NOTE("once_values", WORD(k), WORD(life), WORD(originator), WORD(number));
}
#endif

/* The memory that arguments point to. */
enum { ARENA = 0x60000, LOW = 0x1000, MIDDLE = 0x20000, HIGH = 0x50000 };
static uint64_t aligned[ARENA / 8];
static unsigned char *const arena = (unsigned char *)aligned, before[ARENA];

/* A RegisterSession and its reply, and requests: a get, and the reply to a command. */
static const unsigned char registers[32] = {0x65, 0, 4, 0, [24] = 1, [28] = 0x0e, 3, 0x20, 1};

/* The objects that are passed: one of each kind, and what is not one. */
enum { ADAPTER, ENDINGS, CLIENT, ONCE, KINDS };
static void *valid[KINDS], *freed[KINDS];
static uint64_t foreign[16];

static const char configuration[] =
    "vendor = 4660\ndevice_type = 43\nproduct_code = 7\nmajor = 2\nminor = 5\nserial = 1\nname = \"M\"\n"
    "address = [127, 0, 0, 1]\npeers = 2\n[counter]\nlimit = 100\n[[assembly]]\ninstance = 100\nmembers = [4]\n";

struct arguments {
    void *handle;
    const void *bytes;
    size_t length;
    void *buffer;
    size_t size;
    void *result;
};

/* An owner that is not to be asked. */
static int never(void *context, const enip_asked *asked, enip_reply *reply) {
    (void)context, (void)asked, (void)reply;
    is("adapter_serve", "the owner is not asked", 0);
    return 1;
}

typedef int made_call(const struct arguments *);

/* A call: its name, its kind of object, its ranges (0 if it has none), and the arguments between. */
struct call {
    const char *name;
    int kind;
    made_call *call;
    size_t length, size, result;
    size_t extra_count;
    uint64_t extras[4];
};

#define CALL(name, ...)                               \
    static int name(const struct arguments *a) {      \
        return enip_##name(a->handle, __VA_ARGS__);   \
    }
CALL(adapter_begin, a->result)
static const uint8_t group[16] = {1, 2, 3, 4, 5, 6, 7, 8, 9, 10, 11, 12, 13, 14, 15, 16};
CALL(adapter_begin_as, ENIP_MAY_READ, group, a->result)
CALL(adapter_feed, NOW, peer, a->bytes, a->length, a->buffer, a->size, a->result)
CALL(adapter_serve, NOW, peer, a->bytes, a->length, a->buffer, a->size, never, NULL, a->result)
CALL(adapter_tick, NOW)
CALL(adapter_deadline, a->result)
CALL(adapter_end, peer + 100)
CALL(adapter_read, CLASS, INSTANCE, ATTRIBUTE, a->buffer, a->size, a->result)
CALL(adapter_discover, a->bytes, a->length, a->buffer, a->size, a->result)
CALL(adapter_write, 100, 1, a->bytes, a->length)
CALL(adapter_write_attribute, CLASS, INSTANCE, ATTRIBUTE, 1, a->bytes, a->length)
CALL(adapter_changes, 100, a->result)
CALL(adapter_attribute_changes, CLASS, INSTANCE, ATTRIBUTE, a->result)
CALL(adapter_resets, a->result)
CALL(adapter_set_status, 0x1234)
CALL(adapter_set_state, 3)
CALL(adapter_save, GENERATION, a->buffer, a->size, a->result)
CALL(adapter_generation, a->bytes, a->length, a->result)
CALL(adapter_settle, ORIGINATOR, NUMBER, a->bytes, a->length)
CALL(endings_at, 2, a->result)
CALL(client_register, a->buffer, a->size, a->result)
CALL(client_open, a->buffer, a->size, a->result)
CALL(client_ask, a->bytes, a->length, a->buffer, a->size, a->result)
CALL(client_submit, a->bytes, a->length, a->buffer, a->size, a->result)
CALL(client_resend, a->buffer, a->size, a->result)
CALL(client_close, a->buffer, a->size, a->result)
CALL(client_unregister, a->buffer, a->size, a->result)
CALL(client_feed, a->bytes, a->length, a->buffer, a->size, a->result)
CALL(once_command, a->bytes, a->length, a->buffer, a->size, a->result)
CALL(once_resend, a->buffer, a->size, a->result)
CALL(once_receive, a->bytes, a->length, a->buffer, a->size, a->result)
CALL(once_request, a->buffer, a->size, a->result)
CALL(once_withdraw, a->buffer, a->size, a->result)
CALL(once_withdrawn, a->bytes, a->length, a->buffer, a->size, a->result)

static int client_give_up(const struct arguments *a) {
    return enip_client_give_up(a->handle);
}

static int once_abandon(const struct arguments *a) {
    return enip_once_abandon(a->handle);
}

static struct call calls[] = {
    {"adapter_begin", ADAPTER, adapter_begin, 0, 0, 4, 0, {0}},
    {"adapter_begin_as", ADAPTER, adapter_begin_as, 0, 0, 4, 4,
     {ENIP_MAY_READ, 1, 0x0102030405060708, 0x090a0b0c0d0e0f10}},
    {"adapter_feed", ADAPTER, adapter_feed, 28, ENIP_ANSWER_ROOM, sizeof(enip_fed), 2, {NOW, 0}},
    {"adapter_serve", ADAPTER, adapter_serve, 28, ENIP_ANSWER_ROOM, sizeof(enip_fed), 2, {NOW, 0}},
    {"adapter_tick", ADAPTER, adapter_tick, 0, 0, 0, 1, {NOW}},
    {"adapter_deadline", ADAPTER, adapter_deadline, 0, 0, 8, 0, {0}},
    {"adapter_end", ADAPTER, adapter_end, 0, 0, 0, 1, {0}},
    {"adapter_read", ADAPTER, adapter_read, 0, 2, 8, 3, {CLASS, INSTANCE, ATTRIBUTE}},
    {"adapter_discover", ADAPTER, adapter_discover, 24, ENIP_ANSWER_ROOM, 8, 0, {0}},
    {"adapter_write", ADAPTER, adapter_write, 3, 0, 0, 2, {100, 1}},
    {"adapter_write_attribute", ADAPTER, adapter_write_attribute, 3, 0, 0, 4, {CLASS, INSTANCE, ATTRIBUTE, 1}},
    {"adapter_changes", ADAPTER, adapter_changes, 0, 0, 4, 1, {100}},
    {"adapter_attribute_changes", ADAPTER, adapter_attribute_changes, 0, 0, 4, 3, {CLASS, INSTANCE, ATTRIBUTE}},
    {"adapter_resets", ADAPTER, adapter_resets, 0, 0, 4, 0, {0}},
    {"adapter_set_status", ADAPTER, adapter_set_status, 0, 0, 0, 1, {0x1234}},
    {"adapter_set_state", ADAPTER, adapter_set_state, 0, 0, 0, 1, {3}},
    {"adapter_save", ADAPTER, adapter_save, 0, 1000, 8, 2, {GENERATION, 0}},
    {"adapter_generation", ADAPTER, adapter_generation, 28, 0, 8, 1, {0}},
    {"adapter_settle", ADAPTER, adapter_settle, 28, 0, 0, 2, {ORIGINATOR, NUMBER}},
    {"endings_at", ENDINGS, endings_at, 0, 0, sizeof(enip_ended), 1, {2}},
    {"client_register", CLIENT, client_register, 0, ENIP_FRAME_ROOM, 8, 0, {0}},
    {"client_open", CLIENT, client_open, 0, ENIP_FRAME_ROOM, 8, 0, {0}},
    {"client_ask", CLIENT, client_ask, 28, ENIP_FRAME_ROOM, 8, 0, {0}},
    {"client_submit", CLIENT, client_submit, 28, ENIP_FRAME_ROOM, 8, 0, {0}},
    {"client_resend", CLIENT, client_resend, 0, ENIP_FRAME_ROOM, 8, 0, {0}},
    {"client_close", CLIENT, client_close, 0, ENIP_FRAME_ROOM, 8, 0, {0}},
    {"client_unregister", CLIENT, client_unregister, 0, ENIP_FRAME_ROOM, 8, 0, {0}},
    {"client_feed", CLIENT, client_feed, 28, ENIP_REPLY_ROOM, sizeof(enip_heard), 0, {0}},
    {"client_give_up", CLIENT, client_give_up, 0, 0, 0, 0, {0}},
    {"once_command", ONCE, once_command, 28, ENIP_MESSAGE_ROOM, 8, 0, {0}},
    {"once_resend", ONCE, once_resend, 0, ENIP_MESSAGE_ROOM, 8, 0, {0}},
    {"once_receive", ONCE, once_receive, 28, 28, sizeof(enip_outcome), 0, {0}},
    {"once_request", ONCE, once_request, 0, 28, 8, 0, {0}},
    {"once_withdraw", ONCE, once_withdraw, 0, 28, 8, 0, {0}},
    {"once_withdrawn", ONCE, once_withdrawn, 28, 28, sizeof(enip_outcome), 0, {0}},
    {"once_abandon", ONCE, once_abandon, 0, 0, 0, 0, {0}},
};

/* Whether the arena is as before, apart from a buffer and a result. */
static int is_kept(const struct arguments *a, const struct call *call, int may_change) {
    static unsigned char now[ARENA];
    memcpy(now, arena, ARENA);
    if (may_change && call->size != 0) {
        size_t at = (size_t)((unsigned char *)a->buffer - arena);
        memcpy(now + at, before + at, a->size < ARENA - at ? a->size : ARENA - at);
    }
    if (may_change && call->result != 0) {
        size_t at = (size_t)((unsigned char *)a->result - arena);
        memcpy(now + at, before + at, call->result);
    }
    return memcmp(now, before, ARENA) == 0;
}

static void prepare(const struct arguments *a) {
    memset(arena, 0xa5, ARENA);
    if (a->bytes != NULL)
        memcpy((void *)a->bytes, registers, sizeof registers);
    memcpy(before, arena, ARENA);
}

static void refused(const struct call *call, const char *how, struct arguments a) {
    prepare(&a);
#ifdef LAYER
    call_count = 0;
    core_status = ENIP_OK;
#endif
    is(call->name, how, call->call(&a) == ENIP_MISUSE);
    is(call->name, how, is_kept(&a, call, 0));
#ifdef LAYER
    is(call->name, how, call_count == 0);
#endif
}

#ifdef LAYER
/* The core's call: a serve that asks nothing is a feed. */
static const char *core_name(const struct call *call) {
    return strcmp(call->name, "adapter_serve") == 0 ? "adapter_feed" : call->name;
}

/* Whether a feed comes after the withdrawal of the same bytes, if there is room for an answer. */
static int is_withdrawn_first(const struct arguments *a, const uint64_t *wanted) {
    return a->size < ENIP_ANSWER_ROOM || memcmp(withdraw_words, wanted, sizeof withdraw_words) == 0;
}

/* Whether the core was called once, with these arguments. */
static int is_passed(const struct call *call, const struct arguments *a) {
    uint64_t wanted[MOST_WORDS] = {WORD(a->handle)};
    size_t count = 1;
    for (size_t i = 0; i < call->extra_count; i++)
        wanted[count++] = call->extras[i];
    if (call->length != 0) {
        wanted[count++] = WORD(a->bytes);
        wanted[count++] = a->length;
    }
    if (call->size != 0) {
        wanted[count++] = WORD(a->buffer);
        wanted[count++] = a->size;
    }
    if (call->result != 0)
        wanted[count++] = WORD(a->result);
    if (strcmp(core_name(call), "adapter_feed") == 0 && !is_withdrawn_first(a, wanted))
        return 0;
    return call_count == 1 && strcmp(called, core_name(call)) == 0 && word_count == count
        && memcmp(words, wanted, count * sizeof *wanted) == 0;
}
#endif

#ifdef LAYER
/* A serve in a small buffer ends in the layer, as the time is set before the frame is fed. */
static int is_small(const struct call *call, const struct arguments *a) {
    return strcmp(call->name, "adapter_serve") == 0 && a->size < ENIP_ANSWER_ROOM;
}
#endif

static void allowed(const struct call *call, const char *how, struct arguments a) {
    prepare(&a);
#ifdef LAYER
    int returns = strcmp(call->name, "adapter_tick") != 0 && strcmp(call->name, "adapter_end") != 0
        && strncmp(call->name, "adapter_set_", 12) != 0;
    for (core_status = 0; core_status < 22; core_status++) {
        int status = is_small(call, &a) ? ENIP_ROOM : returns ? (int)core_status : ENIP_OK;
        call_count = 0;
        memset(withdraw_words, 0, sizeof withdraw_words);
        is(call->name, how, call->call(&a) == status);
        is(call->name, how, is_small(call, &a) ? call_count == 0 : is_passed(call, &a));
    }
    core_status = ENIP_OK;
    is(call->name, how, is_kept(&a, call, 0));
#else
    is(call->name, how, call->call(&a) != ENIP_MISUSE);
    is(call->name, how, is_kept(&a, call, 1));
#endif
}

/* The arguments of a call that are right, apart from each other. */
static struct arguments right(const struct call *call) {
    struct arguments a = {valid[call->kind], NULL, call->length, NULL, call->size, NULL};
    if (call->length != 0)
        a.bytes = arena + HIGH;
    if (call->size != 0)
        a.buffer = arena + MIDDLE;
    if (call->result != 0)
        a.result = arena + LOW;
    return a;
}

static void handles(const struct call *call, int with_freed) {
    struct arguments a = right(call);
    a.handle = NULL;
    refused(call, "NULL for a handle", a);
    a.handle = foreign;
    refused(call, "a foreign handle", a);
    for (int kind = 0; kind < KINDS; kind++) {
        a.handle = valid[kind];
        if (kind != call->kind)
            refused(call, "a handle of another kind", a);
        a.handle = freed[kind];
        if (with_freed)
            refused(call, "a freed handle", a);
    }
}

#define WITH(field, value) (b = a, b.field = (value), b)

/* A datagram may be empty, unlike all else that is read. */
static int may_be_empty(const struct call *call) {
    return strcmp(call->name, "adapter_discover") == 0;
}

static void one_by_one(const struct call *call) {
    const size_t greatest = PTRDIFF_MAX;
    struct arguments a = right(call), b;
    allowed(call, "all are right", a);
    if (call->length != 0) {
        refused(call, "NULL to read", WITH(bytes, NULL));
        (may_be_empty(call) ? allowed : refused)(call, "nothing to read", WITH(length, 0));
        refused(call, "PTRDIFF_MAX + 1 to read", WITH(length, greatest + 1));
        refused(call, "SIZE_MAX to read", WITH(length, SIZE_MAX));
        allowed(call, "one byte to read", WITH(length, 1));
        allowed(call, "PTRDIFF_MAX to read", WITH(length, greatest));
    }
    if (call->size != 0) {
        refused(call, "NULL for a buffer", WITH(buffer, NULL));
        refused(call, "an empty buffer", WITH(size, 0));
        refused(call, "a buffer of PTRDIFF_MAX + 1", WITH(size, greatest + 1));
        refused(call, "a buffer of SIZE_MAX", WITH(size, SIZE_MAX));
        allowed(call, "a buffer of one byte", WITH(size, 1));
        allowed(call, "a buffer that is one byte smaller", WITH(size, call->size > 1 ? call->size - 1 : 1));
        allowed(call, "a buffer that is one byte larger", WITH(size, call->size + 1));
        a.bytes = call->length != 0 ? arena + LOW + 64 : NULL;
        allowed(call, "a buffer of PTRDIFF_MAX", WITH(size, greatest));
    }
    if (call->result != 0)
        refused(call, "NULL for a result", WITH(result, NULL));
}

/* Places for a range of `other` bytes next to `size` bytes at `at`: which overlap, and which only touch. */
enum { NEXT = 6 };
static const char *const next[NEXT] = {
    "the same place", "overlaps the end by a byte", "overlaps the beginning by a byte", "within", "behind", "in front",
};

static unsigned char *next_to(int how, unsigned char *at, size_t size, size_t other) {
    return at + (how == 1 ? (ptrdiff_t)size - 1 : how == 2 ? 1 - (ptrdiff_t)other : how == 3 ? (ptrdiff_t)(size / 2)
                     : how == 4 ? (ptrdiff_t)size : how == 5 ? -(ptrdiff_t)other : 0);
}

static void pair(const struct call *call, int how, struct arguments a) {
    (how < 4 ? refused : allowed)(call, next[how], a);
}

static void pairs(const struct call *call) {
    struct arguments a = right(call), b;
    unsigned char *middle = arena + MIDDLE;
    for (int how = 0; how < NEXT; how++) {
        if (call->length != 0 && call->size != 0)
            pair(call, how, WITH(bytes, next_to(how, a.buffer, a.size, a.length)));
        if (call->result == 0)
            continue;
        /* A result has its alignment, so the range next to it is moved if they touch. */
        if (call->size != 0) {
            a.buffer = how == 4 ? middle - a.size : middle;
            pair(call, how, WITH(result, next_to(how, a.buffer, a.size, call->result)));
        }
        a = right(call);
        if (call->length != 0) {
            a.bytes = how == 4 ? arena + HIGH - a.length : arena + HIGH;
            pair(call, how, WITH(result, next_to(how, (unsigned char *)a.bytes, a.length, call->result)));
        }
        a = right(call);
    }
}

/* ---- the calls of another form ---- */

static enip_adapter *adapter_of(void *handle) {
    return handle;
}

static int frees(int kind, void *handle) {
    return kind == ADAPTER ? enip_adapter_free(handle)
        : kind == ENDINGS  ? enip_endings_free(handle)
        : kind == CLIENT   ? enip_client_free(handle)
                           : enip_once_free(handle);
}

static void frees_wrongly(int with_freed) {
    for (int kind = 0; kind < KINDS; kind++) {
        is("free", "NULL", frees(kind, NULL) == ENIP_OK);
        is("free", "a foreign handle", frees(kind, foreign) == ENIP_MISUSE);
        for (int other = 0; other < KINDS; other++) {
            is("free", "a handle of another kind", other == kind || frees(kind, valid[other]) == ENIP_MISUSE);
            is("free", "a freed handle", !with_freed || frees(kind, freed[other]) == ENIP_MISUSE);
        }
    }
}

/* Two results of a call, next to each other in each way; `how` over 3 is right. */
static void places(int with_freed) {
    uint16_t *first = (uint16_t *)(void *)(arena + MIDDLE);
    void *handle = valid[ADAPTER];
    is("places", "NULL", enip_adapter_places(NULL, first, first + 1) == ENIP_MISUSE);
    is("places", "a foreign handle", enip_adapter_places(adapter_of(foreign), first, first + 1) == ENIP_MISUSE);
    is("places", "another kind", enip_adapter_places(adapter_of(valid[CLIENT]), first, first + 1) == ENIP_MISUSE);
    is("places", "freed", !with_freed || enip_adapter_places(freed[ADAPTER], first, first + 1) == ENIP_MISUSE);
    is("places", "NULL for peers", enip_adapter_places(handle, NULL, first) == ENIP_MISUSE);
    is("places", "NULL for connections", enip_adapter_places(handle, first, NULL) == ENIP_MISUSE);
    for (int how = 0; how < NEXT; how++) {
        uint16_t *other = (void *)next_to(how, (unsigned char *)first, 2, 2);
        int status;
        memset(arena, 0xa5, ARENA);
        memcpy(before, arena, ARENA);
        status = enip_adapter_places(handle, first, other);
        is("places", next[how], status == (how < 4 ? ENIP_MISUSE : ENIP_OK));
#ifdef LAYER
        is("places", next[how], memcmp(arena, before, ARENA) == 0);
        if (how > 3)
            is("places", next[how], words[0] == WORD(handle) && words[1] == WORD(first) && words[2] == WORD(other));
#else
        if (how > 3) {
            is("places", "their numbers", *first == 0 && *other == 16);
            memcpy(before + MIDDLE - 2, arena + MIDDLE - 2, 6);
        }
        is("places", "nothing else changes", memcmp(arena, before, ARENA) == 0);
#endif
    }
}

static int write_at(size_t offset) {
    return enip_adapter_write_attribute(valid[ADAPTER], 4, 100, 3, offset, registers, 1);
}

static void offsets(void) {
    void *handle = valid[ADAPTER];
    const size_t greatest = PTRDIFF_MAX;
    is("write_attribute", "an offset of PTRDIFF_MAX + 1", write_at(greatest + 1) == ENIP_MISUSE);
    is("write_attribute", "an offset of SIZE_MAX", write_at(SIZE_MAX) == ENIP_MISUSE);
    is("write_attribute", "an offset of PTRDIFF_MAX", write_at(greatest) != ENIP_MISUSE);
    is("write", "an offset of PTRDIFF_MAX + 1", enip_adapter_write(handle, 100, greatest + 1, registers, 1) == ENIP_MISUSE);
    is("write", "an offset of SIZE_MAX", enip_adapter_write(handle, 100, SIZE_MAX, registers, 1) == ENIP_MISUSE);
    is("write", "an offset of PTRDIFF_MAX", enip_adapter_write(handle, 100, greatest, registers, 1) != ENIP_MISUSE);
#ifndef LAYER
    is("write", "the last byte", enip_adapter_write(handle, 100, 3, registers, 1) == ENIP_OK);
    is("write", "one byte behind it", enip_adapter_write(handle, 100, 4, registers, 1) == ENIP_ABSENT);
    is("write_attribute", "the last byte", write_at(3) == ENIP_OK);
    is("write_attribute", "one byte behind it", write_at(4) == ENIP_ABSENT);
#endif
}

/* The two results of the calls that name a command: each NULL, and next to each other in each way. */
static void commands(int with_freed) {
    uint64_t *originator = (void *)(arena + MIDDLE);
    void *handle = valid[ADAPTER];
    for (int is_asked = 0; is_asked < 2; is_asked++) {
#define NAMES(it, o, n) \
    (is_asked ? enip_adapter_asked_command((it), (o), (n)) : enip_adapter_in_doubt((it), 2, (o), (n)))
        const char *what = is_asked ? "asked_command" : "in_doubt";
        uint32_t *number = (void *)(arena + LOW);
        is(what, "NULL", NAMES(NULL, originator, number) == ENIP_MISUSE);
        is(what, "foreign", NAMES(adapter_of(foreign), originator, number) == ENIP_MISUSE);
        is(what, "another kind", NAMES(adapter_of(valid[CLIENT]), originator, number) == ENIP_MISUSE);
        is(what, "freed", !with_freed || NAMES(adapter_of(freed[ADAPTER]), originator, number) == ENIP_MISUSE);
        is(what, "NULL for the originator", NAMES(handle, NULL, number) == ENIP_MISUSE);
        is(what, "NULL for the number", NAMES(handle, originator, NULL) == ENIP_MISUSE);
        for (int how = 0; how < NEXT; how++) {
            int status;
            number = (void *)next_to(how, (unsigned char *)originator, 8, 4);
            if (how == 1 || how == 2)
                continue;
            status = NAMES(handle, originator, number);
#ifdef LAYER
            is(what, next[how], status == (how < 4 ? ENIP_MISUSE : ENIP_OK));
            if (how > 3)
                is(what, "its arguments", words[0] == WORD(handle) && words[1] == (is_asked ? 0 : 2)
                       && words[2] == WORD(originator) && words[3] == WORD(number));
#else
            is(what, next[how], status == (how < 4 ? ENIP_MISUSE : ENIP_ABSENT));
#endif
        }
    }
}

static void updates(int with_freed) {
    enip_endings *endings = valid[ENDINGS];
    enip_adapter *adapter = valid[ADAPTER];
    is("update", "right", enip_endings_update(endings, adapter) == ENIP_OK);
#ifdef LAYER
    is("update", "its arguments", words[0] == WORD(endings) && words[1] == WORD(adapter));
    call_count = 0;
#endif
    is("update", "NULL", enip_endings_update(NULL, adapter) == ENIP_MISUSE);
    is("update", "NULL for the adapter", enip_endings_update(endings, NULL) == ENIP_MISUSE);
    is("update", "foreign", enip_endings_update((void *)foreign, adapter) == ENIP_MISUSE);
    is("update", "a foreign adapter", enip_endings_update(endings, (void *)foreign) == ENIP_MISUSE);
    for (int kind = 0; kind < KINDS; kind++) {
        is("update", "another kind", kind == ENDINGS || enip_endings_update(valid[kind], adapter) == ENIP_MISUSE);
        is("update", "not an adapter", kind == ADAPTER || enip_endings_update(endings, valid[kind]) == ENIP_MISUSE);
        if (with_freed) {
            is("update", "freed", enip_endings_update(freed[kind], adapter) == ENIP_MISUSE);
            is("update", "a freed adapter", enip_endings_update(endings, freed[kind]) == ENIP_MISUSE);
        }
    }
#ifdef LAYER
    is("update", "the core is not called", call_count == 0);
#endif
}

/* The three results of enip_once_values: each NULL, and each pair next to each other. */
static void values(int with_freed) {
    uint64_t *life = (void *)(arena + LOW), *originator = (void *)(arena + MIDDLE);
    uint32_t *number = (void *)(arena + HIGH);
    void *handle = valid[ONCE];
    is("values", "NULL", enip_once_values(NULL, life, originator, number) == ENIP_MISUSE);
    is("values", "foreign", enip_once_values((void *)foreign, life, originator, number) == ENIP_MISUSE);
    for (int kind = 0; kind < KINDS; kind++) {
        is("values", "another kind",
           kind == ONCE || enip_once_values(valid[kind], life, originator, number) == ENIP_MISUSE);
        is("values", "freed", !with_freed || enip_once_values(freed[kind], life, originator, number) == ENIP_MISUSE);
    }
    is("values", "NULL for the life", enip_once_values(handle, NULL, originator, number) == ENIP_MISUSE);
    is("values", "NULL for the originator", enip_once_values(handle, life, NULL, number) == ENIP_MISUSE);
    is("values", "NULL for the number", enip_once_values(handle, life, originator, NULL) == ENIP_MISUSE);
    for (int how = 0; how < NEXT; how++) {
        int wanted = how < 4 ? ENIP_MISUSE : ENIP_OK;
        void *other = next_to(how, (unsigned char *)life, 8, 8);
        is("values", next[how], enip_once_values(handle, life, other, number) == wanted);
        other = next_to(how, (unsigned char *)life, 8, 4);
        is("values", next[how], enip_once_values(handle, life, originator, other) == wanted);
        other = next_to(how, (unsigned char *)originator, 8, 4);
        is("values", next[how], enip_once_values(handle, life, originator, other) == wanted);
    }
    memset(arena, 0xa5, ARENA);
    memcpy(before, arena, ARENA);
    is("values", "right", enip_once_values(handle, life, originator, number) == ENIP_OK);
#ifdef LAYER
    is("values", "their arguments", words[0] == WORD(handle) && words[1] == WORD(life) && words[2] == WORD(originator)
           && words[3] == WORD(number));
#else
    is("values", "their numbers", *life == LIFE && *originator == ORIGINATOR);
    memcpy(before + LOW, life, 8);
    memcpy(before + MIDDLE, originator, 8);
    memcpy(before + HIGH, number, 4);
#endif
    is("values", "nothing else changes", memcmp(arena, before, ARENA) == 0);
}

/* The calls that make objects: each argument wrong, and nothing is made. */
static void makes(void) {
    enip_adapter **adapter = (void *)(arena + LOW);
    enip_client **client = (void *)(arena + LOW);
    enip_once **once = (void *)(arena + LOW);
    char *text = (void *)(arena + MIDDLE);
    enip_wants *wants = (void *)(arena + MIDDLE);
    enip_refusal *refusal = (void *)(arena + HIGH);
    size_t size = sizeof configuration - 1, greatest = PTRDIFF_MAX;
    memset(arena, 0xa5, ARENA);
    memcpy(text, configuration, size);
    memcpy(before, arena, ARENA);
#ifdef LAYER
    call_count = 0;
#endif
    is("new", "NULL for a text", enip_adapter_new(NULL, size, adapter, refusal) == ENIP_MISUSE);
    is("new", "an empty text", enip_adapter_new(text, 0, adapter, refusal) == ENIP_MISUSE);
    is("new", "PTRDIFF_MAX + 1", enip_adapter_new(text, greatest + 1, adapter, refusal) == ENIP_MISUSE);
    is("new", "SIZE_MAX", enip_adapter_new(text, SIZE_MAX, adapter, refusal) == ENIP_MISUSE);
    is("new", "NULL for an adapter", enip_adapter_new(text, size, NULL, refusal) == ENIP_MISUSE);
    is("new", "NULL for endings", enip_endings_new(NULL) == ENIP_MISUSE);
    is("new", "NULL for what is wanted", enip_client_new(NULL, client) == ENIP_MISUSE);
    is("new", "NULL for a client", enip_client_new(wants, NULL) == ENIP_MISUSE);
    is("new", "NULL for a commander", enip_once_new(LIFE, ORIGINATOR, NUMBER, NULL) == ENIP_MISUSE);
    is("resume", "NULL for a request", enip_once_resume(LIFE, ORIGINATOR, NUMBER, NULL, 2, once) == ENIP_MISUSE);
    is("resume", "an empty request", enip_once_resume(LIFE, ORIGINATOR, NUMBER, text, 0, once) == ENIP_MISUSE);
    is("resume", "PTRDIFF_MAX + 1", enip_once_resume(LIFE, ORIGINATOR, 8, text, greatest + 1, once) == ENIP_MISUSE);
    is("resume", "NULL for a commander", enip_once_resume(LIFE, ORIGINATOR, NUMBER, text, 2, NULL) == ENIP_MISUSE);
    for (int how = 0; how < 4; how++) {
        unsigned char *at = (unsigned char *)text;
        is("new", next[how], enip_adapter_new(text, size, (void *)next_to(how, at, size, 8), refusal) == ENIP_MISUSE);
        is("new", next[how],
           enip_adapter_new(text, size, adapter, (void *)next_to(how, at, size, sizeof *refusal)) == ENIP_MISUSE);
        is("new", next[how],
           enip_adapter_new(text, size, (void *)next_to(how, arena + HIGH, sizeof *refusal, 8), refusal) == ENIP_MISUSE);
        is("new", next[how], enip_client_new(wants, (void *)next_to(how, at, sizeof *wants, 8)) == ENIP_MISUSE);
        is("resume", next[how], enip_once_resume(1, 2, 3, text, 20, (void *)next_to(how, at, 20, 8)) == ENIP_MISUSE);
    }
    is("new", "nothing changes", memcmp(arena, before, ARENA) == 0);
#ifdef LAYER
    is("new", "the core is not called", call_count == 0);
#endif
}

/* The calls that make objects, with results that touch what is read. */
static void makes_next(void) {
    static const unsigned char request[24] = {0x0e, 3, 0x20, 1};
    const enip_wants wanted = {.rpi = 1000000, .o_to_t_size = 500, .t_to_o_size = 500};
    unsigned char *middle = arena + MIDDLE;
    size_t size = sizeof configuration - 1;
    for (int how = 4; how < NEXT; how++) {
        unsigned char *text = how == 4 ? middle - size : middle, *wants = middle;
        enip_adapter **adapter = (void *)next_to(how, text, size, 8);
        enip_refusal *refusal = (void *)next_to(how, (unsigned char *)adapter, 8, sizeof *refusal);
        memcpy(text, configuration, size);
        is("new", next[how], enip_adapter_new((char *)text, size, adapter, refusal) == ENIP_OK);
        is("new", "it is freed", enip_adapter_free(*adapter) == ENIP_OK);
        refusal = (void *)next_to(how, text, size, sizeof *refusal);
        if (how == 5) {
            is("new", next[how], enip_adapter_new((char *)text, size, (void *)(arena + LOW), refusal) == ENIP_OK);
            is("new", "it is freed", enip_adapter_free(*(enip_adapter **)(void *)(arena + LOW)) == ENIP_OK);
        }
        memcpy(wants, &wanted, sizeof wanted);
        enip_client **client = (void *)next_to(how, wants, sizeof wanted, 8);
        is("new", next[how], enip_client_new((void *)wants, client) == ENIP_OK);
        is("new", "it is freed", enip_client_free(*client) == ENIP_OK);
        memcpy(middle, request, sizeof request);
        enip_once **once = (void *)next_to(how, middle, sizeof request, 8);
        is("resume", next[how], enip_once_resume(LIFE, ORIGINATOR, NUMBER, middle, sizeof request, once) == ENIP_OK);
        is("resume", "it is freed", enip_once_free(*once) == ENIP_OK);
    }
}

#ifdef LAYER
#define PASSED(name, ...)                                                                                    \
    is(name, "its arguments", call_count == 1 && strcmp(called, name) == 0                                   \
           && word_count == sizeof(uint64_t[]){__VA_ARGS__} / sizeof(uint64_t)                               \
           && memcmp(words, (uint64_t[]){__VA_ARGS__}, word_count * sizeof *words) == 0)

/* A refused configuration is explained, in a text that fits; otherwise nothing is written to the refusal. */
static void explained(enip_adapter **adapter, int status) {
    enip_refusal refusal;
    memset(&refusal, 0x5a, sizeof refusal);
    text_length = 3;
    call_count = 0;
    is("adapter_new", "its status", enip_adapter_new((char *)arena, 77, adapter, &refusal) == status);
    if (status != ENIP_CONFIGURATION) {
        PASSED("adapter_new", WORD(arena), 77);
        is("adapter_new", "no refusal", refusal.number == 0x5a5a5a5a && refusal.text[0] == 0x5a);
        return;
    }
    is("adapter_new", "two calls", call_count == 2 && strcmp(called, "explain") == 0);
    is("adapter_new", "what explains it", words[0] == WORD(arena) && words[1] == 77 && words[2] == sizeof refusal.text - 1);
    is("adapter_new", "the refusal", refusal.number == 9 && strcmp(refusal.text, "xxx") == 0 && refusal.text[4] == 0x5a);
    text_length = sizeof refusal.text - 1;
    is("adapter_new", "its status", enip_adapter_new((char *)arena, 77, adapter, &refusal) == status);
    is("adapter_new", "the longest text", strlen(refusal.text) == sizeof refusal.text - 1);
    text_length = sizeof refusal.text;
    is("adapter_new", "its status", enip_adapter_new((char *)arena, 77, adapter, &refusal) == status);
    is("adapter_new", "a text that does not fit", refusal.text[0] == '\0' && refusal.number == 9);
    is("adapter_new", "without a refusal", enip_adapter_new((char *)arena, 77, adapter, NULL) == status);
}

/* What the call that starts from a state passes on, and what it writes of a refusal. */
static void started(void) {
    for (core_status = 0; core_status < 22; core_status++) {
        for (int kind = 0; kind < 3; kind++) {
            const void *from = kind == 0 ? NULL : arena + HIGH;
            size_t size = kind == 0 ? 0 : 55;
            int status = (int)core_status, is_refused = status == ENIP_CONFIGURATION || status == ENIP_SAVED_STATE;
            enip_adapter *adapter = NULL;
            enip_refusal refusal = {7, "as before"};
            core_refused.number = kind == 2 ? ENIP_CONFIG_ORDER : 5;
            text_length = 3;
            call_count = 0;
            is("new_kept", "its status",
               enip_adapter_new_kept((char *)arena, 77, from, size, LIFE, &adapter, &refusal) == status);
            is("new_kept", "made, or unchanged", (adapter != NULL) == (status == ENIP_OK));
            if (!is_refused) {
                PASSED("adapter_new_kept", WORD(arena), 77, WORD(from), size, LIFE);
                is("new_kept", "no refusal", refusal.number == 7 && strcmp(refusal.text, "as before") == 0);
            } else {
                is("new_kept", "two calls", call_count == 2);
                is("new_kept", "the text of the configuration, or of the state",
                   strcmp(called, status == ENIP_CONFIGURATION && kind != 2 ? "explain" : "state_text") == 0);
                is("new_kept", "the refusal",
                   refusal.number == core_refused.number && strcmp(refusal.text, "xxx") == 0);
                is("new_kept", "without a refusal",
                   enip_adapter_new_kept((char *)arena, 77, from, size, LIFE, &adapter, NULL) == status);
            }
            is("new_kept", "freed", enip_adapter_free(adapter) == ENIP_OK);
        }
    }
    core_status = ENIP_OK;
}

/* What the calls that make and free objects pass on, and what they return if the core makes none. */
static void made(void) {
    static const char *const names[KINDS] = {"adapter_free", "endings_free", "client_free", "once_free"};
    enip_wants wants = {0};
    for (int resumed = 0; resumed < 2; resumed++) {
        for (core_status = 0; core_status < 22; core_status++) {
            void *objects[KINDS] = {NULL, NULL, NULL, NULL};
            enip_adapter *adapter = NULL;
            enip_endings *endings = NULL;
            enip_client *client = NULL;
            enip_once *once = NULL;
            int status = (int)core_status;
            explained(&adapter, status);
            call_count = 0;
            is("endings_new", "its status", enip_endings_new(&endings) == status);
            is("endings_new", "its call", call_count == 1 && strcmp(called, "endings_new") == 0);
            call_count = 0;
            is("client_new", "its status", enip_client_new(&wants, &client) == status);
            PASSED("client_new", WORD(&wants));
            call_count = 0;
            if (resumed) {
                is("once_resume", "its status", enip_once_resume(11, 12, 13, arena, 14, &once) == status);
                PASSED("once_resume", 11, 12, 13, WORD(arena), 14);
            } else {
                is("once_new", "its status", enip_once_new(11, 12, 13, &once) == status);
                PASSED("once_new", 11, 12, 13);
            }
            objects[ADAPTER] = adapter;
            objects[ENDINGS] = endings;
            objects[CLIENT] = client;
            objects[ONCE] = once;
            for (int kind = 0; kind < KINDS; kind++) {
                is("new", "made, or unchanged", (objects[kind] != NULL) == (status == ENIP_OK));
                if (status != ENIP_OK)
                    continue;
                call_count = 0;
                is(names[kind], "its status", frees(kind, objects[kind]) == ENIP_OK);
                PASSED(names[kind], WORD(objects[kind]));
            }
        }
    }
    core_status = ENIP_OK;
    is("new", "the core begins with no object", is_new_empty);
}

/* Without memory nothing is made, and the core is not called. */
static void made_without_memory(void) {
    enip_adapter *adapter = NULL;
    enip_endings *endings = NULL;
    enip_client *client = NULL;
    enip_once *once = NULL;
    enip_refusal refusal = {7, "as before"};
    enip_wants wants = {0};
    call_count = 0;
    is_memory_refused = 1;
    is("adapter_new", "out of memory", enip_adapter_new((char *)arena, 77, &adapter, &refusal) == ENIP_MEMORY);
    is("endings_new", "out of memory", enip_endings_new(&endings) == ENIP_MEMORY);
    is("client_new", "out of memory", enip_client_new(&wants, &client) == ENIP_MEMORY);
    is("once_new", "out of memory", enip_once_new(1, 2, 3, &once) == ENIP_MEMORY);
    is("once_resume", "out of memory", enip_once_resume(1, 2, 3, arena, 4, &once) == ENIP_MEMORY);
    is_memory_refused = 0;
    is("new", "nothing is made", adapter == NULL && endings == NULL && client == NULL && once == NULL);
    is("new", "nothing is written", refusal.number == 7 && strcmp(refusal.text, "as before") == 0);
    is("new", "the core is not called", call_count == 0);
}

/* What the owner gets, what it answers, and which calls of the same adapter it made. */
static enip_reply given;
static int answered, owner_count;
static enip_adapter *another;

/* The calls for the state, while the owner is asked by 9 bytes of peer 7: they get these, and may not write to them. */
static void within_state(enip_adapter *adapter) {
    static unsigned char room[64];
    unsigned char *bytes = arena + HIGH;
    uint64_t wide;
    uint32_t number;
    size_t size;
    int count = call_count;
    is("within", "a settle", enip_adapter_settle(adapter, 1, 2, registers, 4) == ENIP_MISUSE);
    is("within", "a save in the piece", enip_adapter_save(adapter, 1, bytes + 8, 9, &size) == ENIP_MISUSE);
    is("within", "a size in the piece", enip_adapter_save(adapter, 1, room, 9, (void *)(bytes + 8)) == ENIP_MISUSE);
    is("within", "a generation in the piece", enip_adapter_generation(adapter, NULL, 0, (void *)bytes) == ENIP_MISUSE);
    is("within", "a command in the piece", enip_adapter_asked_command(adapter, (void *)bytes, &number) == ENIP_MISUSE);
    is("within", "a number in the piece", enip_adapter_asked_command(adapter, &wide, (void *)bytes) == ENIP_MISUSE);
    is("within", "the core is not called", call_count == count);
    is("within", "a save", enip_adapter_save(adapter, 1, room, sizeof room, &size) == (int)core_status);
    is("within", "its piece", piece == bytes && piece_length == 9 && words[2] == 7);
    is("within", "a generation", enip_adapter_generation(adapter, NULL, 0, &wide) == (int)core_status);
    is("within", "its piece", piece == bytes && piece_length == 9 && words[1] == 7);
    is("within", "a command", enip_adapter_asked_command(adapter, &wide, &number) == (int)core_status);
    is("within", "its piece", piece == bytes && piece_length == 9 && words[1] == 7);
}

/* The calls that are misuse while the owner is asked. */
static void misuses(enip_adapter *adapter) {
    static unsigned char room[ENIP_ANSWER_ROOM];
    enip_fed fed;
    uint32_t number;
    int count = call_count;
    is("within", "a feed", enip_adapter_feed(adapter, 1, 2, registers, 3, room, sizeof room, &fed) == ENIP_MISUSE);
    is("within", "a serve",
       enip_adapter_serve(adapter, 1, 2, registers, 3, room, sizeof room, never, NULL, &fed) == ENIP_MISUSE);
    is("within", "a serve without an owner",
       enip_adapter_serve(adapter, 1, 2, registers, 3, room, sizeof room, NULL, NULL, &fed) == ENIP_MISUSE);
    is("within", "a begin", enip_adapter_begin(adapter, &number) == ENIP_MISUSE);
    is("within", "a tick", enip_adapter_tick(adapter, 1) == ENIP_MISUSE);
    is("within", "an end", enip_adapter_end(adapter, 1) == ENIP_MISUSE);
    is("within", "a free", enip_adapter_free(adapter) == ENIP_MISUSE);
    is("within", "the core is not called", call_count == count);
    is("within", "a read", enip_adapter_changes(adapter, 1, &number) == (int)core_status && call_count == count + 1);
    is("within", "another adapter", enip_adapter_tick(another, 1) == ENIP_OK && call_count == count + 2);
    within_state(adapter);
}

static int answering(void *context, const enip_asked *asked, enip_reply *reply) {
    static const enip_reply empty;
    size_t same = 0;
    owner_count++;
    is("owner", "its context", context == &owner_count);
    is("owner", "its reply is empty", memcmp(reply, &empty, sizeof empty) == 0);
    is("owner", "its request", asked->class_code == 1 && asked->instance == 2 && asked->service == 3
           && asked->has_attribute == 1 && asked->attribute == 4 && asked->length == 500 && asked->reply_limit == 6);
    while (same < asked->length && asked->data[same] == 'd')
        same++;
    is("owner", "its data", same == asked->length);
    misuses(valid[ADAPTER]);
    *reply = given;
    return answered;
}

/* A frame that asks: the owner is called once, and its reply is fed, unless it fails or its length is no range. */
static void serves(void) {
    static const size_t lengths[] = {0, 1, 479, 480, 481, SIZE_MAX};
    enip_adapter *adapter = valid[ADAPTER];
    enip_fed *fed = (void *)(arena + LOW);
    unsigned char *buffer = arena + MIDDLE, *bytes = arena + HIGH;
    core_asked = (struct asked){500, 2, 1, 4, 6, 3, 1};
    if (enip_adapter_new(configuration, sizeof configuration - 1, &another, NULL) != ENIP_OK)
        exit(9);
    for (size_t i = 0; i < sizeof lengths / sizeof *lengths * 3; i++) {
        int status, is_given;
        answered = i % 3 == 0 ? 0 : i % 3 == 1 ? 1 : -1;
        given = (enip_reply){lengths[i / 3], (uint8_t)i, {'r'}};
        is_given = answered == 0 && given.length <= 480;
        for (core_status = 0; core_status < 22; core_status++) {
            asked_status = ENIP_OK;
            owner_count = 0;
            status = enip_adapter_serve(adapter, NOW, 7, bytes, 9, buffer, 5000, answering, &owner_count, fed);
            is("adapter_serve", "the owner is asked once", owner_count == 1);
            is("adapter_serve", "its status",
               status == (answered != 0 ? ENIP_STATE : is_given ? (int)core_status : ENIP_MISUSE));
            is("adapter_serve", "what is asked",
               memcmp(asked_words, (uint64_t[]){WORD(adapter), NOW, 7, WORD(bytes), 9, 500}, 6 * sizeof *words) == 0);
            if (!is_given) {
                is("adapter_serve", "nothing is fed", strcmp(called, "adapter_asked_command") == 0);
                continue;
            }
            is("adapter_serve", "what is fed", strcmp(called, "adapter_feed_prepared") == 0
                   && memcmp(words, (uint64_t[]){WORD(adapter), NOW, 7, WORD(bytes), 9, i, 'r', given.length, 6,
                                                     WORD(buffer), 5000, WORD(fed)}, 12 * sizeof *words) == 0);
            is("adapter_save", "no piece afterwards", enip_adapter_save(adapter, 1, arena, 8, (size_t *)fed)
                   == (int)core_status && piece_length == 0);
        }
    }
    for (asked_status = 1; asked_status < 21; asked_status++) {
        call_count = 0;
        core_status = ENIP_OK;
        is("adapter_serve", "not asked", enip_adapter_serve(adapter, NOW, 7, bytes, 9, buffer, 5000, never, NULL, fed)
               == (asked_status == ENIP_ABSENT ? ENIP_OK : (int)asked_status));
        is("adapter_serve", "fed, or not", call_count == (asked_status == ENIP_ABSENT));
    }
    asked_status = ENIP_ABSENT;
    is("free", "another adapter", enip_adapter_free(another) == ENIP_OK);
}

/* The text of a number, in buffers of each size around its length, with a byte behind the buffer. */
static void texts(void) {
    for (text_length = 0; text_length <= 257; text_length++) {
        size_t length = text_length <= 256 ? text_length : 0;
        for (size_t size = 1; size < 260; size += size > 3 && size + 3 < length ? length - size - 3 : 1) {
            size_t shown = length < size ? length : size - 1;
            unsigned char near[400];
            char *buffer = (char *)near + 64, wanted[400];
            memset(near, 0xa5, sizeof near);
            memset(wanted, 0xa5, sizeof wanted);
            memset(wanted + 64, 'x', shown);
            wanted[64 + shown] = '\0';
            is("status_text", "its length", enip_status_text(-1, 5, buffer, size) == length);
            is("status_text", "its bytes", memcmp(near, wanted, sizeof near) == 0);
            is("status_text", "its call", words[0] == UINT32_MAX && words[1] == 5);
        }
    }
    call_count = 0;
    is("status_text", "NULL", enip_status_text(0, 0, NULL, 8) == 0);
    is("status_text", "no buffer", enip_status_text(0, 0, (char *)arena, 0) == 0);
    is("status_text", "PTRDIFF_MAX + 1", enip_status_text(0, 0, (char *)arena, (size_t)PTRDIFF_MAX + 1) == 0);
    is("status_text", "the core is not called", call_count == 0);
    text_length = 4;
    is("status_text", "PTRDIFF_MAX", enip_status_text(4, 1, (char *)arena, PTRDIFF_MAX) == 4);
    is("status_text", "its call", words[0] == 4 && words[1] == 1);
}
#endif

/* The objects that are right, and some that were freed. */
static int objects(void) {
    const enip_wants wants = {.rpi = 1000000, .o_to_t_size = 500, .t_to_o_size = 500};
    for (int round = 0; round < 2; round++) {
        void **to = round == 0 ? freed : valid;
        enip_adapter *adapter;
        enip_endings *endings;
        enip_client *client;
        enip_once *once;
        if (enip_adapter_new(configuration, sizeof configuration - 1, &adapter, NULL) != ENIP_OK
            || enip_endings_new(&endings) != ENIP_OK || enip_client_new(&wants, &client) != ENIP_OK
            || enip_once_new(LIFE, ORIGINATOR, NUMBER, &once) != ENIP_OK)
            return 0;
        to[ADAPTER] = adapter;
        to[ENDINGS] = endings;
        to[CLIENT] = client;
        to[ONCE] = once;
    }
    for (int kind = 0; kind < KINDS; kind++)
        is("free", "the first time", frees(kind, freed[kind]) == ENIP_OK);
    return enip_adapter_begin(valid[ADAPTER], &peer) == ENIP_OK;
}

int main(int count, char **arguments) {
    static char output[1 << 16];
    int with_freed = count == 2 && strcmp(arguments[1], "freed") == 0;
    setvbuf(stdout, output, _IOFBF, sizeof output);
    if (!objects())
        return 9;
    for (size_t i = 0; i < sizeof calls / sizeof *calls; i++) {
        struct call *call = &calls[i];
        if (strcmp(call->name, "adapter_feed") == 0 || strcmp(call->name, "adapter_serve") == 0)
            call->extras[1] = peer;
        if (strcmp(call->name, "adapter_end") == 0)
            call->extras[0] = peer + 100;
        handles(call, with_freed);
        one_by_one(call);
        pairs(call);
    }
    is("version", "that of the header", strcmp(enip_version(), ENIP_VERSION) == 0);
    frees_wrongly(with_freed);
    places(with_freed);
    commands(with_freed);
    offsets();
    updates(with_freed);
    values(with_freed);
    makes();
#ifdef LAYER
    serves();
#endif
    for (int kind = 0; kind < KINDS; kind++)
        is("free", "at the end", frees(kind, valid[kind]) == ENIP_OK);
    makes_next();
#ifdef LAYER
    made();
    started();
    made_without_memory();
    texts();
#endif
    printf("%d passed, %d failed\n", passed, failed);
    return failed != 0;
}
