/*
 * The layer between C and the proved calls of crates/enip_c. It refuses what a C caller can get wrong (NULL pointers,
 * foreign handles, empty or overlapping ranges), calls the owner of a device, and passes everything else on. It decides
 * nothing else.
 */
#include "enip.h"

#include <stdlib.h>
#include <string.h>

/* What the proved calls keep of an object: a pointer to it, NULL if there is none. */
struct kept {
    void *at;
};

enum { REFUSAL_LENGTH = 511, ASKED_DATA = 500 };

#define ADAPTER_MARK UINT64_C(0x656e69702d616461)
#define ENDINGS_MARK UINT64_C(0x656e69702d656e64)
#define CLIENT_MARK UINT64_C(0x656e69702d636c69)
#define ONCE_MARK UINT64_C(0x656e69702d6f6e63)

/*
 * The mark lies behind the bytes that an allocator overwrites in a freed block. While the owner is asked, the calls
 * that could change what is asked are misuse, and `asking` is the piece that asks. Otherwise it is empty.
 */
struct enip_adapter {
    struct kept kept;
    uint64_t spare[2];
    uint64_t mark;
    int is_asking;
    uint32_t asking_peer;
    const uint8_t *asking;
    size_t asking_length;
};

struct enip_endings {
    struct kept kept;
    uint64_t spare[2];
    uint64_t mark;
};

struct enip_client {
    struct kept kept;
    uint64_t spare[2];
    uint64_t mark;
};

struct enip_once {
    struct kept kept;
    uint64_t spare[2];
    uint64_t mark;
};

/* What the proved calls return of a request to the owner, apart from its data. */
struct asked {
    size_t length;
    uint32_t instance;
    uint16_t class_code, attribute, reply_limit;
    uint8_t service, has_attribute;
};

/* Why the proved calls refuse a configuration or a saved state: the check, and the version of the state. */
struct refused {
    uint32_t number, version;
};

uint32_t enip_core_adapter_new(struct kept *, const uint8_t *, size_t, uint32_t *);
uint32_t enip_core_adapter_new_kept(struct kept *, const uint8_t *, size_t, const uint8_t *, size_t, uint64_t,
                                    struct refused *);
uint32_t enip_core_adapter_save(struct kept *, uint64_t, uint32_t, const uint8_t *, size_t, uint8_t *, size_t,
                                size_t *);
uint32_t enip_core_adapter_generation(struct kept *, uint32_t, const uint8_t *, size_t, const uint8_t *, size_t,
                                      uint64_t *);
uint32_t enip_core_adapter_executing(struct kept *, uint32_t, const uint8_t *, size_t, uint64_t *, uint32_t *);
uint32_t enip_core_adapter_in_doubt(struct kept *, size_t, uint64_t *, uint32_t *);
uint32_t enip_core_adapter_settle(struct kept *, uint64_t, uint32_t, const uint8_t *, size_t);
void enip_core_adapter_free(struct kept *);
uint32_t enip_core_adapter_begin(struct kept *, uint32_t *);
uint32_t enip_core_adapter_begin_as(struct kept *, uint32_t, uint32_t, uint64_t, uint64_t, uint32_t *);
uint32_t enip_core_adapter_feed(struct kept *, uint64_t, uint32_t, const uint8_t *, size_t, uint8_t *, size_t,
                                enip_fed *);
uint32_t enip_core_adapter_asked(struct kept *, uint64_t, uint32_t, const uint8_t *, size_t, uint8_t *, size_t,
                                 struct asked *);
uint32_t enip_core_adapter_feed_prepared(struct kept *, uint64_t, uint32_t, const uint8_t *, size_t, uint8_t,
                                         const uint8_t *, size_t, uint16_t, uint8_t *, size_t, enip_fed *);
void enip_core_adapter_withdraw(struct kept *, uint64_t, uint32_t, const uint8_t *, size_t);
void enip_core_adapter_tick(struct kept *, uint64_t);
void enip_core_adapter_end(struct kept *, uint32_t);
uint32_t enip_core_adapter_deadline(struct kept *, uint64_t *);
uint32_t enip_core_adapter_read(struct kept *, uint16_t, uint32_t, uint16_t, uint8_t *, size_t, size_t *);
uint32_t enip_core_adapter_discover(struct kept *, const uint8_t *, size_t, uint8_t *, size_t, size_t *);
void enip_core_adapter_places(struct kept *, uint16_t *, uint16_t *);
uint32_t enip_core_adapter_write(struct kept *, uint32_t, size_t, const uint8_t *, size_t);
uint32_t enip_core_adapter_write_attribute(struct kept *, uint16_t, uint32_t, uint16_t, size_t, const uint8_t *,
                                           size_t);
uint32_t enip_core_adapter_changes(struct kept *, uint32_t, uint32_t *);
uint32_t enip_core_adapter_attribute_changes(struct kept *, uint16_t, uint32_t, uint16_t, uint32_t *);
uint32_t enip_core_adapter_resets(struct kept *, uint32_t *);
void enip_core_adapter_set_status(struct kept *, uint16_t);
void enip_core_adapter_set_state(struct kept *, uint8_t);
uint32_t enip_core_endings_new(struct kept *);
void enip_core_endings_free(struct kept *);
void enip_core_endings_update(struct kept *, struct kept *);
uint32_t enip_core_endings_at(struct kept *, size_t, enip_ended *);
size_t enip_core_explain(const uint8_t *, size_t, uint8_t *, size_t);
size_t enip_core_state_text(uint32_t, uint32_t, uint8_t *, size_t);
size_t enip_core_status_text(uint32_t, uint32_t, uint8_t *, size_t);
uint32_t enip_core_client_new(struct kept *, const enip_wants *);
void enip_core_client_free(struct kept *);
uint32_t enip_core_client_register(struct kept *, uint8_t *, size_t, size_t *);
uint32_t enip_core_client_open(struct kept *, uint8_t *, size_t, size_t *);
uint32_t enip_core_client_ask(struct kept *, const uint8_t *, size_t, uint8_t *, size_t, size_t *);
uint32_t enip_core_client_submit(struct kept *, const uint8_t *, size_t, uint8_t *, size_t, size_t *);
uint32_t enip_core_client_resend(struct kept *, uint8_t *, size_t, size_t *);
uint32_t enip_core_client_close(struct kept *, uint8_t *, size_t, size_t *);
uint32_t enip_core_client_unregister(struct kept *, uint8_t *, size_t, size_t *);
uint32_t enip_core_client_give_up(struct kept *);
uint32_t enip_core_client_feed(struct kept *, const uint8_t *, size_t, uint8_t *, size_t, enip_heard *);
uint32_t enip_core_once_new(struct kept *, uint64_t, uint64_t, uint32_t);
uint32_t enip_core_once_resume(struct kept *, uint64_t, uint64_t, uint32_t, const uint8_t *, size_t);
void enip_core_once_free(struct kept *);
uint32_t enip_core_once_command(struct kept *, const uint8_t *, size_t, uint8_t *, size_t, size_t *);
uint32_t enip_core_once_resend(struct kept *, uint8_t *, size_t, size_t *);
uint32_t enip_core_once_receive(struct kept *, const uint8_t *, size_t, uint8_t *, size_t, enip_outcome *);
uint32_t enip_core_once_withdraw(struct kept *, uint8_t *, size_t, size_t *);
uint32_t enip_core_once_withdrawn(struct kept *, const uint8_t *, size_t, uint8_t *, size_t, enip_outcome *);
uint32_t enip_core_once_abandon(struct kept *);
void enip_core_once_values(struct kept *, uint64_t *, uint64_t *, uint32_t *);
uint32_t enip_core_once_request(struct kept *, uint8_t *, size_t, size_t *);

static inline int is_range(const void *bytes, size_t length) {
    return bytes != NULL && length - 1 < (size_t)PTRDIFF_MAX;
}

static inline int are_apart(const void *a, size_t a_size, const void *b, size_t b_size) {
    uintptr_t from = (uintptr_t)a, other = (uintptr_t)b;
    return from + a_size <= other || other + b_size <= from;
}

static int is_adapter(const enip_adapter *adapter) {
    return adapter != NULL && adapter->mark == ADAPTER_MARK;
}

/* Whether a call may change an adapter's peers, connections or time. */
static int is_free_adapter(const enip_adapter *adapter) {
    return is_adapter(adapter) && !adapter->is_asking;
}

static int is_endings(const enip_endings *endings) {
    return endings != NULL && endings->mark == ENDINGS_MARK;
}

static int is_client(const enip_client *client) {
    return client != NULL && client->mark == CLIENT_MARK;
}

static int is_once(const enip_once *once) {
    return once != NULL && once->mark == ONCE_MARK;
}

/* Whether a call may write to the buffer and to *count. */
static int is_output(const void *buffer, size_t size, const size_t *count) {
    return is_range(buffer, size) && count != NULL && are_apart(buffer, size, count, sizeof *count);
}

/* Whether a call may read the bytes, and write to the buffer and the result. */
static inline int is_call(const void *bytes, size_t length, const void *buffer, size_t size, const void *result,
                          size_t result_size) {
    return is_range(bytes, length) && is_range(buffer, size) && result != NULL && are_apart(bytes, length, buffer, size)
        && are_apart(bytes, length, result, result_size) && are_apart(buffer, size, result, result_size);
}

/*
 * A proved call takes the object out of `kept` while it runs and puts it back, so it needs a pointer that is not const.
 * For a call that only reads, its contract says that the object is the same afterwards.
 */
static struct kept *kept_to_read(const struct kept *kept) {
    return (struct kept *)kept;
}

const char *enip_version(void) {
    return ENIP_VERSION;
}

size_t enip_status_text(int kind, uint32_t number, char *buffer, size_t size) {
    uint8_t text[256];
    size_t length, shown;
    if (!is_range(buffer, size))
        return 0;
    length = enip_core_status_text((uint32_t)kind, number, text, sizeof text);
    shown = length < size ? length : size - 1;
    memcpy(buffer, text, shown);
    buffer[shown] = '\0';
    return length;
}

/* Whether a call may read the text of a configuration, and write a new adapter and a refusal. */
static int is_making(const char *text, size_t length, enip_adapter *const *adapter, const enip_refusal *refusal) {
    return is_range(text, length) && adapter != NULL && are_apart(text, length, adapter, sizeof *adapter)
        && (refusal == NULL
            || (are_apart(text, length, refusal, sizeof *refusal)
                && are_apart(adapter, sizeof *adapter, refusal, sizeof *refusal)));
}

/* Whether a call may read a saved state. There may be none. */
static int is_state(const void *state, size_t length) {
    return state == NULL ? length == 0 : is_range(state, length);
}

/* The bytes of a saved state, which may be empty. */
static const uint8_t *state_bytes(const void *state) {
    static const uint8_t none[1];
    return state == NULL ? none : state;
}

/* An adapter that has no object yet, or NULL. */
static enip_adapter *empty_adapter(void) {
    enip_adapter *made = malloc(sizeof *made);
    if (made != NULL) {
        made->kept.at = NULL;
        made->is_asking = 0;
        made->asking_peer = 0;
        made->asking = state_bytes(NULL);
        made->asking_length = 0;
    }
    return made;
}

/* Returns an adapter that was made, or frees it. */
static int finish(enip_adapter *made, uint32_t status, enip_adapter **adapter) {
    if (status != ENIP_OK) {
        free(made);
        return (int)status;
    }
    made->mark = ADAPTER_MARK;
    *adapter = made;
    return ENIP_OK;
}

/* Writes why a configuration is refused: what is wrong with its text. */
static void refuse_text(enip_refusal *refusal, uint32_t number, const char *text, size_t length) {
    size_t shown;
    if (refusal == NULL)
        return;
    shown = enip_core_explain((const uint8_t *)text, length, (uint8_t *)refusal->text, REFUSAL_LENGTH);
    refusal->text[shown] = '\0';
    refusal->number = number;
}

/* Writes why a saved state is refused, or that no state of a configuration can be saved. */
static void refuse_state(enip_refusal *refusal, const struct refused *why) {
    size_t shown;
    if (refusal == NULL)
        return;
    shown = enip_core_state_text(why->number, why->version, (uint8_t *)refusal->text, REFUSAL_LENGTH);
    refusal->text[shown] = '\0';
    refusal->number = why->number;
}

int enip_adapter_new(const char *text, size_t length, enip_adapter **adapter, enip_refusal *refusal) {
    enip_adapter *made;
    uint32_t status, number = 0;
    if (!is_making(text, length, adapter, refusal))
        return ENIP_MISUSE;
    if ((made = empty_adapter()) == NULL)
        return ENIP_MEMORY;
    status = enip_core_adapter_new(&made->kept, (const uint8_t *)text, length, &number);
    if (status == ENIP_CONFIGURATION)
        refuse_text(refusal, number, text, length);
    return finish(made, status, adapter);
}

int enip_adapter_new_kept(const char *text, size_t length, const void *state, size_t state_length, uint64_t life,
                          enip_adapter **adapter, enip_refusal *refusal) {
    struct refused why = {0, 0};
    enip_adapter *made;
    uint32_t status;
    if (!is_making(text, length, adapter, refusal) || !is_state(state, state_length)
        || !are_apart(state, state_length, adapter, sizeof *adapter)
        || (refusal != NULL && !are_apart(state, state_length, refusal, sizeof *refusal)))
        return ENIP_MISUSE;
    if ((made = empty_adapter()) == NULL)
        return ENIP_MEMORY;
    status = enip_core_adapter_new_kept(&made->kept, (const uint8_t *)text, length, state_bytes(state), state_length,
                                        life, &why);
    if (status == ENIP_CONFIGURATION && why.number != ENIP_CONFIG_ORDER)
        refuse_text(refusal, why.number, text, length);
    else if (status == ENIP_CONFIGURATION || status == ENIP_SAVED_STATE)
        refuse_state(refusal, &why);
    return finish(made, status, adapter);
}

int enip_adapter_free(enip_adapter *adapter) {
    if (adapter == NULL)
        return ENIP_OK;
    if (!is_free_adapter(adapter))
        return ENIP_MISUSE;
    enip_core_adapter_free(&adapter->kept);
    *(volatile uint64_t *)&adapter->mark = 0;
    free(adapter);
    return ENIP_OK;
}

int enip_adapter_begin(enip_adapter *adapter, uint32_t *peer) {
    if (!is_free_adapter(adapter) || peer == NULL)
        return ENIP_MISUSE;
    return (int)enip_core_adapter_begin(&adapter->kept, peer);
}

/* The number of eight bytes, the most significant first. */
static uint64_t number_of(const uint8_t *bytes) {
    uint64_t number = 0;
    for (size_t i = 0; i < 8; i++)
        number = number << 8 | bytes[i];
    return number;
}

int enip_adapter_begin_as(enip_adapter *adapter, int rights, const uint8_t group[16], uint32_t *peer) {
    uint64_t high = 0, low = 0;
    if (!is_free_adapter(adapter) || peer == NULL || (rights != ENIP_MAY_WRITE && rights != ENIP_MAY_READ)
        || (group != NULL && !are_apart(group, 16, peer, sizeof *peer)))
        return ENIP_MISUSE;
    if (group != NULL) {
        high = number_of(group);
        low = number_of(group + 8);
    }
    return (int)enip_core_adapter_begin_as(&adapter->kept, (uint32_t)rights, group != NULL, high, low, peer);
}

/* What the frame withdraws is withdrawn before it is executed. Without room for an answer nothing changes. */
static int feed(enip_adapter *adapter, uint64_t now, uint32_t peer, const void *bytes, size_t length, void *buffer,
                size_t size, enip_fed *fed) {
    if (size >= ENIP_ANSWER_ROOM)
        enip_core_adapter_withdraw(&adapter->kept, now, peer, bytes, length);
    return (int)enip_core_adapter_feed(&adapter->kept, now, peer, bytes, length, buffer, size, fed);
}

int enip_adapter_feed(enip_adapter *adapter, uint64_t now, uint32_t peer, const void *bytes, size_t length,
                      void *buffer, size_t size, enip_fed *fed) {
    if (!is_free_adapter(adapter) || !is_call(bytes, length, buffer, size, fed, sizeof *fed))
        return ENIP_MISUSE;
    return feed(adapter, now, peer, bytes, length, buffer, size, fed);
}

/*
 * Calls the owner. A reply that is longer than its data is misuse; enip_core_adapter_feed_prepared refuses all others
 * that cannot be given.
 */
static int ask_owner(enip_adapter *adapter, int (*owner)(void *, const enip_asked *, enip_reply *), void *context,
                     const struct asked *got, const uint8_t *data, enip_reply *reply) {
    enip_asked asked = {data, got->length, got->reply_limit, got->instance, got->class_code, got->attribute,
                        got->has_attribute, got->service};
    int answer;
    memset(reply, 0, sizeof *reply);
    adapter->is_asking = 1;
    answer = owner(context, &asked, reply);
    adapter->is_asking = 0;
    adapter->asking = state_bytes(NULL);
    adapter->asking_length = 0;
    if (answer != 0)
        return ENIP_STATE;
    return reply->length <= sizeof reply->data ? ENIP_OK : ENIP_MISUSE;
}

int enip_adapter_serve(enip_adapter *adapter, uint64_t now, uint32_t peer, const void *bytes, size_t length,
                       void *buffer, size_t size,
                       int (*owner)(void *context, const enip_asked *asked, enip_reply *reply), void *context,
                       enip_fed *fed) {
    uint8_t data[ASKED_DATA];
    struct asked asked;
    enip_reply reply;
    uint32_t status;
    if (!is_free_adapter(adapter) || !is_call(bytes, length, buffer, size, fed, sizeof *fed))
        return ENIP_MISUSE;
    if (owner == NULL)
        return feed(adapter, now, peer, bytes, length, buffer, size, fed);
    if (size < ENIP_ANSWER_ROOM)
        return ENIP_ROOM;
    status = enip_core_adapter_asked(&adapter->kept, now, peer, bytes, length, data, sizeof data, &asked);
    if (status == ENIP_ABSENT)
        return feed(adapter, now, peer, bytes, length, buffer, size, fed);
    if (status == ENIP_OK) {
        adapter->asking_peer = peer;
        adapter->asking = bytes;
        adapter->asking_length = length;
        status = (uint32_t)ask_owner(adapter, owner, context, &asked, data, &reply);
    }
    if (status != ENIP_OK)
        return (int)status;
    return (int)enip_core_adapter_feed_prepared(&adapter->kept, now, peer, bytes, length, reply.status, reply.data,
                                                reply.length, asked.reply_limit, buffer, size, fed);
}

int enip_adapter_tick(enip_adapter *adapter, uint64_t now) {
    if (!is_free_adapter(adapter))
        return ENIP_MISUSE;
    enip_core_adapter_tick(&adapter->kept, now);
    return ENIP_OK;
}

int enip_adapter_deadline(const enip_adapter *adapter, uint64_t *deadline) {
    if (!is_adapter(adapter) || deadline == NULL)
        return ENIP_MISUSE;
    return (int)enip_core_adapter_deadline(kept_to_read(&adapter->kept), deadline);
}

int enip_adapter_end(enip_adapter *adapter, uint32_t peer) {
    if (!is_free_adapter(adapter))
        return ENIP_MISUSE;
    enip_core_adapter_end(&adapter->kept, peer);
    return ENIP_OK;
}

int enip_adapter_read(const enip_adapter *adapter, uint16_t class_code, uint32_t instance, uint16_t attribute,
                      void *buffer, size_t size, size_t *count) {
    if (!is_adapter(adapter) || !is_output(buffer, size, count))
        return ENIP_MISUSE;
    return (int)enip_core_adapter_read(kept_to_read(&adapter->kept), class_code, instance, attribute, buffer, size,
                                       count);
}

/* Unlike a piece of a stream, a datagram may be empty. */
int enip_adapter_discover(const enip_adapter *adapter, const void *datagram, size_t length, void *buffer, size_t size,
                          size_t *count) {
    if (!is_adapter(adapter) || datagram == NULL || length > (size_t)PTRDIFF_MAX || !is_output(buffer, size, count)
        || !are_apart(datagram, length, buffer, size) || !are_apart(datagram, length, count, sizeof *count))
        return ENIP_MISUSE;
    return (int)enip_core_adapter_discover(kept_to_read(&adapter->kept), datagram, length, buffer, size, count);
}

int enip_adapter_places(const enip_adapter *adapter, uint16_t *peers, uint16_t *connections) {
    if (!is_adapter(adapter) || peers == NULL || connections == NULL
        || !are_apart(peers, sizeof *peers, connections, sizeof *connections))
        return ENIP_MISUSE;
    enip_core_adapter_places(kept_to_read(&adapter->kept), peers, connections);
    return ENIP_OK;
}

int enip_adapter_write(enip_adapter *adapter, uint32_t instance, size_t offset, const void *bytes, size_t length) {
    if (!is_adapter(adapter) || !is_range(bytes, length) || offset > (size_t)PTRDIFF_MAX)
        return ENIP_MISUSE;
    return (int)enip_core_adapter_write(&adapter->kept, instance, offset, bytes, length);
}

int enip_adapter_write_attribute(enip_adapter *adapter, uint16_t class_code, uint32_t instance, uint16_t attribute,
                                 size_t offset, const void *bytes, size_t length) {
    if (!is_adapter(adapter) || !is_range(bytes, length) || offset > (size_t)PTRDIFF_MAX)
        return ENIP_MISUSE;
    return (int)enip_core_adapter_write_attribute(&adapter->kept, class_code, instance, attribute, offset, bytes,
                                                  length);
}

int enip_adapter_changes(const enip_adapter *adapter, uint32_t instance, uint32_t *changes) {
    if (!is_adapter(adapter) || changes == NULL)
        return ENIP_MISUSE;
    return (int)enip_core_adapter_changes(kept_to_read(&adapter->kept), instance, changes);
}

int enip_adapter_attribute_changes(const enip_adapter *adapter, uint16_t class_code, uint32_t instance,
                                   uint16_t attribute, uint32_t *changes) {
    if (!is_adapter(adapter) || changes == NULL)
        return ENIP_MISUSE;
    return (int)enip_core_adapter_attribute_changes(kept_to_read(&adapter->kept), class_code, instance, attribute,
                                                    changes);
}

int enip_adapter_resets(const enip_adapter *adapter, uint32_t *resets) {
    if (!is_adapter(adapter) || resets == NULL)
        return ENIP_MISUSE;
    return (int)enip_core_adapter_resets(kept_to_read(&adapter->kept), resets);
}

int enip_adapter_set_status(enip_adapter *adapter, uint16_t status) {
    if (!is_adapter(adapter))
        return ENIP_MISUSE;
    enip_core_adapter_set_status(&adapter->kept, status);
    return ENIP_OK;
}

int enip_adapter_set_state(enip_adapter *adapter, uint8_t state) {
    if (!is_adapter(adapter))
        return ENIP_MISUSE;
    enip_core_adapter_set_state(&adapter->kept, state);
    return ENIP_OK;
}

/* Whether a call may write to a range, also while the owner is asked: the piece that asks is still to be read. */
static int is_apart_from_piece(const enip_adapter *adapter, const void *range, size_t size) {
    return adapter->asking_length == 0 || are_apart(adapter->asking, adapter->asking_length, range, size);
}

int enip_adapter_save(const enip_adapter *adapter, uint64_t generation, void *buffer, size_t size, size_t *count) {
    if (!is_adapter(adapter) || !is_output(buffer, size, count) || !is_apart_from_piece(adapter, buffer, size)
        || !is_apart_from_piece(adapter, count, sizeof *count))
        return ENIP_MISUSE;
    return (int)enip_core_adapter_save(kept_to_read(&adapter->kept), generation, adapter->asking_peer,
                                       adapter->asking, adapter->asking_length, buffer, size, count);
}

int enip_adapter_generation(const enip_adapter *adapter, const void *state, size_t length, uint64_t *generation) {
    if (!is_adapter(adapter) || !is_state(state, length) || generation == NULL
        || !are_apart(state, length, generation, sizeof *generation)
        || !is_apart_from_piece(adapter, generation, sizeof *generation))
        return ENIP_MISUSE;
    return (int)enip_core_adapter_generation(kept_to_read(&adapter->kept), adapter->asking_peer, adapter->asking,
                                             adapter->asking_length, state_bytes(state), length, generation);
}

/* Whether a call may write who gave a command and its number. */
static int is_command(const enip_adapter *adapter, const uint64_t *originator, const uint32_t *number) {
    return originator != NULL && number != NULL && are_apart(originator, sizeof *originator, number, sizeof *number)
        && is_apart_from_piece(adapter, originator, sizeof *originator)
        && is_apart_from_piece(adapter, number, sizeof *number);
}

int enip_adapter_asked_command(const enip_adapter *adapter, uint64_t *originator, uint32_t *number) {
    if (!is_adapter(adapter) || !is_command(adapter, originator, number))
        return ENIP_MISUSE;
    return (int)enip_core_adapter_executing(kept_to_read(&adapter->kept), adapter->asking_peer, adapter->asking,
                                            adapter->asking_length, originator, number);
}

int enip_adapter_in_doubt(const enip_adapter *adapter, size_t index, uint64_t *originator, uint32_t *number) {
    if (!is_adapter(adapter) || !is_command(adapter, originator, number))
        return ENIP_MISUSE;
    return (int)enip_core_adapter_in_doubt(kept_to_read(&adapter->kept), index, originator, number);
}

int enip_adapter_settle(enip_adapter *adapter, uint64_t originator, uint32_t number, const void *reply, size_t length) {
    if (!is_free_adapter(adapter) || !is_range(reply, length))
        return ENIP_MISUSE;
    return (int)enip_core_adapter_settle(&adapter->kept, originator, number, reply, length);
}

int enip_endings_new(enip_endings **endings) {
    enip_endings *made;
    uint32_t status;
    if (endings == NULL)
        return ENIP_MISUSE;
    if ((made = malloc(sizeof *made)) == NULL)
        return ENIP_MEMORY;
    made->kept.at = NULL;
    status = enip_core_endings_new(&made->kept);
    if (status != ENIP_OK) {
        free(made);
        return (int)status;
    }
    made->mark = ENDINGS_MARK;
    *endings = made;
    return ENIP_OK;
}

int enip_endings_free(enip_endings *endings) {
    if (endings == NULL)
        return ENIP_OK;
    if (!is_endings(endings))
        return ENIP_MISUSE;
    enip_core_endings_free(&endings->kept);
    *(volatile uint64_t *)&endings->mark = 0;
    free(endings);
    return ENIP_OK;
}

int enip_endings_update(enip_endings *endings, const enip_adapter *adapter) {
    if (!is_endings(endings) || !is_adapter(adapter))
        return ENIP_MISUSE;
    enip_core_endings_update(&endings->kept, kept_to_read(&adapter->kept));
    return ENIP_OK;
}

int enip_endings_at(const enip_endings *endings, size_t index, enip_ended *ended) {
    if (!is_endings(endings) || ended == NULL)
        return ENIP_MISUSE;
    return (int)enip_core_endings_at(kept_to_read(&endings->kept), index, ended);
}

int enip_client_new(const enip_wants *wants, enip_client **client) {
    enip_client *made;
    uint32_t status;
    if (wants == NULL || client == NULL || !are_apart(wants, sizeof *wants, client, sizeof *client))
        return ENIP_MISUSE;
    if ((made = malloc(sizeof *made)) == NULL)
        return ENIP_MEMORY;
    made->kept.at = NULL;
    status = enip_core_client_new(&made->kept, wants);
    if (status != ENIP_OK) {
        free(made);
        return (int)status;
    }
    made->mark = CLIENT_MARK;
    *client = made;
    return ENIP_OK;
}

int enip_client_free(enip_client *client) {
    if (client == NULL)
        return ENIP_OK;
    if (!is_client(client))
        return ENIP_MISUSE;
    enip_core_client_free(&client->kept);
    *(volatile uint64_t *)&client->mark = 0;
    free(client);
    return ENIP_OK;
}

#define WRITES(call)                                                                        \
    int enip_client_##call(enip_client *client, void *buffer, size_t size, size_t *count) { \
        if (!is_client(client) || !is_output(buffer, size, count))                          \
            return ENIP_MISUSE;                                                             \
        return (int)enip_core_client_##call(&client->kept, buffer, size, count);            \
    }

WRITES(register)
WRITES(open)
WRITES(resend)
WRITES(close)
WRITES(unregister)

#define WRITES_REQUEST(call)                                                                                   \
    int enip_client_##call(enip_client *client, const void *request, size_t length, void *buffer, size_t size, \
                           size_t *count) {                                                                    \
        if (!is_client(client) || !is_call(request, length, buffer, size, count, sizeof *count))               \
            return ENIP_MISUSE;                                                                                \
        return (int)enip_core_client_##call(&client->kept, request, length, buffer, size, count);              \
    }

WRITES_REQUEST(ask)
WRITES_REQUEST(submit)

int enip_client_give_up(enip_client *client) {
    if (!is_client(client))
        return ENIP_MISUSE;
    return (int)enip_core_client_give_up(&client->kept);
}

int enip_client_feed(enip_client *client, const void *bytes, size_t length, void *buffer, size_t size,
                     enip_heard *heard) {
    if (!is_client(client) || !is_call(bytes, length, buffer, size, heard, sizeof *heard))
        return ENIP_MISUSE;
    return (int)enip_core_client_feed(&client->kept, bytes, length, buffer, size, heard);
}

/* Gives the handle of a commander that was made, or frees it if none was made. */
static int give_once(enip_once *made, uint32_t status, enip_once **once) {
    if (status != ENIP_OK) {
        free(made);
        return (int)status;
    }
    made->mark = ONCE_MARK;
    *once = made;
    return ENIP_OK;
}

int enip_once_new(uint64_t life, uint64_t originator, uint32_t last_number, enip_once **once) {
    enip_once *made;
    if (once == NULL)
        return ENIP_MISUSE;
    if ((made = malloc(sizeof *made)) == NULL)
        return ENIP_MEMORY;
    made->kept.at = NULL;
    return give_once(made, enip_core_once_new(&made->kept, life, originator, last_number), once);
}

int enip_once_resume(uint64_t life, uint64_t originator, uint32_t last_number, const void *request, size_t length,
                     enip_once **once) {
    enip_once *made;
    if (!is_range(request, length) || once == NULL || !are_apart(request, length, once, sizeof *once))
        return ENIP_MISUSE;
    if ((made = malloc(sizeof *made)) == NULL)
        return ENIP_MEMORY;
    made->kept.at = NULL;
    return give_once(made, enip_core_once_resume(&made->kept, life, originator, last_number, request, length), once);
}

int enip_once_free(enip_once *once) {
    if (once == NULL)
        return ENIP_OK;
    if (!is_once(once))
        return ENIP_MISUSE;
    enip_core_once_free(&once->kept);
    *(volatile uint64_t *)&once->mark = 0;
    free(once);
    return ENIP_OK;
}

int enip_once_command(enip_once *once, const void *request, size_t length, void *buffer, size_t size, size_t *count) {
    if (!is_once(once) || !is_call(request, length, buffer, size, count, sizeof *count))
        return ENIP_MISUSE;
    return (int)enip_core_once_command(&once->kept, request, length, buffer, size, count);
}

int enip_once_resend(const enip_once *once, void *buffer, size_t size, size_t *count) {
    if (!is_once(once) || !is_output(buffer, size, count))
        return ENIP_MISUSE;
    return (int)enip_core_once_resend(kept_to_read(&once->kept), buffer, size, count);
}

int enip_once_receive(enip_once *once, const void *reply, size_t length, void *buffer, size_t size,
                      enip_outcome *outcome) {
    if (!is_once(once) || !is_call(reply, length, buffer, size, outcome, sizeof *outcome))
        return ENIP_MISUSE;
    return (int)enip_core_once_receive(&once->kept, reply, length, buffer, size, outcome);
}

int enip_once_withdraw(const enip_once *once, void *buffer, size_t size, size_t *count) {
    if (!is_once(once) || !is_output(buffer, size, count))
        return ENIP_MISUSE;
    return (int)enip_core_once_withdraw(kept_to_read(&once->kept), buffer, size, count);
}

int enip_once_withdrawn(enip_once *once, const void *reply, size_t length, void *buffer, size_t size,
                        enip_outcome *outcome) {
    if (!is_once(once) || !is_call(reply, length, buffer, size, outcome, sizeof *outcome))
        return ENIP_MISUSE;
    return (int)enip_core_once_withdrawn(&once->kept, reply, length, buffer, size, outcome);
}

int enip_once_abandon(enip_once *once) {
    if (!is_once(once))
        return ENIP_MISUSE;
    return (int)enip_core_once_abandon(&once->kept);
}

int enip_once_values(const enip_once *once, uint64_t *life, uint64_t *originator, uint32_t *last_number) {
    if (!is_once(once) || life == NULL || originator == NULL || last_number == NULL
        || !are_apart(life, sizeof *life, originator, sizeof *originator)
        || !are_apart(life, sizeof *life, last_number, sizeof *last_number)
        || !are_apart(originator, sizeof *originator, last_number, sizeof *last_number))
        return ENIP_MISUSE;
    enip_core_once_values(kept_to_read(&once->kept), life, originator, last_number);
    return ENIP_OK;
}

int enip_once_request(const enip_once *once, void *buffer, size_t size, size_t *count) {
    if (!is_once(once) || !is_output(buffer, size, count))
        return ENIP_MISUSE;
    return (int)enip_core_once_request(kept_to_read(&once->kept), buffer, size, count);
}
