/* A device written by hand in C, without the library. It has the calls of enip.h that library.c makes.
 *
 * It has what the configuration of library.c describes: Identity, assembly 100 of 4 bytes and a counter, 16 peers and 64
 * connections. It checks the measured frames as docs/PROTOCOL.md requires: header, session, items, path, object, data
 * size, the connection and its session, its count and its deadline. It refuses every other request: it has no lists of
 * attributes, no large connections and no closing, and it opens all connections alike. */
#include <enip.h>
#include <stdlib.h>
#include <string.h>

enum { HEADER = 24, PEERS = 16, CONNECTIONS = 64, LONGEST_FRAME = HEADER + 65535, REPLY_CAPACITY = 504 };
enum { RR_FRONT = 16, UNIT_FRONT = 22, NO_PACKET = 0x03, NO_SESSION = 0x64, NO_COMMAND = 0x01, NO_VERSION = 0x69 };

struct peer {
    uint32_t handle;
    int is_registered;
    size_t held;
    unsigned char bytes[LONGEST_FRAME];
};

struct connection {
    int is_open, has_reply;
    uint32_t session, to_originator;
    uint16_t count;
    uint64_t timeout, deadline;
    size_t size;
    unsigned char reply[REPLY_CAPACITY];
};

struct enip_adapter {
    uint64_t now, earliest;
    uint32_t handles, counter, limit;
    unsigned char assembly[4];
    struct peer peers[PEERS];
    struct connection connections[CONNECTIONS];
};

static uint16_t le16(const unsigned char *at) {
    return (uint16_t)(at[0] | at[1] << 8);
}

static uint32_t le32(const unsigned char *at) {
    return at[0] | (uint32_t)at[1] << 8 | (uint32_t)at[2] << 16 | (uint32_t)at[3] << 24;
}

static unsigned char *put16(unsigned char *at, uint32_t value) {
    at[0] = (unsigned char)value, at[1] = (unsigned char)(value >> 8);
    return at + 2;
}

static unsigned char *put32(unsigned char *at, uint32_t value) {
    return put16(put16(at, value), value >> 16);
}

struct path {
    uint32_t class_code, instance, attribute;
};

/* Reads logical segments of 8 and 16 bits. Returns 0 if there is another segment. */
static int read_path(const unsigned char *at, const unsigned char *end, struct path *path) {
    while (at < end) {
        int wide = *at & 3;
        uint32_t value;
        if (wide > 1 || end - at < (wide ? 4 : 2))
            return 0;
        value = wide ? le16(at + 2) : at[1];
        switch (*at & 0xfc) {
        case 0x20: path->class_code = value; break;
        case 0x24: path->instance = value; break;
        case 0x30: path->attribute = value; break;
        default: return 0;
        }
        at += wide ? 4 : 2;
    }
    return 1;
}

/* A request to the message router: its service, its path, and its data. */
struct request {
    unsigned char service;
    struct path path;
    const unsigned char *data;
    size_t size;
};

static size_t status_reply(unsigned char *reply, unsigned char service, uint32_t status) {
    put16(put16(reply, service | 0x80u), status);
    return 4;
}

static size_t data_reply(unsigned char *reply, unsigned char service, const unsigned char *end) {
    status_reply(reply, service, 0);
    return (size_t)(end - reply);
}

static unsigned char *put_attribute(unsigned char *at, uint32_t attribute) {
    switch (attribute) {
    case 1: return put16(at, 0x1234);
    case 2: return put16(at, 43);
    case 3: return put16(at, 7);
    case 4: return put16(at, 2 | 5 << 8);
    case 5: return put16(at, 0);
    case 6: return put32(at, 0x01020304);
    case 7: return memcpy(at, "\4Demo", 5), at + 5;
    default: return NULL;
    }
}

static size_t identity(const struct request *asked, unsigned char *reply) {
    unsigned char *end;
    if (asked->service != 0x0e)
        return status_reply(reply, asked->service, 0x08);
    if (asked->size != 0)
        return status_reply(reply, asked->service, 0x15);
    if ((end = put_attribute(reply + 4, asked->path.attribute)) == NULL)
        return status_reply(reply, asked->service, 0x14);
    return data_reply(reply, asked->service, end);
}

static size_t assembly(enip_adapter *adapter, const struct request *asked, unsigned char *reply) {
    if (asked->service != 0x0e && asked->service != 0x10)
        return status_reply(reply, asked->service, 0x08);
    if (asked->path.attribute != 3)
        return status_reply(reply, asked->service, 0x14);
    if (asked->service == 0x0e) {
        memcpy(reply + 4, adapter->assembly, sizeof adapter->assembly);
        return data_reply(reply, asked->service, reply + 4 + sizeof adapter->assembly);
    }
    if (asked->size != sizeof adapter->assembly)
        return status_reply(reply, asked->service, asked->size < sizeof adapter->assembly ? 0x13 : 0x15);
    memcpy(adapter->assembly, asked->data, sizeof adapter->assembly);
    return status_reply(reply, asked->service, 0);
}

static size_t counter(enip_adapter *adapter, const struct request *asked, unsigned char *reply) {
    if (asked->service != 0x32)
        return status_reply(reply, asked->service, 0x08);
    if (asked->size != 4)
        return status_reply(reply, asked->service, asked->size < 4 ? 0x13 : 0x15);
    if (le32(asked->data) > adapter->limit - adapter->counter)
        return status_reply(reply, asked->service, 0x20);
    adapter->counter += le32(asked->data);
    return data_reply(reply, asked->service, put32(reply + 4, adapter->counter));
}

static int read_request(const unsigned char *bytes, size_t size, struct request *asked) {
    size_t path = size < 2 ? 0 : 2 * (size_t)bytes[1];
    memset(asked, 0, sizeof *asked);
    asked->service = size < 1 ? 0 : bytes[0];
    if (size < 2 || size - 2 < path || !read_path(bytes + 2, bytes + 2 + path, &asked->path))
        return 0;
    asked->data = bytes + 2 + path;
    asked->size = size - 2 - path;
    return 1;
}

static size_t execute(enip_adapter *adapter, const struct request *asked, unsigned char *reply) {
    if (asked->path.class_code == 1 && asked->path.instance == 1)
        return identity(asked, reply);
    if (asked->path.class_code == 4 && asked->path.instance == 100)
        return assembly(adapter, asked, reply);
    if (asked->path.class_code == 0x64 && asked->path.instance == 1)
        return counter(adapter, asked, reply);
    return status_reply(reply, asked->service, 0x05);
}

/* Forward_Open: opens a connection of 500 bytes each way, with the first free ID. */
static size_t open_connection(enip_adapter *adapter, struct peer *peer, const struct request *asked, unsigned char *reply) {
    struct connection *made = adapter->connections;
    unsigned char *at = reply + 4;
    while (made < adapter->connections + CONNECTIONS && made->is_open)
        made++;
    if (asked->size < 36 || made == adapter->connections + CONNECTIONS || asked->data[34] != 0xa3)
        return status_reply(reply, asked->service, 0x01);
    memset(made, 0, sizeof *made);
    made->is_open = 1;
    made->session = peer->handle;
    made->to_originator = le32(asked->data + 6);
    made->timeout = (uint64_t)le32(asked->data + 22) << (2 + asked->data[18]);
    made->deadline = adapter->now + (made->timeout < 10000000 ? 10000000 : made->timeout);
    if (made->deadline < adapter->earliest)
        adapter->earliest = made->deadline;
    at = put32(put32(at, (uint32_t)(made - adapter->connections) + 1), made->to_originator);
    memcpy(at, asked->data + 10, 8);
    at = put32(put32(at + 8, le32(asked->data + 22)), le32(asked->data + 28));
    return data_reply(reply, asked->service, put16(at, 0));
}

/* Answers an unconnected request. Returns the size of the answer's data, 0 if the packet is malformed. */
static size_t serve_unconnected(enip_adapter *adapter, struct peer *peer, const unsigned char *data, size_t size,
                                unsigned char *answer) {
    struct request asked;
    unsigned char *reply = answer + RR_FRONT, *at = answer;
    size_t count;
    if (size < RR_FRONT || le32(data) != 0 || le16(data + 6) != 2 || le32(data + 8) != 0 || le16(data + 12) != 0xb2
        || le16(data + 14) != size - RR_FRONT)
        return 0;
    if (!read_request(data + RR_FRONT, size - RR_FRONT, &asked))
        count = status_reply(reply, asked.service, 0x04);
    else if (asked.service == 0x54 && asked.path.class_code == 6 && asked.path.instance == 1)
        count = open_connection(adapter, peer, &asked, reply);
    else
        count = execute(adapter, &asked, reply);
    at = put32(put16(put16(put32(at, 0), 0), 2), 0);
    at = put16(put16(at, 0xb2), (uint32_t)count);
    return (size_t)(at - answer) + count;
}

/* Executes an item of a connection once: a repeat of its count gets the kept reply. Returns 0 if there is no answer. */
static size_t serve_connected(enip_adapter *adapter, struct peer *peer, const unsigned char *data, size_t size,
                              unsigned char *answer) {
    struct connection *on;
    struct request asked;
    unsigned char *at = answer;
    uint32_t id;
    if (size < UNIT_FRONT || le32(data) != 0 || le16(data + 6) != 2 || le16(data + 8) != 0xa1 || le16(data + 10) != 4
        || le16(data + 16) != 0xb1 || le16(data + 18) != size - 20)
        return 0;
    id = le32(data + 12);
    if (id == 0 || id > CONNECTIONS || !(on = &adapter->connections[id - 1])->is_open || on->session != peer->handle)
        return 0;
    if (!on->has_reply || on->count != le16(data + 20)) {
        on->has_reply = 1;
        on->count = le16(data + 20);
        on->size = read_request(data + UNIT_FRONT, size - UNIT_FRONT, &asked)
            ? execute(adapter, &asked, on->reply) : status_reply(on->reply, asked.service, 0x04);
    }
    on->deadline = adapter->now + on->timeout;
    if (on->deadline < adapter->earliest)
        adapter->earliest = on->deadline;
    at = put16(put16(put32(put16(at, 0), 0), 2), 0xa1);
    at = put32(put16(at, 4), on->to_originator);
    at = put16(put16(put16(at, 0xb1), (uint32_t)on->size + 2), on->count);
    memcpy(at, on->reply, on->size);
    return UNIT_FRONT + on->size;
}

/* Answers a whole frame. Returns the size of the answer in the buffer, 0 if there is none. */
static size_t serve(enip_adapter *adapter, struct peer *peer, const unsigned char *frame, size_t whole,
                    unsigned char *buffer) {
    uint32_t command = le16(frame), session = le32(frame + 4), status = 0;
    const unsigned char *data = frame + HEADER;
    size_t size = whole - HEADER, count = 0;
    if (le32(frame + 8) != 0 || le32(frame + 20) != 0 || command == 0)
        return 0;
    if (command == 0x65) {
        if (size != 4 || le16(data) != 1 || le16(data + 2) != 0 || peer->is_registered)
            status = NO_VERSION;
        peer->is_registered |= status == 0;
        session = status == 0 ? peer->handle : session;
        memcpy(buffer + HEADER, data, count = size < 4 ? size : 4);
    } else if (command != 0x6f && command != 0x70) {
        status = NO_COMMAND;
    } else if (!peer->is_registered || session != peer->handle) {
        status = NO_SESSION;
    } else if (command == 0x70) {
        if ((count = serve_connected(adapter, peer, data, size, buffer + HEADER)) == 0)
            return 0;
    } else if ((count = serve_unconnected(adapter, peer, data, size, buffer + HEADER)) == 0) {
        status = NO_PACKET;
    }
    put32(put32(put16(put16(buffer, command), (uint32_t)count), session), status);
    memcpy(buffer + 12, frame + 12, 8);
    put32(buffer + 20, 0);
    return HEADER + count;
}

/* Sets the time, and ends the connections whose deadline it has reached. */
static void advance(enip_adapter *adapter, uint64_t now) {
    if (now > adapter->now)
        adapter->now = now;
    if (adapter->now < adapter->earliest)
        return;
    adapter->earliest = UINT64_MAX;
    for (struct connection *on = adapter->connections; on < adapter->connections + CONNECTIONS; on++) {
        if (on->is_open && on->deadline <= adapter->now)
            on->is_open = 0;
        if (on->is_open && on->deadline < adapter->earliest)
            adapter->earliest = on->deadline;
    }
}

static struct peer *peer_of(enip_adapter *adapter, uint32_t handle) {
    for (struct peer *peer = adapter->peers; peer < adapter->peers + PEERS; peer++)
        if (peer->handle == handle && handle != 0)
            return peer;
    return NULL;
}

/* The size of a frame of which `size` bytes have come; HEADER if its length has not come yet. */
static size_t whole_of(const unsigned char *bytes, size_t size) {
    return size < HEADER ? HEADER : HEADER + (size_t)le16(bytes + 2);
}

int enip_adapter_feed(enip_adapter *adapter, uint64_t now, uint32_t handle, const void *bytes, size_t length,
                      void *buffer, size_t size, enip_fed *fed) {
    const unsigned char *frame = bytes;
    struct peer *peer;
    size_t whole;
    if (adapter == NULL || bytes == NULL || length == 0 || buffer == NULL || fed == NULL)
        return ENIP_MISUSE;
    if (size < ENIP_ANSWER_ROOM)
        return ENIP_ROOM;
    advance(adapter, now);
    memset(fed, 0, sizeof *fed);
    if ((peer = peer_of(adapter, handle)) == NULL) {
        fed->close = 1;
        return ENIP_OK;
    }
    if (peer->held == 0 && length >= HEADER && length >= (whole = whole_of(frame, length))) {
        fed->taken = whole; /* the frame is complete in the piece, and read there */
    } else {
        while (fed->taken < length && peer->held < whole_of(peer->bytes, peer->held))
            peer->bytes[peer->held++] = frame[fed->taken++];
        whole = whole_of(peer->bytes, peer->held);
        if (peer->held < whole || peer->held < HEADER)
            return ENIP_OK;
        frame = peer->bytes;
        peer->held = 0;
    }
    fed->answer = serve(adapter, peer, frame, whole, buffer);
    return ENIP_OK;
}

int enip_adapter_new(const char *text, size_t length, enip_adapter **adapter, enip_refusal *refusal) {
    (void)text, (void)length, (void)refusal;
    if ((*adapter = calloc(1, sizeof **adapter)) == NULL)
        return ENIP_MEMORY;
    (*adapter)->limit = 100;
    (*adapter)->earliest = UINT64_MAX;
    return ENIP_OK;
}

int enip_adapter_begin(enip_adapter *adapter, uint32_t *handle) {
    for (struct peer *peer = adapter->peers; peer < adapter->peers + PEERS; peer++) {
        if (peer->handle == 0) {
            *handle = peer->handle = ++adapter->handles;
            return ENIP_OK;
        }
    }
    return ENIP_PLACES;
}

int enip_adapter_free(enip_adapter *adapter) {
    free(adapter);
    return ENIP_OK;
}
