/*
 * enip.h: an EtherNet/IP adapter and a client for explicit messages (ODVA CIP Networks Library, Volumes 1 and 2).
 *
 * You pass bytes and times in and get bytes back. No call opens a socket, reads a clock, starts a thread, blocks,
 * prints or ends the program. No call allocates memory, except the calls that make an object (enip_adapter_new,
 * enip_adapter_new_kept, enip_endings_new, enip_client_new, enip_once_new, enip_once_resume).
 *
 * Use an object in one call at a time, also if the calls only read it. Objects share nothing: two threads may use two
 * objects at once.
 *
 * A call that returns a status other than ENIP_OK has changed nothing: neither the object nor what its pointers point
 * to. Where a call differs, its comment says so.
 *
 * Every call that returns a status returns ENIP_MISUSE if
 *   - a pointer is NULL, unless its comment allows it,
 *   - the handle was not created by this library, or was freed,
 *   - a range of bytes to read or a buffer is empty, unless its comment allows it, or a length or an offset is over
 *     PTRDIFF_MAX,
 *   - the bytes to read, the buffer and the results (such as *count and *fed) overlap.
 *
 * Times are in microseconds from any start, as CLOCK_MONOTONIC gives them.
 *
 * C99 and C++17; Linux on x86-64 and on 64-bit ARM. Link with -lenip. The library depends on nothing but libc.
 */
#ifndef ENIP_H
#define ENIP_H

#include <stddef.h>
#include <stdint.h>

#define ENIP_VERSION "0.2.0"

#if defined(__GNUC__)
#define ENIP_API __attribute__((visibility("default")))
#else
#define ENIP_API
#endif

#ifdef __cplusplus
extern "C" {
#endif

/* The status that a call returns. */
enum {
    ENIP_OK = 0,            /* success */
    ENIP_MISUSE = 1,        /* an argument is not allowed (see above) */
    ENIP_ROOM = 2,          /* the buffer is smaller than the call requires */
    ENIP_MEMORY = 3,        /* out of memory */
    ENIP_CONFIGURATION = 4, /* the configuration is refused */
    ENIP_PLACES = 5,        /* all peer slots are taken */
    ENIP_HANDLES = 6,       /* all session handles have been given out */
    ENIP_ABSENT = 7,        /* it does not exist */
    ENIP_STATE = 8,         /* the call is not possible in this state */
    ENIP_FAILED = 9,        /* an awaited reply had a nonzero encapsulation status: the client has failed for good */
    ENIP_REFUSED = 10,      /* the device refused an open or a close */
    ENIP_TOO_LONG = 11,     /* a header gave a length over 65,511: the client has failed for good */
    ENIP_MALFORMED = 12,    /* an awaited reply was malformed: the client has failed for good */
    ENIP_REQUEST = 13,      /* the bytes are not a request */
    ENIP_WAITING = 14,      /* another request is waiting for its reply */
    ENIP_LONG_REQUEST = 15, /* the request is longer than the connection's size, or a command, allows */
    ENIP_GIVEN_UP = 16,     /* a request was given up */
    ENIP_ABANDONED = 17,    /* 65,535 requests were submitted since the last accepted reply */
    ENIP_WANTS = 18,        /* a connection size in enip_wants is out of range */
    ENIP_NUMBERS = 19,      /* no command number is left for this originator */
    ENIP_SAVED_STATE = 20,  /* the saved state is refused */
    ENIP_SHARE = 21         /* all peer slots of this group are taken */
};

/*
 * The smallest buffer for the answer of enip_adapter_feed and enip_adapter_serve, in bytes. Any answer of
 * enip_adapter_discover fits in it.
 */
#define ENIP_ANSWER_ROOM 4046

/* The smallest buffer for a frame of the client, in bytes. */
#define ENIP_FRAME_ROOM 4046

/* The smallest buffer for a reply of enip_client_feed, in bytes. */
#define ENIP_REPLY_ROOM 65535

/* The smallest buffer for the message of enip_once_command, in bytes. */
#define ENIP_MESSAGE_ROOM 504

/* Returns the version of the library in use; ENIP_VERSION is the version of this header. Never NULL, never freed. */
ENIP_API const char *enip_version(void);

/* The kinds of numbers that enip_status_text explains. */
enum {
    ENIP_OF_CALL = 0,     /* the status of a call: ENIP_OK to ENIP_SHARE */
    ENIP_OF_NO_REPLY = 1, /* why a frame got no answer: ENIP_NO_REPLY_INCOMPLETE and the following */
    ENIP_OF_GENERAL = 2,  /* the general status of a reply, 0x00 to 0xff */
    ENIP_OF_EXTENDED = 3, /* the extended status of the Connection Manager, 0x0000 to 0xffff */
    ENIP_OF_ENDING = 4    /* why a connection ended: ENIP_ENDED_TIMED_OUT and the following */
};

/*
 * Writes the text of a number to buffer, followed by a 0 byte. If the text does not fit, buffer gets its first
 * size - 1 bytes. kind is one of ENIP_OF_CALL and the following.
 * Returns the length of the whole text. Returns 0 if the number has no text, kind is unknown, buffer is NULL, or size
 * is 0 or over PTRDIFF_MAX. In these cases nothing is written, except the 0 byte if buffer and size allow it.
 */
ENIP_API size_t enip_status_text(int kind, uint32_t number, char *buffer, size_t size);

/* ---- the adapter ---- */

typedef struct enip_adapter enip_adapter;

/* Why a configuration is refused: the checks of docs/PROGRAM.md, "The configuration". There is no check 6. */
enum {
    ENIP_CONFIG_NAME = 1,       /* the name is longer than 32 bytes, or has a byte outside 0x20 to 0x7e */
    ENIP_CONFIG_SIZE = 2,       /* more than 16 assemblies, or one of 0 or more than 3,900 bytes */
    ENIP_CONFIG_MEMBERS = 3,    /* an assembly of more than 64 members, or a member of 0 bytes */
    ENIP_CONFIG_INSTANCE = 4,   /* an assembly's instance is 0 or used twice */
    ENIP_CONFIG_LIMIT = 5,      /* the counter's value is over its limit */
    ENIP_CONFIG_TOML = 7,       /* the text is not TOML, or not UTF-8 */
    ENIP_CONFIG_VALUE = 8,      /* a value is missing, of another type or out of range */
    ENIP_CONFIG_KEY = 9,        /* a key is unknown */
    ENIP_CONFIG_OBJECT = 10,    /* an application object: its class, instance or name, or more than 32 objects */
    ENIP_CONFIG_ATTRIBUTE = 11, /* an attribute of one: its number, type, value, range or size, or more than 32 */
    ENIP_CONFIG_SERVICE = 12,   /* a service of one: its number or sizes, or more than 16 */
    ENIP_CONFIG_ORDER = 13,     /* enip_adapter_new_kept: the assemblies or the objects are not in rising order */
    ENIP_CONFIG_ACCESS = 14,    /* a list of the table access is not one (check 13 of the page) */
    ENIP_CONFIG_COMMANDS = 15,  /* a table commands, but no service is queued (check 14 of the page) */
    ENIP_CONFIG_QUEUED = 16     /* a service is queued: this library has no queue of commands */
};

/* Why enip_adapter_new refuses a configuration, and enip_adapter_new_kept a configuration or a saved state. */
typedef struct enip_refusal {
    uint32_t number; /* the check that failed: one of ENIP_CONFIG_NAME and the following, or, if the status is
                        ENIP_SAVED_STATE, one of ENIP_SAVED_NOT_A_STATE and the following */
    char text[512];  /* one line: where and what is wrong; empty if it does not fit. If memory runs out, it is empty or
                        does not say where */
} enip_refusal;

/* Why a frame gets no answer. */
enum {
    ENIP_NO_REPLY_INCOMPLETE = 1,    /* no frame is complete yet */
    ENIP_NO_REPLY_OPTIONS = 2,       /* the frame's options are not 0 */
    ENIP_NO_REPLY_STATUS = 3,        /* the frame's status is not 0 */
    ENIP_NO_REPLY_NOP = 4,           /* a NOP has no reply */
    ENIP_NO_REPLY_OTHER_SESSION = 5, /* the session is not the one that the peer registered */
    ENIP_NO_REPLY_MALFORMED = 6,     /* the data of a SendUnitData are malformed */
    ENIP_NO_REPLY_CONNECTION = 7,    /* the session has no such connection, or it does not accept the item */
    ENIP_NO_REPLY_UNREGISTERED = 8,  /* an UnRegisterSession closed the peer; it has no reply */
    ENIP_NO_REPLY_NOT_SERVED = 9     /* the peer is closed or unknown */
};

/* The result of enip_adapter_feed and enip_adapter_serve. */
typedef struct enip_fed {
    size_t taken;      /* the number of bytes taken from the front of the piece */
    size_t answer;     /* the number of bytes in the buffer to send to the peer; 0 if there is no answer */
    uint32_t no_reply; /* 0 if there is an answer; otherwise one of ENIP_NO_REPLY_INCOMPLETE and the following */
    uint32_t close;    /* 1: send the answer, then close the peer's TCP connection; otherwise 0 */
} enip_fed;

/*
 * Makes an adapter from a configuration: a TOML text of length bytes (docs/PROGRAM.md, "The configuration"). Allocates
 * all the memory that the adapter will ever need. Free *adapter with enip_adapter_free.
 * ENIP_OK; ENIP_CONFIGURATION: *refusal gives the reason, refusal may be NULL; ENIP_MEMORY; ENIP_MISUSE. On any status
 * but ENIP_OK *adapter is unchanged.
 */
ENIP_API int enip_adapter_new(const char *text, size_t length, enip_adapter **adapter, enip_refusal *refusal);

/* Frees an adapter. If adapter is NULL, does nothing. ENIP_OK, ENIP_MISUSE. */
ENIP_API int enip_adapter_free(enip_adapter *adapter);

/*
 * Adds a peer, for a TCP connection that was accepted. *peer is its number from now on, 1 to 2^32 - 1. No number is
 * used twice.
 * ENIP_OK, ENIP_PLACES, ENIP_HANDLES, ENIP_MISUSE.
 */
ENIP_API int enip_adapter_begin(enip_adapter *adapter, uint32_t *peer);

/* What a peer may do. */
enum {
    ENIP_MAY_WRITE = 0, /* everything */
    ENIP_MAY_READ = 1   /* whatever changes nothing; the device answers 0x0f, "privilege violation", to a change */
};

/*
 * Adds a peer like enip_adapter_begin, with rights and a group. rights is ENIP_MAY_WRITE or ENIP_MAY_READ. group is 16
 * bytes that name for whom the peer counts, such as the client's IPv6 address, or NULL if it counts for nobody. A group
 * holds at most as many peers and connections as the configuration gives one address (docs/PROGRAM.md, "Who may read,
 * who may write").
 * ENIP_OK, ENIP_SHARE, ENIP_PLACES, ENIP_HANDLES, ENIP_MISUSE.
 */
ENIP_API int enip_adapter_begin_as(enip_adapter *adapter, int rights, const uint8_t group[16], uint32_t *peer);

/*
 * Passes a piece of a peer's stream, 1 byte or more, that was read at the time now. The greatest time so far counts:
 * connections whose deadline is at or before it end first. The call then takes the bytes up to the end of one frame,
 * executes the frame, and writes its answer, if any, to buffer, whose size is at least ENIP_ANSWER_ROOM. Pass the rest
 * of the piece in the next call. Each call takes at least one byte, unless fed->close is 1. For a peer that is closed,
 * ended or unknown the call takes nothing, and fed->close is 1. A request to the owner of the device (see
 * enip_adapter_serve) is answered 0x10, "device state conflict", and changes nothing.
 * ENIP_OK, ENIP_ROOM, ENIP_MISUSE.
 */
ENIP_API int enip_adapter_feed(enip_adapter *adapter, uint64_t now, uint32_t peer, const void *bytes, size_t length,
                               void *buffer, size_t size, enip_fed *fed);

/* A request to the owner of the device: an own service of one of its objects, or the set of a checked attribute. */
typedef struct enip_asked {
    const uint8_t *data;    /* the data of the service, or the value to set; valid until the owner returns */
    size_t length;          /* the number of bytes of data, 0 to 500 */
    size_t reply_limit;     /* the most bytes of the reply's data, 0 to 480; 0 for a set */
    uint32_t instance;      /* the object's instance */
    uint16_t class_code;    /* the object's class */
    uint16_t attribute;     /* the attribute that the path names, 0 if it names none. A set names one */
    uint8_t has_attribute;  /* 1 if the path names an attribute, otherwise 0 */
    uint8_t service;        /* 0x32 to 0x63; 0x10 for a set */
} enip_asked;

/* The owner's reply. */
typedef struct enip_reply {
    size_t length;     /* the number of bytes of data, 0 to asked->reply_limit */
    uint8_t status;    /* the general status: 0 is success. Not 0x11 */
    uint8_t data[480]; /* the data */
} enip_reply;

/*
 * Does what enip_adapter_feed does, and lets the owner of the device execute the requests to it. If the frame that the
 * piece completes is one, calls owner(context, &asked, &reply) once, then executes the frame with that reply. A set is
 * stored if the reply's status is 0. The owner is called once for each delivered request: neither for a repeat of a
 * request on its connection, nor for a command that the ledger has executed, nor for a request that is refused before
 * (such as data of a wrong size, or a reply that might not fit the connection: 0x11).
 * The reply is {0, 0, {0}} when the owner is called: success without data. owner may be NULL, then nobody is asked, as
 * in enip_adapter_feed; context may be NULL.
 * While the owner is called, it may pass the same adapter to enip_endings_update and to the calls that read and write:
 * _deadline, _read, _discover, _places, _write, _write_attribute, _changes, _attribute_changes, _resets, _set_status,
 * _set_state, _generation, _save, _asked_command and _in_doubt. Any other call with it returns ENIP_MISUSE and changes
 * nothing.
 * ENIP_OK; ENIP_STATE if the owner returned another value than 0; ENIP_MISUSE, also if the reply cannot be given: its
 * length is over asked->reply_limit, or its status is 0x11; ENIP_ROOM. If the owner was called and the status is not
 * ENIP_OK, the time is set and what the owner did is done, but no byte is taken: end the peer, as the same piece would
 * ask again.
 */
ENIP_API int enip_adapter_serve(enip_adapter *adapter, uint64_t now, uint32_t peer, const void *bytes, size_t length,
                                void *buffer, size_t size,
                                int (*owner)(void *context, const enip_asked *asked, enip_reply *reply), void *context,
                                enip_fed *fed);

/* Sets the time: connections whose deadline is at or before the greatest time so far end. ENIP_OK, ENIP_MISUSE. */
ENIP_API int enip_adapter_tick(enip_adapter *adapter, uint64_t now);

/*
 * Gives the earliest deadline of the open connections: call enip_adapter_tick then.
 * ENIP_OK; ENIP_ABSENT if no connection is open; ENIP_MISUSE.
 */
ENIP_API int enip_adapter_deadline(const enip_adapter *adapter, uint64_t *deadline);

/*
 * Removes a peer whose TCP connection is closed: its session and connections end, and its slot is free. If there is no
 * such peer, changes nothing. ENIP_OK, ENIP_MISUSE.
 */
ENIP_API int enip_adapter_end(enip_adapter *adapter, uint32_t peer);

/*
 * Reads an attribute: writes the bytes that a peer would get, least significant byte first, to buffer, and their
 * number to *count. The data of assembly N are class 4, instance N, attribute 3. An attribute has at most 4,000 bytes.
 * ENIP_OK; ENIP_ABSENT if there is no such attribute; ENIP_ROOM; ENIP_MISUSE.
 */
ENIP_API int enip_adapter_read(const enip_adapter *adapter, uint16_t class_code, uint32_t instance, uint16_t attribute,
                               void *buffer, size_t size, size_t *count);

/*
 * Answers a UDP datagram of length bytes, which may be 0: writes the answer to buffer, and its length to *count. Send
 * it to the sender of the datagram. A datagram has an answer if it is exactly one frame of 24 bytes: ListIdentity,
 * ListServices or ListInterfaces, without data and with options and status 0. The answer has the same bytes as over
 * TCP. The adapter does not change.
 * ENIP_OK; ENIP_ABSENT if the datagram has no answer; ENIP_ROOM if the answer does not fit; ENIP_MISUSE.
 */
ENIP_API int enip_adapter_discover(const enip_adapter *adapter, const void *datagram, size_t length, void *buffer,
                                   size_t size, size_t *count);

/* Gives the number of free slots for peers and for class 3 connections. ENIP_OK, ENIP_MISUSE. */
ENIP_API int enip_adapter_places(const enip_adapter *adapter, uint16_t *peers, uint16_t *connections);

/*
 * Writes length bytes, 1 or more, to the data of an assembly from offset on, whether peers may set it or not. Peers
 * read them from now on.
 * ENIP_OK; ENIP_ABSENT if there is no such assembly, or the bytes do not fit in its data; ENIP_MISUSE.
 */
ENIP_API int enip_adapter_write(enip_adapter *adapter, uint32_t instance, size_t offset, const void *bytes,
                                size_t length);

/*
 * Writes length bytes, 1 or more, to an attribute of an application object, or to the data of an assembly (class 4,
 * attribute 3), from offset on, whether peers may set it or not. A SHORT_STRING is written as a whole, from offset 0. A
 * checked attribute is written too, and its range does not count. Peers read the bytes from now on.
 * ENIP_OK; ENIP_ABSENT if there is no such attribute, or its value cannot hold the bytes; ENIP_MISUSE.
 */
ENIP_API int enip_adapter_write_attribute(enip_adapter *adapter, uint16_t class_code, uint32_t instance,
                                          uint16_t attribute, size_t offset, const void *bytes, size_t length);

/*
 * Gives the number of times that peers have written data of an assembly, from 0 on, modulo 2^32. Each request that
 * was executed and wrote data counts once. A refused request, a repeat and enip_adapter_write do not count.
 * ENIP_OK; ENIP_ABSENT if there is no such assembly; ENIP_MISUSE.
 */
ENIP_API int enip_adapter_changes(const enip_adapter *adapter, uint32_t instance, uint32_t *changes);

/*
 * Gives the number of times that peers have set an attribute of an application object, or written the data of an
 * assembly (class 4, attribute 3), in the same way. The set of a checked attribute counts if the owner accepted it.
 * ENIP_OK; ENIP_ABSENT if there is no such attribute; ENIP_MISUSE.
 */
ENIP_API int enip_adapter_attribute_changes(const enip_adapter *adapter, uint16_t class_code, uint32_t instance,
                                            uint16_t attribute, uint32_t *changes);

/*
 * Gives the number of resets of the device, from 0 on, modulo 2^32: each Reset of the Identity object that was executed
 * counts once. A refused Reset and a repeat do not count. After each piece that was fed, compare the number with the
 * one before. If it has changed, send the answer, then end all peers and close their connections: no session and no
 * connection outlasts a reset. Keep the state before you send the answer, if you keep it.
 * ENIP_OK; ENIP_ABSENT if the configuration does not let peers reset the device; ENIP_MISUSE.
 */
ENIP_API int enip_adapter_resets(const enip_adapter *adapter, uint32_t *resets);

/* Sets the device's status (Identity, attribute 5). ENIP_OK, ENIP_MISUSE. */
ENIP_API int enip_adapter_set_status(enip_adapter *adapter, uint16_t status);

/* Sets the device's state (Identity, attribute 8, and ListIdentity). ENIP_OK, ENIP_MISUSE. */
ENIP_API int enip_adapter_set_state(enip_adapter *adapter, uint8_t state);

/* ---- an adapter that is kept over a restart ---- */

/* Why a saved state is refused: the checks of docs/STATE.md, and the device. */
enum {
    ENIP_SAVED_NOT_A_STATE = 1, /* the bytes are not a saved state */
    ENIP_SAVED_CUT = 2,         /* bytes are missing at its end */
    ENIP_SAVED_VERSION = 3,     /* it has another version of the format */
    ENIP_SAVED_TOO_LONG = 4,    /* bytes follow it */
    ENIP_SAVED_CHECKSUM = 5,    /* its checksum is wrong: it is damaged */
    ENIP_SAVED_LAYOUT = 6,      /* its entries do not fill it */
    ENIP_SAVED_ORDER = 7,       /* the keys of its entries do not rise */
    ENIP_SAVED_DEVICE = 8       /* it is of another device: vendor, product code or serial number */
};

/*
 * Does what enip_adapter_new does, and continues from a saved state of state_length bytes, as enip_adapter_save wrote
 * it: each value that is kept is as it was, and the command ledger goes on in the same life, with the same commands. If
 * state is NULL and state_length is 0, the device starts for the first time. The key `life` of the configuration is not
 * used: a ledger of which nothing is kept starts empty in the given life, which must differ from that of each earlier
 * start.
 * A value that the configuration no longer has, or has with another size, is not used. If a slot of the ledger cannot
 * be used, because the configuration has fewer, the ledger starts empty in the given life.
 * ENIP_OK; ENIP_CONFIGURATION, ENIP_SAVED_STATE: *refusal gives the reason, refusal may be NULL; ENIP_MEMORY;
 * ENIP_MISUSE. On any status but ENIP_OK *adapter is unchanged.
 */
ENIP_API int enip_adapter_new_kept(const char *text, size_t length, const void *state, size_t state_length,
                                   uint64_t life, enip_adapter **adapter, enip_refusal *refusal);

/*
 * Gives the generation of what is kept of the adapter now: the data of the assemblies, the counter, the attributes of
 * the application objects, and the command ledger. state is the last saved state, of length bytes: if nothing that is
 * kept has changed since, *generation is its generation, otherwise the next, modulo 2^64. So save the state if
 * *generation is not the one of the last state. If nothing was saved yet, state is NULL and length 0, and *generation
 * is 1.
 * While the owner is asked to execute a numbered command, that command is in doubt in what is kept.
 * ENIP_OK; ENIP_SAVED_STATE if the bytes are not a saved state; ENIP_MISUSE.
 */
ENIP_API int enip_adapter_generation(const enip_adapter *adapter, const void *state, size_t length,
                                     uint64_t *generation);

/*
 * Writes the state of the adapter with this generation to buffer, and its size to *count (docs/STATE.md). It has fewer
 * than 131,072 bytes, and its size can change with each request. Sessions and connections are not part of it.
 * While the owner is asked to execute a numbered command, that command is in doubt in the state: an adapter that starts
 * from it does not execute the command again.
 * ENIP_OK; ENIP_ROOM if the state does not fit: then *count is the size that it needs, and nothing else is written;
 * ENIP_STATE if the assemblies or the objects are not configured in rising order; ENIP_MISUSE.
 */
ENIP_API int enip_adapter_save(const enip_adapter *adapter, uint64_t generation, void *buffer, size_t size,
                               size_t *count);

/*
 * Gives the originator and the number of the command that the owner is asked to execute. Call it while the owner is
 * called.
 * ENIP_OK; ENIP_ABSENT if the owner is not asked now, or if the request is not that of a numbered command;
 * ENIP_MISUSE.
 */
ENIP_API int enip_adapter_asked_command(const enip_adapter *adapter, uint64_t *originator, uint32_t *number);

/*
 * Gives entry index, counted from 0, of the commands in doubt: the adapter started from a state in which they are in
 * doubt, so nobody knows whether they were executed. The ledger answers each of them with the state "in doubt", and
 * never executes it.
 * ENIP_OK; ENIP_ABSENT if there is no such entry; ENIP_MISUSE.
 */
ENIP_API int enip_adapter_in_doubt(const enip_adapter *adapter, size_t index, uint64_t *originator, uint32_t *number);

/*
 * Settles a command in doubt: the ledger answers it with this reply from now on, 4 to 480 bytes. reply is the whole
 * reply that its request should have had: the service with bit 7 set, 0, the general status, 0, and the data.
 * ENIP_OK; ENIP_ABSENT if this command is not in doubt, or the reply has another length; ENIP_MISUSE.
 */
ENIP_API int enip_adapter_settle(enip_adapter *adapter, uint64_t originator, uint32_t number, const void *reply,
                                 size_t length);

/* ---- connections of an adapter that ended ---- */

typedef struct enip_endings enip_endings;

/* Why a connection ended. */
enum {
    ENIP_ENDED_TIMED_OUT = 1, /* no item came before its deadline */
    ENIP_ENDED_PEER = 2,      /* enip_adapter_end removed its peer */
    ENIP_ENDED_SESSION = 3,   /* its session ended, for example by UnRegisterSession */
    ENIP_ENDED_CLOSED = 4     /* its originator closed it by Forward_Close */
};

typedef struct enip_ended {
    uint32_t connection; /* its O->T connection ID; no ID is used twice */
    uint32_t peer;       /* the peer that opened it */
    uint32_t why;        /* one of ENIP_ENDED_TIMED_OUT and the following */
} enip_ended;

/*
 * Makes an object that remembers the open connections of one adapter, none at first. Allocates all the memory that it
 * will ever need. Free *endings with enip_endings_free. ENIP_OK, ENIP_MEMORY, ENIP_MISUSE.
 */
ENIP_API int enip_endings_new(enip_endings **endings);

/* Frees the object. If endings is NULL, does nothing. ENIP_OK, ENIP_MISUSE. */
ENIP_API int enip_endings_free(enip_endings *endings);

/*
 * Compares the open connections of the adapter with those of the last update, and lists each that has ended since for
 * enip_endings_at, until the next update. Always pass the same adapter. Update after each enip_adapter_feed, _serve,
 * _tick and _end. If you update less often, the list may give a later reason, and misses a connection that was opened
 * and ended between two updates.
 * ENIP_OK, ENIP_MISUSE.
 */
ENIP_API int enip_endings_update(enip_endings *endings, const enip_adapter *adapter);

/*
 * Gives entry index, counted from 0, of the connections that had ended at the last update, in the order of their
 * opening.
 * ENIP_OK; ENIP_ABSENT if the list has no such entry; ENIP_MISUSE.
 */
ENIP_API int enip_endings_at(const enip_endings *endings, size_t index, enip_ended *ended);

/* ---- the client ---- */

typedef struct enip_client enip_client;

/* The class 3 connection that a client opens. */
typedef struct enip_wants {
    uint32_t originator_serial; /* the client's serial number */
    uint32_t t_to_o_id;         /* the connection ID that the target uses when it sends */
    uint32_t rpi;               /* the requested packet interval in both directions, in microseconds */
    uint16_t originator_vendor; /* the client's vendor ID */
    uint16_t connection_serial; /* the client's number for the connection */
    uint16_t o_to_t_size;       /* the size of an item sent to the target, with its count of 2 bytes: 4 to 4,002 */
    uint16_t t_to_o_size;       /* the size of an item sent to the client, with its count of 2 bytes: 10 to 4,002 */
    uint16_t first_count;       /* the sequence count of the first request */
    uint8_t timeout_multiplier; /* 0 to 7: the connection times out after rpi x 4 x 2^multiplier */
} enip_wants;

/* What enip_client_feed received. */
enum {
    ENIP_HEARD_NOTHING = 0,    /* nothing that the client awaits */
    ENIP_HEARD_REGISTERED = 1, /* the session is registered */
    ENIP_HEARD_OPENED = 2,     /* the connection is open */
    ENIP_HEARD_REPLY = 3,      /* the reply to an unconnected request */
    ENIP_HEARD_ACCEPTED = 4,   /* the reply to the pending request on the connection */
    ENIP_HEARD_REFUSED = 5,    /* the device refused an open or a close */
    ENIP_HEARD_CLOSED = 6      /* the connection is closed */
};

/* The result of enip_client_feed. */
typedef struct enip_heard {
    size_t taken;      /* the number of bytes taken from the front of the piece */
    size_t reply;      /* the number of bytes in the buffer that are the reply, which begins with its service */
    uint32_t kind;     /* one of ENIP_HEARD_NOTHING and the following */
    uint32_t general;  /* the general status of the reply or of the refusal, otherwise 0 */
    uint32_t extended; /* the first word of additional status, or 0 */
} enip_heard;

/*
 * Makes a client that has no session and no connection. Allocates all the memory that it will ever need. Free *client
 * with enip_client_free. ENIP_OK, ENIP_WANTS, ENIP_MEMORY, ENIP_MISUSE.
 */
ENIP_API int enip_client_new(const enip_wants *wants, enip_client **client);

/* Frees a client. If client is NULL, does nothing. ENIP_OK, ENIP_MISUSE. */
ENIP_API int enip_client_free(enip_client *client);

/*
 * Each of the next seven calls writes one frame to buffer, whose size is at least ENIP_FRAME_ROOM, and its length to
 * *count: send it. Besides ENIP_OK each returns ENIP_FAILED, ENIP_TOO_LONG or ENIP_MALFORMED once the client has failed
 * for good, ENIP_STATE if the call is not possible in this state, ENIP_ROOM or ENIP_MISUSE.
 */

/* Writes the RegisterSession. Possible once, before any other frame. */
ENIP_API int enip_client_register(enip_client *client, void *buffer, size_t size, size_t *count);

/* Writes the Forward_Open. Possible once, when the session is registered and no reply is awaited. */
ENIP_API int enip_client_open(enip_client *client, void *buffer, size_t size, size_t *count);

/*
 * Writes an unconnected request of 2 to 504 bytes: service, path size in words, path, data. Possible when the session
 * is registered and no reply is awaited. Also ENIP_REQUEST: its length is out of range, or bit 7 of its service is set.
 */
ENIP_API int enip_client_ask(enip_client *client, const void *request, size_t length, void *buffer, size_t size,
                             size_t *count);

/*
 * Writes a request on the connection. The request is pending until its reply is accepted or enip_client_give_up.
 * Possible when the connection is open. Also ENIP_WAITING, ENIP_LONG_REQUEST, ENIP_REQUEST, ENIP_ABANDONED.
 */
ENIP_API int enip_client_submit(enip_client *client, const void *request, size_t length, void *buffer, size_t size,
                                size_t *count);

/*
 * Writes the frame of the pending request again. If the target is this project's adapter, it executes the request once on
 * this connection, however often the frame comes. ENIP_ABSENT if no request is pending.
 */
ENIP_API int enip_client_resend(enip_client *client, void *buffer, size_t size, size_t *count);

/* Writes the Forward_Close. The connection is over at once. Possible when it is open and no reply is awaited. */
ENIP_API int enip_client_close(enip_client *client, void *buffer, size_t size, size_t *count);

/* Writes the UnRegisterSession, which has no reply. Possible when the session is registered and no reply is awaited. */
ENIP_API int enip_client_unregister(enip_client *client, void *buffer, size_t size, size_t *count);

/*
 * Gives up the pending request on the connection: it is executed once or not at all, and its reply is never accepted.
 * The next request can be submitted. ENIP_OK; ENIP_ABSENT if no request is pending; ENIP_MISUSE.
 */
ENIP_API int enip_client_give_up(enip_client *client);

/*
 * Passes a piece of what came back, 1 byte or more. The call takes the bytes up to the end of one frame and describes
 * the frame in *heard. It writes a reply to buffer, whose size is at least ENIP_REPLY_ROOM. Once the client has failed
 * for good, the call takes nothing.
 * ENIP_OK, ENIP_ROOM, ENIP_MISUSE.
 */
ENIP_API int enip_client_feed(enip_client *client, const void *bytes, size_t length, void *buffer, size_t size,
                              enip_heard *heard);

/* ---- commands that are executed once, even if connections are lost ---- */

typedef struct enip_once enip_once;

/*
 * The general statuses of a device's command ledger (docs/PROTOCOL.md, "The command ledger"). A message that is
 * answered with one of them executes nothing, but an earlier copy of it may have.
 */
enum {
    ENIP_LEDGER_SLOTS = 0x02,     /* other originators have all slots */
    ENIP_LEDGER_NUMBER = 0x0c,    /* a greater number was executed or queued: this one is not taken any more */
    ENIP_LEDGER_LIFE = 0x10,      /* the device has another life: it was started again */
    ENIP_LEDGER_SIZE = 0x11,      /* the reply does not fit: the connection's T->O size is too small */
    ENIP_LEDGER_ORIGINATOR = 0x16, /* the originator has no slot (Get_Last) */
    ENIP_LEDGER_PENDING = 0xd0    /* the originator's last command is in the queue: try again when it is done */
};

/* What enip_once_receive and enip_once_withdrawn learned about the pending command. */
enum {
    ENIP_ONCE_NOTHING = 0,   /* no command is pending */
    ENIP_ONCE_DONE = 1,      /* the command was executed, once; it is not pending any more */
    ENIP_ONCE_PENDING = 2,   /* the device has taken the command and not executed it yet */
    ENIP_ONCE_REFUSED = 3,   /* the device refused the command; it is still pending */
    ENIP_ONCE_MALFORMED = 4, /* not a reply to a command; it is still pending */
    ENIP_ONCE_IN_DOUBT = 5,  /* the device does not know whether it executed the command; it is still pending */
    ENIP_ONCE_WITHDRAWN = 6, /* the command was withdrawn, and is never executed; it is not pending any more */
    ENIP_ONCE_SMALLER = 7,   /* not withdrawn: the device has a later command of the originator; it is still pending */
    ENIP_ONCE_OTHER_LIFE = 8 /* not withdrawn: the device was started again; it is still pending */
};

/* The result of enip_once_receive and enip_once_withdrawn. */
typedef struct enip_outcome {
    size_t reply;     /* ENIP_ONCE_DONE: the number of bytes in the buffer that are the reply to the request */
    uint32_t kind;    /* one of ENIP_ONCE_NOTHING and the following */
    uint32_t general; /* the general status of that reply (DONE) or of the device's refusal, otherwise 0 */
} enip_outcome;

/*
 * Makes the originator's end of numbered commands: life is the device's (attribute 3 of class 0x65, instance 1),
 * originator a number that nobody else uses at this device, and last_number that of the last command, 0 if there was
 * none. Allocates all the memory that it will ever need. Free *once with enip_once_free.
 * ENIP_OK, ENIP_MEMORY, ENIP_MISUSE.
 */
ENIP_API int enip_once_new(uint64_t life, uint64_t originator, uint32_t last_number, enip_once **once);

/*
 * Makes the originator's end from values that you stored while a command was pending: last_number is its number, and
 * request, of length bytes, what enip_once_request gave. The command is pending again, with the same message.
 * ENIP_OK; ENIP_REQUEST, ENIP_LONG_REQUEST if no command can have this request; ENIP_MEMORY; ENIP_MISUSE.
 */
ENIP_API int enip_once_resume(uint64_t life, uint64_t originator, uint32_t last_number, const void *request,
                              size_t length, enip_once **once);

/* Frees the object. If once is NULL, does nothing. ENIP_OK, ENIP_MISUSE. */
ENIP_API int enip_once_free(enip_once *once);

/*
 * Gives a command: a request of 2 to 478 bytes takes the next number and is pending until it is done or given up.
 * Writes its message to buffer, whose size is at least ENIP_MESSAGE_ROOM, and its length to *count. Store the values of
 * enip_once_values and the request before you pass the message to enip_client_ask or enip_client_submit.
 * ENIP_OK; ENIP_WAITING if another command is pending; ENIP_REQUEST if bit 7 of the service is set or the request is
 * too short; ENIP_LONG_REQUEST; ENIP_NUMBERS after 2^32 - 1 commands; ENIP_ROOM; ENIP_MISUSE.
 */
ENIP_API int enip_once_command(enip_once *once, const void *request, size_t length, void *buffer, size_t size,
                               size_t *count);

/*
 * Writes the message of the pending command again, for a new connection: the same bytes each time.
 * ENIP_OK; ENIP_ABSENT if no command is pending; ENIP_ROOM; ENIP_MISUSE.
 */
ENIP_API int enip_once_resend(const enip_once *once, void *buffer, size_t size, size_t *count);

/*
 * Takes the reply to the message, length bytes as enip_client_feed wrote them, and describes it in *outcome. If the
 * command is done, writes the reply to its request to buffer, whose size is at least length. Otherwise the command is
 * pending as before. A reply has no number: pass only what answers a message of this command, and nothing that a closed
 * connection may still have brought.
 * ENIP_OK, ENIP_ROOM, ENIP_MISUSE.
 */
ENIP_API int enip_once_receive(enip_once *once, const void *reply, size_t length, void *buffer, size_t size,
                               enip_outcome *outcome);

/*
 * Writes the message that withdraws the pending command from the device (26 bytes): send it as the message of a
 * command, and again on a new connection if no reply comes. The command is pending until enip_once_withdrawn says what
 * became of it.
 * ENIP_OK; ENIP_ABSENT if no command is pending; ENIP_ROOM; ENIP_MISUSE.
 */
ENIP_API int enip_once_withdraw(const enip_once *once, void *buffer, size_t size, size_t *count);

/*
 * Takes the reply to the message of enip_once_withdraw, as enip_once_receive takes one to a command. The command is
 * not pending any more if it was withdrawn (ENIP_ONCE_WITHDRAWN) or is done (ENIP_ONCE_DONE, with the reply to its
 * request). ENIP_ONCE_PENDING says that the owner of the device has it: send the message of the command again to wait
 * for its reply. After ENIP_ONCE_SMALLER and ENIP_ONCE_OTHER_LIFE the device will not execute it, but may have executed
 * it before. A device that is older than this call refuses it with the general status 0x08 (ENIP_ONCE_REFUSED).
 * ENIP_OK, ENIP_ROOM, ENIP_MISUSE.
 */
ENIP_API int enip_once_withdrawn(enip_once *once, const void *reply, size_t length, void *buffer, size_t size,
                                 enip_outcome *outcome);

/*
 * Gives up the pending command: it is executed once or not at all. Once a later command is done, it will not be
 * executed any more. While it is in the queue of the device, a later one is refused (ENIP_LEDGER_PENDING). Withdraw it
 * (enip_once_withdraw) if it must not be executed any more.
 * ENIP_OK; ENIP_ABSENT if no command is pending; ENIP_MISUSE.
 */
ENIP_API int enip_once_abandon(enip_once *once);

/* Gives the device's life, the originator, and the number of the last command. ENIP_OK, ENIP_MISUSE. */
ENIP_API int enip_once_values(const enip_once *once, uint64_t *life, uint64_t *originator, uint32_t *last_number);

/*
 * Writes the request of the pending command, without its number, to buffer, and its length to *count.
 * ENIP_OK; ENIP_ABSENT if no command is pending; ENIP_ROOM; ENIP_MISUSE.
 */
ENIP_API int enip_once_request(const enip_once *once, void *buffer, size_t size, size_t *count);

#ifdef __cplusplus
}
#endif

#endif
