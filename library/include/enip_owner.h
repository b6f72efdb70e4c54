/*
 * enip_owner.h: the journal of an owner, a program behind `enip serve --owner`. With it each command moves the machine
 * once, whenever the owner or the device is killed. All its functions are inline. It needs neither libenip nor enip.h.
 *
 * A command is handed over to each new session of the owner until the device has stored its `done`. So the journal
 * notes in a file that a command began before the machine moves, and its reply before `done` is sent, both on the disk.
 * It keeps them until the device's `ok`. A command that comes again with a reply gets the same reply.
 *
 * Open the journal, connect to the device, and pass each line of the device to enip_journal_receive. If it returns
 * ENIP_JOURNAL_EXECUTE: call enip_journal_begin, move the machine, and call enip_journal_done.
 *
 * A command that began and has no reply is in doubt: the program was killed while it executed the command. The journal
 * calls a function of yours, which looks at the machine (enip_journal_settle).
 *
 * Each line to the device goes through enip_journal_done or enip_journal_send, because the device numbers the lines
 * that it answers. Only the token (--owner-token) is sent before enip_journal_connect. Use a journal in one call at a
 * time.
 *
 * The file belongs to one device, and to one process at a time. It must not be lost: without it, what began is not
 * known. enip.owner for Python writes the same file.
 *
 * C99 and C++17, on Linux. With -std=c99, define _POSIX_C_SOURCE as 200809L before the first #include.
 */
#ifndef ENIP_OWNER_H
#define ENIP_OWNER_H

#if defined(__STRICT_ANSI__) && !defined(__cplusplus) && !defined(_POSIX_C_SOURCE) && !defined(_XOPEN_SOURCE) && \
    !defined(_DEFAULT_SOURCE) && !defined(_GNU_SOURCE)
#error "define _POSIX_C_SOURCE as 200809L before the first #include"
#endif

#include <errno.h>
#include <fcntl.h>
#include <inttypes.h>
#include <stddef.h>
#include <stdint.h>
#include <stdio.h>
#include <stdlib.h>
#include <string.h>
#include <sys/file.h>
#include <sys/stat.h>
#include <unistd.h>

#ifdef __cplusplus
#define ENIP_JOURNAL_INLINE inline
#else
#define ENIP_JOURNAL_INLINE static inline
#endif

/* What a call returns. */
enum {
    ENIP_JOURNAL_OK = 0,          /* done; of enip_journal_receive: there is nothing to execute */
    ENIP_JOURNAL_EXECUTE = 1,     /* the program has to execute a command */
    ENIP_JOURNAL_REFUSED = 2,     /* the device has refused the reply of a command */
    ENIP_JOURNAL_MISUSE = 3,      /* an argument is not allowed */
    ENIP_JOURNAL_SYSTEM = 4,      /* the file could not be read or written, and errno has the reason */
    ENIP_JOURNAL_MEMORY = 5,      /* out of memory */
    ENIP_JOURNAL_NOT_A_FILE = 6,  /* not a regular file */
    ENIP_JOURNAL_ANOTHER = 7,     /* not the journal of an owner */
    ENIP_JOURNAL_DAMAGED = 8,     /* damaged */
    ENIP_JOURNAL_LOCKED = 9,      /* another process uses it */
    ENIP_JOURNAL_DEVICE = 10,     /* the journal of another device */
    ENIP_JOURNAL_NO_LEDGER = 11,  /* the device has no command ledger: one start of it is like another */
    ENIP_JOURNAL_MALFORMED = 12,  /* not a line of the device */
    ENIP_JOURNAL_BEGUN = 13,      /* the command has begun before */
    ENIP_JOURNAL_NOT_BEGUN = 14,  /* the command did not begin */
    ENIP_JOURNAL_REPLIED = 15,    /* the command has a reply */
    ENIP_JOURNAL_OTHER_LIFE = 16, /* the command is of another life of the device */
    ENIP_JOURNAL_IN_DOUBT = 17,   /* a command is in doubt */
    ENIP_JOURNAL_NOT_SENT = 18    /* a line could not be sent */
};

/* Sizes, in bytes. */
enum {
    ENIP_JOURNAL_DATA = 480,  /* the most data of a command */
    ENIP_JOURNAL_NOTE = 128,  /* the longest note */
    ENIP_JOURNAL_REPLY = 476, /* the most data of a reply */
    ENIP_JOURNAL_PATH = 4096  /* the longest path of a journal, with the zero at its end */
};

/* A queued command. */
typedef struct enip_journal_command {
    uint64_t life;                   /* the life of the device's command ledger, in which the ticket is given once */
    uint32_t ticket;                 /* the ticket */
    uint32_t class_id;               /* the class of the object */
    uint32_t instance;               /* the instance of the object */
    int service;                     /* the service */
    int again;                       /* 1 if it was handed over in an earlier session, else 0 */
    size_t length;                   /* how many bytes of data it has */
    uint8_t data[ENIP_JOURNAL_DATA]; /* its data */
} enip_journal_command;

/* A reply to a command. */
typedef struct enip_journal_reply {
    int status;                       /* the general status, 0 to 255 but not 0x11; 0 is success */
    size_t length;                    /* how many bytes of data it has */
    uint8_t data[ENIP_JOURNAL_REPLY]; /* its data */
} enip_journal_reply;

/*
 * Settles a command in doubt, by what enip_journal_begin noted. Looks at the machine, and returns 1 with the reply; 0
 * if the machine did not move, and the command is then to be executed; or -1 if it cannot know.
 */
typedef int enip_journal_settle(void *context, const enip_journal_command *command, const void *note, size_t length,
                                enip_journal_reply *reply);

/* Sends bytes to the device. Returns 0 if all were sent. */
typedef int enip_journal_sender(void *context, const char *bytes, size_t length);

/* ---- inner types and functions: do not use them ---- */

/* A command that began, with its note and, once it is done, its reply. is_here: this program has it in hand, so it is
 * not in doubt. line: the number of its `done` in this session, or 0. */
typedef struct enip_journal_entry {
    uint32_t ticket;
    int is_done, is_here;
    uint64_t line;
    size_t note_length;
    uint8_t note[ENIP_JOURNAL_NOTE];
    enip_journal_reply reply;
} enip_journal_entry;

/* last is the last ticket that was handed over in this session. The entries are in the order of their tickets. */
typedef struct enip_journal {
    char path[ENIP_JOURNAL_PATH];
    int lock, has_device, is_open;
    uint32_t vendor, product_code, serial, last;
    uint64_t life, lines;
    enip_journal_settle *settle;
    enip_journal_sender *sender;
    void *context, *sender_context;
    enip_journal_entry *entries;
    size_t count, capacity;
} enip_journal;

/* The CRC-32 of ISO 3309. */
ENIP_JOURNAL_INLINE uint32_t enip_journal_inner_sum(const char *bytes, size_t length) {
    uint32_t sum = 0xffffffff;
    for (size_t i = 0; i < length; i++) {
        sum ^= (uint8_t)bytes[i];
        for (int bit = 0; bit < 8; bit++)
            sum = sum >> 1 ^ (sum & 1 ? 0xedb88320 : 0);
    }
    return ~sum;
}

/* The index of the entry of a ticket, or that where it belongs. */
ENIP_JOURNAL_INLINE size_t enip_journal_inner_at(const enip_journal *journal, uint32_t ticket) {
    size_t at = 0;
    while (at < journal->count && journal->entries[at].ticket < ticket)
        at++;
    return at;
}

ENIP_JOURNAL_INLINE enip_journal_entry *enip_journal_inner_find(const enip_journal *journal, uint32_t ticket) {
    size_t at = enip_journal_inner_at(journal, ticket);
    return at < journal->count && journal->entries[at].ticket == ticket ? &journal->entries[at] : NULL;
}

ENIP_JOURNAL_INLINE void enip_journal_inner_forget(enip_journal *journal, enip_journal_entry *entry) {
    size_t behind = journal->count - (size_t)(entry - journal->entries) - 1;
    memmove(entry, entry + 1, behind * sizeof *entry);
    journal->count--;
}

/* Puts an entry in its place, in which there is none of its ticket. Returns NULL if there is no memory. */
ENIP_JOURNAL_INLINE enip_journal_entry *enip_journal_inner_insert(enip_journal *journal,
                                                                  const enip_journal_entry *entry) {
    size_t at = enip_journal_inner_at(journal, entry->ticket);
    if (journal->count == journal->capacity) {
        size_t capacity = 2 * journal->capacity + 8;
        void *entries = realloc(journal->entries, capacity * sizeof *entry);
        if (entries == NULL)
            return NULL;
        journal->entries = (enip_journal_entry *)entries;
        journal->capacity = capacity;
    }
    memmove(&journal->entries[at + 1], &journal->entries[at], (journal->count - at) * sizeof *entry);
    journal->entries[at] = *entry;
    journal->count++;
    return &journal->entries[at];
}

/* Moves *at behind a text. Returns whether it is there. */
ENIP_JOURNAL_INLINE int enip_journal_inner_take(const char **at, const char *end, const char *text) {
    size_t length = strlen(text);
    int is_there = (size_t)(end - *at) >= length && memcmp(*at, text, length) == 0;
    *at += is_there ? length : 0;
    return is_there;
}

/* Reads a decimal number without zeros in front, up to a limit, and moves *at behind it. */
ENIP_JOURNAL_INLINE int enip_journal_inner_number(const char **at, const char *end, uint64_t limit, uint64_t *number) {
    const char *from = *at;
    for (*number = 0; *at < end && **at >= '0' && **at <= '9'; ++*at) {
        unsigned digit = (unsigned)(**at - '0');
        if (*number > (limit - digit) / 10 || (*number == 0 && *at > from))
            return 0;
        *number = 10 * *number + digit;
    }
    return *at > from;
}

ENIP_JOURNAL_INLINE int enip_journal_inner_digit(char digit) {
    return digit >= '0' && digit <= '9' ? digit - '0' : digit >= 'a' && digit <= 'f' ? digit - 'a' + 10 : -1;
}

/* Reads bytes as pairs of hexadecimal digits, and moves *at behind them. */
ENIP_JOURNAL_INLINE int enip_journal_inner_hex(const char **at, const char *end, uint8_t *bytes, size_t most,
                                               size_t *length) {
    for (*length = 0; end - *at >= 2 && enip_journal_inner_digit(**at) >= 0; ++*length, *at += 2) {
        int low = enip_journal_inner_digit((*at)[1]);
        if (*length == most || low < 0)
            return 0;
        bytes[*length] = (uint8_t)(enip_journal_inner_digit(**at) << 4 | low);
    }
    return 1;
}

/* ---- inner functions for the lines of the device, which are JSON without spaces ---- */

/* Moves behind a string. NULL if it does not end. */
ENIP_JOURNAL_INLINE const char *enip_journal_inner_string(const char *at, const char *end) {
    for (at++; at < end && *at != '"'; at++)
        at += *at == '\\';
    return at < end ? at + 1 : NULL;
}

/* Moves behind a value. NULL if it does not end. */
ENIP_JOURNAL_INLINE const char *enip_journal_inner_value(const char *at, const char *end) {
    for (size_t depth = 0; at != NULL && at < end;) {
        if (depth == 0 && (*at == ',' || *at == '}' || *at == ']'))
            return at;
        if (*at == '"') {
            at = enip_journal_inner_string(at, end);
            continue;
        }
        depth += *at == '{' || *at == '[';
        depth -= *at == '}' || *at == ']';
        at++;
    }
    return NULL;
}

/* Whether a line is one object and no more. */
ENIP_JOURNAL_INLINE int enip_journal_inner_is_object(const char *at, const char *end) {
    size_t depth = 0;
    if (at < end && end[-1] == '\n')
        end--;
    if (at >= end || *at != '{')
        return 0;
    do {
        depth += *at == '{' || *at == '[';
        depth -= *at == '}' || *at == ']';
        at = *at == '"' ? enip_journal_inner_string(at, end) : at + 1;
    } while (at != NULL && at < end && depth != 0);
    return at == end && depth == 0;
}

/* The value of a key of an object. NULL if there is no object, or if it does not have the key. */
ENIP_JOURNAL_INLINE const char *enip_journal_inner_member(const char *at, const char *end, const char *key) {
    size_t length = strlen(key);
    if (at == NULL || at >= end || *at != '{')
        return NULL;
    for (at++; at < end && *at == '"'; at++) {
        const char *name = at + 1, *behind = enip_journal_inner_string(at, end);
        if (behind == NULL || behind >= end || *behind != ':')
            return NULL;
        if ((size_t)(behind - name) == length + 1 && memcmp(name, key, length) == 0)
            return behind + 1;
        at = enip_journal_inner_value(behind + 1, end);
        if (at == NULL || *at != ',')
            return NULL;
    }
    return NULL;
}

/* The number of a key of an object, up to a limit. Returns whether there is such a number. */
ENIP_JOURNAL_INLINE int enip_journal_inner_field(const char *object, const char *end, const char *key, uint64_t limit,
                                                 uint64_t *number) {
    const char *at = enip_journal_inner_member(object, end, key);
    return at != NULL && enip_journal_inner_number(&at, end, limit, number) && at < end && (*at == ',' || *at == '}');
}

/* ---- inner functions for the file ---- */

/* Reads bytes of a journal, where `-` is none, and moves *at behind them. */
ENIP_JOURNAL_INLINE int enip_journal_inner_bytes(const char **at, const char *end, uint8_t *bytes, size_t most,
                                                 size_t *length) {
    *length = 0;
    return enip_journal_inner_take(at, end, "-") ||
           (enip_journal_inner_hex(at, end, bytes, most, length) && *length != 0);
}

/* Reads the line of an entry, and moves *at behind it. */
ENIP_JOURNAL_INLINE int enip_journal_inner_entry(const char **at, const char *end, enip_journal_entry *entry) {
    uint64_t ticket, status = 0;
    memset(entry, 0, sizeof *entry);
    if (!enip_journal_inner_number(at, end, UINT32_MAX, &ticket))
        return 0;
    entry->ticket = (uint32_t)ticket;
    entry->is_done = enip_journal_inner_take(at, end, " done ");
    if (!entry->is_done && !enip_journal_inner_take(at, end, " begun "))
        return 0;
    if (!enip_journal_inner_bytes(at, end, entry->note, ENIP_JOURNAL_NOTE, &entry->note_length))
        return 0;
    if (entry->is_done &&
        (!enip_journal_inner_take(at, end, " ") || !enip_journal_inner_number(at, end, 255, &status) ||
         !enip_journal_inner_take(at, end, " ") ||
         !enip_journal_inner_bytes(at, end, entry->reply.data, ENIP_JOURNAL_REPLY, &entry->reply.length)))
        return 0;
    entry->reply.status = (int)status;
    return enip_journal_inner_take(at, end, "\n");
}

/* Reads the text of a journal. ENIP_JOURNAL_OK, _ANOTHER, _DAMAGED, _MEMORY. */
ENIP_JOURNAL_INLINE int enip_journal_inner_parse(enip_journal *journal, const char *text, size_t length) {
    const char *at = text, *end = text + length;
    char sum[16];
    uint64_t vendor, product_code, serial;
    enip_journal_entry entry;
    if (!enip_journal_inner_take(&at, end, "enip owner 1\n"))
        return ENIP_JOURNAL_ANOTHER;
    if (end - at < 13)
        return ENIP_JOURNAL_DAMAGED;
    end -= 13;
    snprintf(sum, sizeof sum, "sum %08" PRIx32 "\n", enip_journal_inner_sum(text, length - 13));
    if (memcmp(end, sum, 13) != 0 || !enip_journal_inner_take(&at, end, "device ") ||
        !enip_journal_inner_number(&at, end, UINT32_MAX, &vendor) || !enip_journal_inner_take(&at, end, " ") ||
        !enip_journal_inner_number(&at, end, UINT32_MAX, &product_code) || !enip_journal_inner_take(&at, end, " ") ||
        !enip_journal_inner_number(&at, end, UINT32_MAX, &serial) || !enip_journal_inner_take(&at, end, "\nlife ") ||
        !enip_journal_inner_number(&at, end, UINT64_MAX, &journal->life) || !enip_journal_inner_take(&at, end, "\n"))
        return ENIP_JOURNAL_DAMAGED;
    for (uint32_t last = 0; at < end; last = entry.ticket) {
        if (!enip_journal_inner_entry(&at, end, &entry) || entry.ticket <= last)
            return ENIP_JOURNAL_DAMAGED;
        if (enip_journal_inner_insert(journal, &entry) == NULL)
            return ENIP_JOURNAL_MEMORY;
    }
    journal->has_device = 1;
    journal->vendor = (uint32_t)vendor;
    journal->product_code = (uint32_t)product_code;
    journal->serial = (uint32_t)serial;
    return ENIP_JOURNAL_OK;
}

/* Reads a file to its end, or a byte more than a journal can have. ENIP_JOURNAL_OK, _SYSTEM, _MEMORY. */
ENIP_JOURNAL_INLINE int enip_journal_inner_load(int file, size_t size, char **text, size_t *length) {
    ssize_t got = 1;
    size = size > 1 << 20 ? (1 << 20) + 1 : size;
    *text = (char *)malloc(size + 1);
    if (*text == NULL)
        return ENIP_JOURNAL_MEMORY;
    for (*length = 0; got != 0 && *length < size;) {
        got = read(file, *text + *length, size - *length);
        if (got < 0 && errno != EINTR)
            return ENIP_JOURNAL_SYSTEM;
        *length += got > 0 ? (size_t)got : 0;
    }
    return ENIP_JOURNAL_OK;
}

/* Reads the journal, if there is one. ENIP_JOURNAL_OK, _SYSTEM, _MEMORY, _NOT_A_FILE, _ANOTHER, _DAMAGED. */
ENIP_JOURNAL_INLINE int enip_journal_inner_read(enip_journal *journal) {
    struct stat about;
    char *text = NULL;
    size_t length = 0;
    int status, file, error;
    journal->count = 0;
    journal->has_device = 0;
    if (lstat(journal->path, &about) != 0)
        return errno == ENOENT ? ENIP_JOURNAL_OK : ENIP_JOURNAL_SYSTEM;
    if (!S_ISREG(about.st_mode))
        return ENIP_JOURNAL_NOT_A_FILE;
    file = open(journal->path, O_RDONLY | O_CLOEXEC);
    if (file < 0)
        return ENIP_JOURNAL_SYSTEM;
    status = enip_journal_inner_load(file, (size_t)about.st_size, &text, &length);
    error = errno;
    close(file);
    if (status == ENIP_JOURNAL_OK)
        status = enip_journal_inner_parse(journal, text, length);
    free(text);
    errno = error;
    return status;
}

/* Opens FILE.lock, and locks it. ENIP_JOURNAL_OK, _SYSTEM, _LOCKED. */
ENIP_JOURNAL_INLINE int enip_journal_inner_lock(enip_journal *journal) {
    char name[ENIP_JOURNAL_PATH + 8];
    snprintf(name, sizeof name, "%s.lock", journal->path);
    journal->lock = open(name, O_RDWR | O_CREAT | O_CLOEXEC, 0666);
    if (journal->lock < 0)
        return ENIP_JOURNAL_SYSTEM;
    if (flock(journal->lock, LOCK_EX | LOCK_NB) == 0)
        return ENIP_JOURNAL_OK;
    return errno == EWOULDBLOCK ? ENIP_JOURNAL_LOCKED : ENIP_JOURNAL_SYSTEM;
}

/* Writes bytes as hexadecimal digits. Returns how many digits. */
ENIP_JOURNAL_INLINE size_t enip_journal_inner_digits(char *text, const uint8_t *bytes, size_t length) {
    for (size_t i = 0; i < length; i++) {
        text[2 * i] = "0123456789abcdef"[bytes[i] >> 4];
        text[2 * i + 1] = "0123456789abcdef"[bytes[i] & 15];
    }
    return 2 * length;
}

/* Writes the line of an entry. Returns its length. */
ENIP_JOURNAL_INLINE size_t enip_journal_inner_line(char *text, size_t size, const enip_journal_entry *entry) {
    size_t used = (size_t)snprintf(text, size, "%" PRIu32 " %s ", entry->ticket, entry->is_done ? "done" : "begun");
    used += enip_journal_inner_digits(text + used, entry->note, entry->note_length);
    if (entry->note_length == 0)
        text[used++] = '-';
    if (entry->is_done) {
        used += (size_t)snprintf(text + used, size - used, " %d ", entry->reply.status);
        used += enip_journal_inner_digits(text + used, entry->reply.data, entry->reply.length);
        if (entry->reply.length == 0)
            text[used++] = '-';
    }
    text[used++] = '\n';
    return used;
}

/* The text of the journal, whose last line is the CRC-32 of the lines above. NULL if there is no memory. */
ENIP_JOURNAL_INLINE char *enip_journal_inner_text(const enip_journal *journal, size_t *length) {
    size_t size = 160 + journal->count * (2 * ENIP_JOURNAL_NOTE + 2 * ENIP_JOURNAL_REPLY + 40), used;
    char *text = (char *)malloc(size);
    if (text == NULL)
        return NULL;
    used = (size_t)snprintf(text, size, "enip owner 1\ndevice %" PRIu32 " %" PRIu32 " %" PRIu32 "\nlife %" PRIu64 "\n",
                            journal->vendor, journal->product_code, journal->serial, journal->life);
    for (size_t i = 0; i < journal->count; i++)
        used += enip_journal_inner_line(text + used, size - used, &journal->entries[i]);
    *length = used;
    *length += (size_t)snprintf(text + used, size - used, "sum %08" PRIx32 "\n", enip_journal_inner_sum(text, used));
    return text;
}

/* Writes a text to a new file, and syncs and closes it. Returns whether that was possible. */
ENIP_JOURNAL_INLINE int enip_journal_inner_write(const char *name, const char *text, size_t length) {
    int file, error, is_written;
    size_t written = 0;
    ssize_t count = 0;
    if (unlink(name) != 0 && errno != ENOENT)
        return 0;
    file = open(name, O_WRONLY | O_CREAT | O_EXCL | O_CLOEXEC, 0666);
    if (file < 0)
        return 0;
    while (written < length && (count >= 0 || errno == EINTR)) {
        count = write(file, text + written, length - written);
        written += count > 0 ? (size_t)count : 0;
    }
    is_written = written == length && fsync(file) == 0;
    error = errno;
    close(file);
    errno = error;
    return is_written;
}

/* Syncs the folder of the journal. Returns whether that was possible. */
ENIP_JOURNAL_INLINE int enip_journal_inner_sync_folder(const enip_journal *journal) {
    char name[ENIP_JOURNAL_PATH];
    int folder, error, is_synced;
    snprintf(name, sizeof name, "%s", journal->path);
    strrchr(name, '/')[1] = '\0';
    folder = open(name, O_RDONLY | O_CLOEXEC);
    if (folder < 0)
        return 0;
    is_synced = fsync(folder) == 0;
    error = errno;
    close(folder);
    errno = error;
    return is_synced;
}

/* Writes a new file, which takes the place of the old one. On return it is on the disk. ENIP_JOURNAL_OK, _SYSTEM,
 * _MEMORY. */
ENIP_JOURNAL_INLINE int enip_journal_inner_store(const enip_journal *journal) {
    char name[ENIP_JOURNAL_PATH + 8];
    size_t length;
    int is_stored;
    char *text = enip_journal_inner_text(journal, &length);
    if (text == NULL)
        return ENIP_JOURNAL_MEMORY;
    snprintf(name, sizeof name, "%s.new", journal->path);
    is_stored = enip_journal_inner_write(name, text, length) && rename(name, journal->path) == 0 &&
                enip_journal_inner_sync_folder(journal);
    free(text);
    return is_stored ? ENIP_JOURNAL_OK : ENIP_JOURNAL_SYSTEM;
}

/* Notes an entry in place of that of its ticket, if there is one. If that fails, nothing is noted. ENIP_JOURNAL_OK,
 * _SYSTEM, _MEMORY. */
ENIP_JOURNAL_INLINE int enip_journal_inner_put(enip_journal *journal, const enip_journal_entry *entry) {
    enip_journal_entry *at = enip_journal_inner_find(journal, entry->ticket), before;
    int status, is_new = at == NULL;
    if (is_new)
        at = enip_journal_inner_insert(journal, entry);
    if (at == NULL)
        return ENIP_JOURNAL_MEMORY;
    before = *at;
    *at = *entry;
    status = enip_journal_inner_store(journal);
    if (status != ENIP_JOURNAL_OK && is_new)
        enip_journal_inner_forget(journal, at);
    else if (status != ENIP_JOURNAL_OK)
        *at = before;
    return status;
}

/* ---- inner functions for the session ---- */

/* Sends the reply of a command. ENIP_JOURNAL_OK, _NOT_SENT. */
ENIP_JOURNAL_INLINE int enip_journal_inner_send_done(enip_journal *journal, enip_journal_entry *entry) {
    char line[2 * ENIP_JOURNAL_REPLY + 80];
    const enip_journal_reply *reply = &entry->reply;
    size_t length = (size_t)snprintf(line, sizeof line, "{\"done\":{\"ticket\":%" PRIu32 ",\"status\":%d,\"data\":\"",
                                     entry->ticket, reply->status);
    length += enip_journal_inner_digits(line + length, reply->data, reply->length);
    length += (size_t)snprintf(line + length, sizeof line - length, "\"}}\n");
    entry->line = ++journal->lines;
    return journal->sender(journal->sender_context, line, length) == 0 ? ENIP_JOURNAL_OK : ENIP_JOURNAL_NOT_SENT;
}

/* Notes the reply of a command that began, and sends it if the command was handed over in this session. */
ENIP_JOURNAL_INLINE int enip_journal_inner_answer(enip_journal *journal, const enip_journal_entry *begun, int status,
                                                  const void *data, size_t length) {
    enip_journal_entry entry = *begun;
    int result;
    if (status < 0 || status > 255 || status == 0x11 || length > ENIP_JOURNAL_REPLY || (data == NULL && length != 0))
        return ENIP_JOURNAL_MISUSE;
    entry.is_done = 1;
    entry.reply.status = status;
    entry.reply.length = length;
    if (length != 0)
        memcpy(entry.reply.data, data, length);
    result = enip_journal_inner_put(journal, &entry);
    if (result != ENIP_JOURNAL_OK || entry.ticket > journal->last)
        return result;
    return enip_journal_inner_send_done(journal, enip_journal_inner_find(journal, entry.ticket));
}

/* The device begins the session. ENIP_JOURNAL_OK, _MALFORMED, _NO_LEDGER, _DEVICE. */
ENIP_JOURNAL_INLINE int enip_journal_inner_hello(enip_journal *journal, const char *hello, const char *end) {
    uint64_t vendor, product_code, serial, life;
    if (!enip_journal_inner_field(hello, end, "vendor", UINT32_MAX, &vendor) ||
        !enip_journal_inner_field(hello, end, "product_code", UINT32_MAX, &product_code) ||
        !enip_journal_inner_field(hello, end, "serial", UINT32_MAX, &serial))
        return ENIP_JOURNAL_MALFORMED;
    if (enip_journal_inner_member(hello, end, "life") == NULL)
        return ENIP_JOURNAL_NO_LEDGER;
    if (!enip_journal_inner_field(hello, end, "life", UINT64_MAX, &life))
        return ENIP_JOURNAL_MALFORMED;
    if (journal->has_device &&
        (journal->vendor != vendor || journal->product_code != product_code || journal->serial != serial))
        return ENIP_JOURNAL_DEVICE;
    if (!journal->has_device || journal->life != life)
        journal->count = 0;
    journal->has_device = journal->is_open = 1;
    journal->vendor = (uint32_t)vendor;
    journal->product_code = (uint32_t)product_code;
    journal->serial = (uint32_t)serial;
    journal->life = life;
    return ENIP_JOURNAL_OK;
}

/* Reads a command that is handed over. Returns whether it is one. */
ENIP_JOURNAL_INLINE int enip_journal_inner_command(const enip_journal *journal, const char *it, const char *end,
                                                   enip_journal_command *command) {
    uint64_t ticket, class_id, instance, service;
    const char *data = enip_journal_inner_member(it, end, "data"), *again = enip_journal_inner_member(it, end, "again");
    if (!enip_journal_inner_field(it, end, "ticket", UINT32_MAX, &ticket) ||
        !enip_journal_inner_field(it, end, "class", UINT32_MAX, &class_id) ||
        !enip_journal_inner_field(it, end, "instance", UINT32_MAX, &instance) ||
        !enip_journal_inner_field(it, end, "service", 255, &service) || again == NULL || data == NULL ||
        !enip_journal_inner_take(&data, end, "\"") ||
        !enip_journal_inner_hex(&data, end, command->data, ENIP_JOURNAL_DATA, &command->length) ||
        !enip_journal_inner_take(&data, end, "\""))
        return 0;
    command->life = journal->life;
    command->ticket = (uint32_t)ticket;
    command->class_id = (uint32_t)class_id;
    command->instance = (uint32_t)instance;
    command->service = (int)service;
    command->again = enip_journal_inner_take(&again, end, "true");
    return journal->is_open;
}

/* A command is handed over. Commands come in the order of their tickets, so an entry between the last one and this is
 * done at the device, and its `ok` was lost. */
ENIP_JOURNAL_INLINE int enip_journal_inner_hand(enip_journal *journal, const enip_journal_command *command) {
    enip_journal_entry *entry, begun;
    enip_journal_reply reply;
    int settled;
    for (size_t at = journal->count; at-- > 0;) {
        entry = &journal->entries[at];
        if (entry->ticket > journal->last && entry->ticket < command->ticket && (entry->is_done || !entry->is_here))
            enip_journal_inner_forget(journal, entry);
    }
    journal->last = command->ticket;
    entry = enip_journal_inner_find(journal, command->ticket);
    if (entry == NULL)
        return ENIP_JOURNAL_EXECUTE;
    if (entry->is_done)
        return enip_journal_inner_send_done(journal, entry);
    if (entry->is_here)
        return ENIP_JOURNAL_OK;
    begun = *entry;
    memset(&reply, 0, sizeof reply);
    settled = journal->settle(journal->context, command, begun.note, begun.note_length, &reply);
    if (settled < 0)
        return ENIP_JOURNAL_IN_DOUBT;
    return settled == 0 ? ENIP_JOURNAL_EXECUTE
                        : enip_journal_inner_answer(journal, &begun, reply.status, reply.data, reply.length);
}

/* The device has answered a line. If it was the `done` of a command, this fills in its ticket: the command is over, or
 * it waits for another reply. Returns whether it was. */
ENIP_JOURNAL_INLINE int enip_journal_inner_answered(enip_journal *journal, uint64_t line, int is_over,
                                                    enip_journal_command *command) {
    for (size_t at = 0; at < journal->count; at++) {
        enip_journal_entry *entry = &journal->entries[at];
        if (entry->line != line || line == 0)
            continue;
        command->ticket = entry->ticket;
        entry->is_done = 0;
        entry->is_here = 1;
        entry->line = 0;
        if (is_over)
            enip_journal_inner_forget(journal, entry);
        return 1;
    }
    return 0;
}

/* The absolute path of the journal. ENIP_JOURNAL_OK, _MISUSE, _SYSTEM. */
ENIP_JOURNAL_INLINE int enip_journal_inner_name(enip_journal *journal, const char *file) {
    size_t used = 0;
    if (*file != '/') {
        if (getcwd(journal->path, ENIP_JOURNAL_PATH - 1) == NULL)
            return ENIP_JOURNAL_SYSTEM;
        used = strlen(journal->path);
        journal->path[used++] = '/';
    }
    if (strlen(file) >= ENIP_JOURNAL_PATH - used)
        return ENIP_JOURNAL_MISUSE;
    strcpy(journal->path + used, file);
    return ENIP_JOURNAL_OK;
}

/* Whether a program may call begin or done for a command, as far as its life says. */
ENIP_JOURNAL_INLINE int enip_journal_inner_is_current(const enip_journal *journal,
                                                      const enip_journal_command *command) {
    return journal->has_device && command->life == journal->life;
}

/* Frees a journal. */
ENIP_JOURNAL_INLINE void enip_journal_inner_free(enip_journal *journal) {
    if (journal->lock >= 0)
        close(journal->lock);
    free(journal->entries);
    free(journal);
}

/* ---- what a program calls ---- */

/*
 * Opens the journal in a file, and locks it. If there is no file, nothing is noted; it is created when the first
 * command begins, with FILE.new next to it while it is written. FILE.lock stays. context is passed to settle. If this
 * fails, *opened is NULL. ENIP_JOURNAL_OK; ENIP_JOURNAL_NOT_A_FILE, ENIP_JOURNAL_ANOTHER, ENIP_JOURNAL_DAMAGED,
 * ENIP_JOURNAL_LOCKED; ENIP_JOURNAL_SYSTEM; ENIP_JOURNAL_MEMORY; ENIP_JOURNAL_MISUSE if a pointer other than context is
 * NULL, or if the path is too long.
 */
ENIP_JOURNAL_INLINE int enip_journal_open(const char *file, enip_journal_settle *settle, void *context,
                                          enip_journal **opened) {
    enip_journal *journal;
    int status, error;
    if (file == NULL || settle == NULL || opened == NULL)
        return ENIP_JOURNAL_MISUSE;
    *opened = NULL;
    journal = (enip_journal *)calloc(1, sizeof *journal);
    if (journal == NULL)
        return ENIP_JOURNAL_MEMORY;
    journal->lock = -1;
    journal->settle = settle;
    journal->context = context;
    status = enip_journal_inner_name(journal, file);
    if (status == ENIP_JOURNAL_OK)
        status = enip_journal_inner_read(journal);
    if (status == ENIP_JOURNAL_OK)
        status = enip_journal_inner_lock(journal);
    if (status == ENIP_JOURNAL_OK)
        status = enip_journal_inner_read(journal);
    if (status != ENIP_JOURNAL_OK) {
        error = errno;
        enip_journal_inner_free(journal);
        errno = error;
        return status;
    }
    *opened = journal;
    return ENIP_JOURNAL_OK;
}

/*
 * A connection to the device begins: sender sends bytes to it. Call this after the token was sent, and before anything
 * else is. ENIP_JOURNAL_OK; ENIP_JOURNAL_MISUSE if journal or sender is NULL.
 */
ENIP_JOURNAL_INLINE int enip_journal_connect(enip_journal *journal, enip_journal_sender *sender, void *context) {
    if (journal == NULL || sender == NULL)
        return ENIP_JOURNAL_MISUSE;
    journal->sender = sender;
    journal->sender_context = context;
    journal->is_open = 0;
    journal->last = 0;
    journal->lines = 0;
    for (size_t i = 0; i < journal->count; i++)
        journal->entries[i].line = 0;
    return ENIP_JOURNAL_OK;
}

/*
 * Takes a line of the device, with its newline or without. ENIP_JOURNAL_EXECUTE if the program has to execute *command;
 * ENIP_JOURNAL_OK if the journal has nothing for it to execute; ENIP_JOURNAL_REFUSED if the device has refused the
 * reply of a command, whose life and ticket are in *command: call enip_journal_done with another reply, unless the text
 * of the line is `no such command`; ENIP_JOURNAL_DEVICE, ENIP_JOURNAL_NO_LEDGER, ENIP_JOURNAL_MALFORMED;
 * ENIP_JOURNAL_IN_DOUBT if settle cannot know; ENIP_JOURNAL_SYSTEM, ENIP_JOURNAL_MEMORY, ENIP_JOURNAL_NOT_SENT;
 * ENIP_JOURNAL_MISUSE if a pointer is NULL, there is no connection, or a reply of settle is not allowed.
 */
ENIP_JOURNAL_INLINE int enip_journal_receive(enip_journal *journal, const char *line, size_t length,
                                             enip_journal_command *command) {
    const char *end, *value, *text;
    uint64_t number;
    if (journal == NULL || line == NULL || command == NULL || journal->sender == NULL)
        return ENIP_JOURNAL_MISUSE;
    end = line + length;
    memset(command, 0, sizeof *command);
    command->life = journal->life;
    if (!enip_journal_inner_is_object(line, end))
        return ENIP_JOURNAL_MALFORMED;
    if ((value = enip_journal_inner_member(line, end, "hello")) != NULL)
        return enip_journal_inner_hello(journal, value, end);
    if ((value = enip_journal_inner_member(line, end, "command")) != NULL)
        return enip_journal_inner_command(journal, value, end, command) ? enip_journal_inner_hand(journal, command)
                                                                        : ENIP_JOURNAL_MALFORMED;
    if (enip_journal_inner_field(line, end, "ok", UINT64_MAX, &number)) {
        enip_journal_inner_answered(journal, number, 1, command);
        return ENIP_JOURNAL_OK;
    }
    if (enip_journal_inner_field(line, end, "error", UINT64_MAX, &number)) {
        text = enip_journal_inner_member(line, end, "text");
        return enip_journal_inner_answered(
                   journal, number, text != NULL && enip_journal_inner_take(&text, end, "\"no such command"), command)
                   ? ENIP_JOURNAL_REFUSED
                   : ENIP_JOURNAL_OK;
    }
    return ENIP_JOURNAL_OK;
}

/*
 * Notes that a command begins. Move the machine only if this returns ENIP_JOURNAL_OK. The note is what settle needs,
 * for example where the machine will be. ENIP_JOURNAL_OK; ENIP_JOURNAL_BEGUN if the command must not be executed once
 * more; ENIP_JOURNAL_OTHER_LIFE; ENIP_JOURNAL_SYSTEM, ENIP_JOURNAL_MEMORY; ENIP_JOURNAL_MISUSE if journal or command is
 * NULL, or if the note is too long, or NULL and not empty.
 */
ENIP_JOURNAL_INLINE int enip_journal_begin(enip_journal *journal, const enip_journal_command *command, const void *note,
                                           size_t length) {
    enip_journal_entry *before, entry;
    if (journal == NULL || command == NULL || length > ENIP_JOURNAL_NOTE || (note == NULL && length != 0))
        return ENIP_JOURNAL_MISUSE;
    if (!enip_journal_inner_is_current(journal, command))
        return ENIP_JOURNAL_OTHER_LIFE;
    before = enip_journal_inner_find(journal, command->ticket);
    if (before != NULL && (before->is_here || before->is_done))
        return ENIP_JOURNAL_BEGUN;
    memset(&entry, 0, sizeof entry);
    entry.ticket = command->ticket;
    entry.is_here = 1;
    entry.note_length = length;
    if (length != 0)
        memcpy(entry.note, note, length);
    return enip_journal_inner_put(journal, &entry);
}

/*
 * Notes the reply of a command that has begun, and then sends it. If the command was not handed over in this session,
 * it is sent when it is handed over again. status is the general status, 0 to 255 but not 0x11. ENIP_JOURNAL_OK;
 * ENIP_JOURNAL_NOT_SENT: the reply is noted; ENIP_JOURNAL_NOT_BEGUN, ENIP_JOURNAL_REPLIED, ENIP_JOURNAL_OTHER_LIFE;
 * ENIP_JOURNAL_SYSTEM, ENIP_JOURNAL_MEMORY; ENIP_JOURNAL_MISUSE if journal or command is NULL, or if the reply is not
 * allowed.
 */
ENIP_JOURNAL_INLINE int enip_journal_done(enip_journal *journal, const enip_journal_command *command, int status,
                                          const void *data, size_t length) {
    const enip_journal_entry *entry;
    if (journal == NULL || command == NULL)
        return ENIP_JOURNAL_MISUSE;
    if (!enip_journal_inner_is_current(journal, command))
        return ENIP_JOURNAL_OTHER_LIFE;
    entry = enip_journal_inner_find(journal, command->ticket);
    if (entry == NULL || !entry->is_here)
        return ENIP_JOURNAL_NOT_BEGUN;
    if (entry->is_done)
        return ENIP_JOURNAL_REPLIED;
    return enip_journal_inner_answer(journal, entry, status, data, length);
}

/*
 * Sends another line to the device, with its newline: `write`, `read`, `answer`, `status` or `state`. *number is the
 * number of the line, which the device's `ok` or `error` has; number may be NULL. ENIP_JOURNAL_OK;
 * ENIP_JOURNAL_NOT_SENT; ENIP_JOURNAL_MISUSE if journal or line is NULL, if there is no connection, if this is not one
 * line, or if it is a `done`.
 */
ENIP_JOURNAL_INLINE int enip_journal_send(enip_journal *journal, const char *line, uint64_t *number) {
    size_t length = line == NULL ? 0 : strcspn(line, "\n");
    if (journal == NULL || line == NULL || journal->sender == NULL || line[length] != '\n' ||
        line[length + 1] != '\0' || enip_journal_inner_member(line, line + length, "done") != NULL)
        return ENIP_JOURNAL_MISUSE;
    journal->lines++;
    if (number != NULL)
        *number = journal->lines;
    return journal->sender(journal->sender_context, line, length + 1) == 0 ? ENIP_JOURNAL_OK : ENIP_JOURNAL_NOT_SENT;
}

/* Closes a journal, which may be NULL, so that another process can use its file. */
ENIP_JOURNAL_INLINE void enip_journal_close(enip_journal *journal) {
    if (journal != NULL)
        enip_journal_inner_free(journal);
}

/* The text of a status. */
ENIP_JOURNAL_INLINE const char *enip_journal_text(int status) {
    static const char *const texts[] = {
        "done", "a command is to be executed", "the device has refused the reply of a command",
        "an argument is not allowed", "it could not be read or written", "out of memory", "not a regular file",
        "not the journal of an owner", "damaged", "another process uses it", "the journal of another device",
        "the device has no command ledger: one start of it is like another", "not a line of the device",
        "the command has begun before", "the command did not begin", "the command has a reply",
        "the command is of another life of the device", "a command is in doubt", "a line could not be sent"};
    int count = (int)(sizeof texts / sizeof *texts);
    return status >= 0 && status < count ? texts[status] : "not a status of a journal";
}

#endif
