// What performance/keep measures: clients that add to the counter of a device, and loops that keep the same in files.
//
// keep load PORT CLIENTS COUNT SECONDS    sends additions on CLIENTS connections, one after the other on each, until COUNT
//                                         rounds are over, or so many seconds. 0 is without a limit
// keep get PORT CLIENTS COUNT SECONDS     the same, and reads the counter instead
// keep sqlite FILE SECONDS                commits transactions of the rows that `enip serve --keep` changes for an
//                                         addition, by libsqlite3
// keep both FILE SECONDS                  the same, and writes and syncs FILE.round after each
// keep sync FILE SECONDS                  writes 4,096 bytes at the end of a file and waits until they are on the disk
//
// Each prints how many there were a second.
#include <arpa/inet.h>
#include <fcntl.h>
#include <netinet/in.h>
#include <netinet/tcp.h>
#include <sqlite3.h>
#include <stdio.h>
#include <stdlib.h>
#include <string.h>
#include <sys/socket.h>
#include <time.h>
#include <unistd.h>

enum { HEADER = 24, MOST_CLIENTS = 16, REGISTER = 28, PAGE = 4096, FRONT = 16, LINE = 64 };

static const unsigned char REGISTERING[REGISTER] = {0x65, 0, 4, 0, [24] = 1};
// Add of the counter, and Get_Attribute_Single of its value, behind the two items of an unconnected request.
static const unsigned char ADD[10] = {0x32, 2, 0x20, 0x64, 0x24, 1, 1};
static const unsigned char GET[8] = {0x0e, 3, 0x20, 0x64, 0x24, 1, 0x30, 1};

static double now_in_seconds(void) {
    struct timespec now;
    clock_gettime(CLOCK_MONOTONIC, &now);
    return now.tv_sec + now.tv_nsec / 1e9;
}

static int connected(int port) {
    struct sockaddr_in at = {.sin_family = AF_INET, .sin_addr.s_addr = htonl(INADDR_LOOPBACK), .sin_port = htons(port)};
    int client = socket(AF_INET, SOCK_STREAM, 0), one = 1;
    if (connect(client, (void *)&at, sizeof at)) return -1;
    setsockopt(client, IPPROTO_TCP, TCP_NODELAY, &one, sizeof one);
    return client;
}

static int read_whole(int client, unsigned char *bytes, size_t size) {
    for (ssize_t got; size > 0; size -= got, bytes += got) {
        if ((got = read(client, bytes, size)) <= 0) return 0;
    }
    return 1;
}

// Registers a session. Returns its handle, or 0 if that failed.
static unsigned begin(int client) {
    unsigned char bytes[REGISTER];
    if (write(client, REGISTERING, REGISTER) != REGISTER || !read_whole(client, bytes, REGISTER)) return 0;
    return bytes[4] + 256 * bytes[5];
}

static size_t request_of(unsigned session, const unsigned char *request, size_t size, unsigned char *frame) {
    memset(frame, 0, HEADER + FRONT);
    frame[0] = 0x6f, frame[2] = FRONT + size, frame[4] = session & 255, frame[5] = session >> 8;
    frame[HEADER + 6] = 2, frame[HEADER + 12] = 0xb2, frame[HEADER + 14] = size;
    memcpy(frame + HEADER + FRONT, request, size);
    return HEADER + FRONT + size;
}

// The reply has the status 0 and four bytes of data: the sum so far.
static int is_answered(int client) {
    unsigned char answer[HEADER + FRONT + 8];
    return read_whole(client, answer, sizeof answer) && answer[HEADER + FRONT + 2] == 0;
}

static int load(int port, int count, long most, double seconds, const unsigned char *request, size_t size) {
    unsigned char frames[MOST_CLIENTS][HEADER + FRONT + 16];
    int clients[MOST_CLIENTS];
    size_t length = 0;
    long rounds = 0;
    for (int i = 0; i < count; i++) {
        unsigned session;
        if ((clients[i] = connected(port)) < 0 || (session = begin(clients[i])) == 0) return 1;
        length = request_of(session, request, size, frames[i]);
    }
    double from = now_in_seconds();
    for (; (most == 0 || rounds < most) && (seconds == 0 || now_in_seconds() < from + seconds); rounds++) {
        for (int i = 0; i < count; i++) {
            if (write(clients[i], frames[i], length) != (ssize_t)length) return 1;
        }
        for (int i = 0; i < count; i++) {
            if (!is_answered(clients[i])) return 1;
        }
    }
    printf("%.0f\n", count * rounds / (now_in_seconds() - from));
    return 0;
}

// The rows of an addition: the number of the round with a checksum, the value of the counter, and its additions.
static const struct {
    long key;
    int size;
} ROWS[3] = {{0, 16}, {100L << 32 | 1 << 16 | 1, 4}, {100L << 32 | 1 << 16 | 3, 4}};

static int commit_rows(sqlite3 *database, sqlite3_stmt *put, long number) {
    long values[2] = {number, number};
    if (sqlite3_exec(database, "BEGIN", 0, 0, 0)) return 0;
    for (int row = 0; row < 3; row++) {
        sqlite3_bind_int64(put, 1, ROWS[row].key);
        sqlite3_bind_blob(put, 2, values, ROWS[row].size, SQLITE_STATIC);
        if (sqlite3_step(put) != SQLITE_DONE || sqlite3_reset(put)) return 0;
    }
    return !sqlite3_exec(database, "COMMIT", 0, 0, 0);
}

static int sqlite(const char *name, double seconds, int has_round) {
    static const char MAKE[] = "PRAGMA journal_mode = WAL; PRAGMA synchronous = FULL;"
                               "CREATE TABLE IF NOT EXISTS kept (key INTEGER PRIMARY KEY, value BLOB NOT NULL) STRICT";
    static const char PUT[] = "INSERT INTO kept (key, value) VALUES (?1, ?2)"
                              " ON CONFLICT (key) DO UPDATE SET value = excluded.value";
    sqlite3 *database;
    sqlite3_stmt *put;
    char round[PAGE], line[LINE] = "enip state 1";
    snprintf(round, sizeof round, "%s.round", name);
    int file = has_round ? open(round, O_CREAT | O_WRONLY, 0600) : -1;
    if (sqlite3_open(name, &database) || sqlite3_exec(database, MAKE, 0, 0, 0)) return 1;
    if (sqlite3_prepare_v2(database, PUT, -1, &put, 0)) return 1;
    double from = now_in_seconds();
    long number = 0;
    for (; now_in_seconds() < from + seconds; number++) {
        if (!commit_rows(database, put, number)) return 1;
        if (has_round && (pwrite(file, line, LINE, number % 2 * LINE) != LINE || fdatasync(file))) return 1;
    }
    printf("%.0f\n", number / (now_in_seconds() - from));
    return 0;
}

static int synced(const char *name, double seconds) {
    static unsigned char page[PAGE];
    int file = open(name, O_CREAT | O_WRONLY | O_TRUNC, 0600);
    if (file < 0) return 1;
    double from = now_in_seconds();
    long number = 0;
    for (; now_in_seconds() < from + seconds; number++) {
        if (write(file, page, PAGE) != PAGE || fdatasync(file)) return 1;
    }
    printf("%.0f\n", number / (now_in_seconds() - from));
    return 0;
}

int main(int count, char **arguments) {
    if (count == 6 && (!strcmp(arguments[1], "load") || !strcmp(arguments[1], "get"))) {
        int adds = !strcmp(arguments[1], "load");
        long most = atol(arguments[4]);
        const unsigned char *request = adds ? ADD : GET;
        size_t size = adds ? sizeof ADD : sizeof GET;
        return load(atoi(arguments[2]), atoi(arguments[3]), most, atof(arguments[5]), request, size);
    }
    if (count != 4) return 2;
    double seconds = atof(arguments[3]);
    if (!strcmp(arguments[1], "sqlite")) return sqlite(arguments[2], seconds, 0);
    if (!strcmp(arguments[1], "both")) return sqlite(arguments[2], seconds, 1);
    if (!strcmp(arguments[1], "sync")) return synced(arguments[2], seconds);
    return 2;
}
