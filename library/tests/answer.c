/* `enip answer CONFIG` through the library for C: the same lines in, the same lines out. It runs any other command by
 * the program that the variable ENIP names, so that tests/run_rows can use it in place of `enip`. */
#define _POSIX_C_SOURCE 200809L
#include <enip.h>
#include <errno.h>
#include <stdio.h>
#include <stdlib.h>
#include <string.h>
#include <unistd.h>

enum { SLOTS = 10, LONGEST_LINE = 1 << 24 };

static struct slot {
    int is_taken, is_closed;
    uint32_t peer;
} slots[SLOTS];

static uint64_t now;
static unsigned char piece[LONGEST_LINE / 2], buffer[ENIP_ANSWER_ROOM];

/* The value of a hexadecimal digit; -1 if it is not one. */
static int digit_of(char it) {
    if (it >= '0' && it <= '9')
        return it - '0';
    if (it >= 'a' && it <= 'f')
        return it - 'a' + 10;
    if (it >= 'A' && it <= 'F')
        return it - 'A' + 10;
    return -1;
}

/* Writes the bytes that hexadecimal digits give to `piece`, and returns their number; 0 if they are malformed. Spaces are
 * ignored. */
static size_t read_hex(const char *digits) {
    size_t count = 0;
    int high = -1;
    for (; *digits != '\0'; digits++) {
        int value = digit_of(*digits);
        if (*digits == ' ')
            continue;
        if (value < 0)
            return 0;
        if (high < 0) {
            high = value;
        } else {
            piece[count++] = (unsigned char)(high * 16 + value);
            high = -1;
        }
    }
    return high < 0 ? count : 0;
}

/* Passes the piece to the peer of a slot, which begins with its first piece, and prints the answers. */
static void feed(enip_adapter *adapter, int number, size_t size) {
    struct slot *slot = &slots[number];
    size_t at = 0;
    if (slot->is_closed)
        return;
    if (!slot->is_taken) {
        int status = enip_adapter_begin(adapter, &slot->peer);
        if (status != ENIP_OK) {
            printf("%d full %d\n", number, status == ENIP_PLACES ? 1 : 2);
            return;
        }
        slot->is_taken = 1;
    }
    while (at < size) {
        enip_fed fed;
        if (enip_adapter_feed(adapter, now, slot->peer, piece + at, size - at, buffer, sizeof buffer, &fed) != ENIP_OK)
            exit(9);
        if (fed.answer > 0) {
            printf("%d ", number);
            for (size_t i = 0; i < fed.answer; i++)
                printf("%02x", buffer[i]);
            puts("");
        }
        if (fed.close) {
            slot->is_closed = 1;
            printf("%d closed\n", number);
            return;
        }
        at += fed.taken;
    }
}

/* Runs a line. Returns 0 if it is malformed. */
static int run(enip_adapter *adapter, char *line) {
    size_t size;
    line[strcspn(line, "\n")] = '\0';
    if (line[0] == '\0' || line[0] == '#')
        return 1;
    if (strncmp(line, "now ", 4) == 0) {
        errno = 0;
        now = strtoull(line + 4, NULL, 10);
        return errno == 0;
    }
    if (strncmp(line, "end ", 4) == 0) {
        struct slot *slot = &slots[digit_of(line[4])];
        if (slot->is_taken)
            enip_adapter_end(adapter, slot->peer);
        *slot = (struct slot){0, 0, 0};
        return 1;
    }
    if (line[0] < '1' || line[0] > '9' || line[1] != ' ' || (size = read_hex(line + 2)) == 0)
        return 0;
    feed(adapter, line[0] - '0', size);
    return 1;
}

int main(int count, char **arguments) {
    static char text[1 << 20], line[LONGEST_LINE];
    enip_adapter *adapter;
    enip_refusal why;
    unsigned long number = 0;
    if (count != 3 || strcmp(arguments[1], "answer") != 0) {
        execv(getenv("ENIP"), arguments);
        return 9;
    }
    FILE *file = fopen(arguments[2], "rb");
    size_t size = file == NULL ? 0 : fread(text, 1, sizeof text, file);
    int status = enip_adapter_new(text, size, &adapter, &why);
    if (status == ENIP_CONFIGURATION && why.number == ENIP_CONFIG_QUEUED) {
        // the library has no queue of commands: the program answers
        execv(getenv("ENIP"), arguments);
        return 9;
    }
    if (status == ENIP_CONFIGURATION) {
        // 13 is ENIP_CONFIG_ORDER here, so the two last checks have the next numbers
        int is_shifted = why.number == ENIP_CONFIG_ACCESS || why.number == ENIP_CONFIG_COMMANDS;
        unsigned number = why.number - is_shifted;
        return fprintf(stderr, "enip: %s\nconfiguration %u\n", why.text, number), 3;
    }
    if (status != ENIP_OK)
        return fprintf(stderr, "memory\n"), 5;
    while (fgets(line, sizeof line, stdin) != NULL) {
        number++;
        if (!run(adapter, line))
            return fflush(stdout), fprintf(stderr, "line %lu\n", number), 4;
    }
    fclose(file);
    return enip_adapter_free(adapter);
}
