/*
 * The owner of a conveyor, in C: does what conveyor.py does, with the same files.
 *
 *     cc -std=c99 -I ../../library/include -o owner conveyor.c
 *     enip serve conveyor.toml 127.0.0.1:44818 --owner 127.0.0.1:44900
 *     ./owner 127.0.0.1 44900 FILE
 *
 * FILE stands for the machine: it has the position. FILE.journal has what this program must remember, so that each
 * command moves the conveyor once, also if this program or the device is killed. enip_owner.h keeps it (in the archive,
 * it is in include; in Debian, in the package libenip-dev). The members of the device's lines have a fixed order, and
 * no spaces between them (docs/PROGRAM.md, "The owner's lines"), so that sscanf reads those that are not commands.
 */
#define _POSIX_C_SOURCE 200809L
#include <arpa/inet.h>
#include <enip_owner.h>
#include <sys/socket.h>

enum { END = 10000, SUCCESS = 0, INVALID_PARAMETER = 0x20 };

static const char *file;
static enip_journal *journal;

static void check(const char *what, int status) {
    if (status == ENIP_JOURNAL_OK)
        return;
    fprintf(stderr, "%s: %s\n", what, status == ENIP_JOURNAL_SYSTEM ? strerror(errno) : enip_journal_text(status));
    exit(1);
}

static int send_bytes(void *device, const char *bytes, size_t length) {
    return send(*(int *)device, bytes, length, MSG_NOSIGNAL) == (ssize_t)length ? 0 : -1;
}

/* ---- the motor and the encoder ---- */

static long position(void) {
    long at = 0;
    FILE *encoder = fopen(file, "r");
    if (encoder == NULL)
        return 0;
    if (fscanf(encoder, "%ld", &at) != 1)
        check(file, ENIP_JOURNAL_SYSTEM);
    fclose(encoder);
    return at;
}

/* Drives to a position. If the conveyor is there, it does not move. */
static void drive(long target) {
    char name[4096];
    snprintf(name, sizeof name, "%s.new", file);
    FILE *encoder = fopen(name, "w");
    if (encoder == NULL || fprintf(encoder, "%ld\n", target) < 0 || fclose(encoder) != 0 || rename(name, file) != 0)
        check(name, ENIP_JOURNAL_SYSTEM);
    printf("at %ld\n", target);
}

/* ---- commands ---- */

/* Writes the position to the device, for clients to read. */
static void show(void) {
    char line[100];
    const char *form = "{\"write\":{\"class\":768,\"instance\":1,\"attribute\":2,\"values\":[%ld]}}\n";
    snprintf(line, sizeof line, form, position());
    check("the device", enip_journal_send(journal, line, NULL));
}

/* Moves the conveyor, and makes the reply. */
static void move_to(int64_t target, enip_journal_reply *reply) {
    reply->status = target < 0 || target > END ? INVALID_PARAMETER : SUCCESS;
    reply->length = 0;
    if (reply->status != SUCCESS)
        return;
    drive((long)target);
    show();
    for (; reply->length < 4; reply->length++)
        reply->data[reply->length] = (uint8_t)(target >> 8 * reply->length);
}

/* Settles a command that began before this program was killed: goes on to the position that was noted. */
static int settle(void *context, const enip_journal_command *command, const void *note, size_t length,
                  enip_journal_reply *reply) {
    const uint8_t *bytes = note;
    uint64_t target = 0;
    (void)context, (void)command;
    if (length != 8)
        return -1;
    for (int i = 0; i < 8; i++)
        target |= (uint64_t)bytes[i] << 8 * i;
    move_to((int64_t)target, reply);
    return 1;
}

static void execute(const enip_journal_command *command) {
    const uint8_t *data = command->data;
    uint32_t distance = data[0] | data[1] << 8 | data[2] << 16 | (uint32_t)data[3] << 24;
    int64_t target = position() + (int32_t)distance;
    uint8_t note[8];
    enip_journal_reply reply;
    for (int i = 0; i < 8; i++)
        note[i] = (uint8_t)((uint64_t)target >> 8 * i);
    check("the journal", enip_journal_begin(journal, command, note, sizeof note));
    move_to(target, &reply);
    check("the journal", enip_journal_done(journal, command, reply.status, reply.data, reply.length));
}

/* How lines of the device begin, up to the last number or text that is needed. */
#define HELLO "{\"hello\":{\"vendor\":%*u,\"product_code\":%*u,\"serial\":%*u,\"name\":\"%63[^\"]\""
#define SET "{\"changed\":{\"class\":768,\"instance\":1,\"attribute\":1,\"data\":\"%*4[0-9a-f]\""
#define SPEED SET ",\"values\":[%u],\"by\":\"%63[^\"]\""

/* Takes a line of the device. */
static void take(const char *line, size_t length) {
    unsigned speed;
    char text[64];
    enip_journal_command command;
    int status = enip_journal_receive(journal, line, length, &command);
    if (status == ENIP_JOURNAL_EXECUTE)
        execute(&command);
    else if (status != ENIP_JOURNAL_REFUSED)
        check("the journal", status);
    if (sscanf(line, HELLO, text) == 1) {
        printf("owner of %s\n", text);
        show();
    } else if (sscanf(line, SPEED, &speed, text) == 2)
        printf("speed %u, set by %s\n", speed, text);
    else if (strncmp(line, "{\"error\":", 9) == 0)
        fprintf(stderr, "refused: %s", line);
    fflush(stdout);
}

int main(int count, char **arguments) {
    struct sockaddr_in address = {.sin_family = AF_INET};
    char name[4096], *line = NULL;
    size_t capacity = 0;
    ssize_t length;
    if (count != 4 || inet_pton(AF_INET, arguments[1], &address.sin_addr) != 1) {
        fprintf(stderr, "usage: owner ADDRESS PORT FILE\n");
        return 2;
    }
    address.sin_port = htons((uint16_t)atoi(arguments[2]));
    file = arguments[3];
    snprintf(name, sizeof name, "%s.journal", file);
    check(name, enip_journal_open(name, settle, NULL, &journal));
    int device = socket(AF_INET, SOCK_STREAM, 0);
    FILE *lines = fdopen(device, "r");
    if (lines == NULL || connect(device, (struct sockaddr *)&address, sizeof address) != 0) {
        perror(arguments[1]);
        return 1;
    }
    check(name, enip_journal_connect(journal, send_bytes, &device));
    while ((length = getline(&line, &capacity, lines)) > 0)
        take(line, (size_t)length);
    return 0;
}
