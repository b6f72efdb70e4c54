/*
 * An owner with a journal (enip_owner.h), for tests/owner_module. Its machine appends the data of each command to a
 * log:
 *
 *     counting_owner ADDRESS PORT JOURNAL LOG
 *
 * The reply to a command is its data, each byte inverted. It pauses between its steps, so that a kill falls between
 * them. It ends with the connection.
 */
#define _DEFAULT_SOURCE
#include <arpa/inet.h>
#include <enip_owner.h>
#include <sys/socket.h>
#include <sys/time.h>

enum { LONGEST_PAUSE = 4000 };

static const char *log_name;
static enip_journal *journal;

static void check(const char *what, int status) {
    if (status == ENIP_JOURNAL_OK)
        return;
    fprintf(stderr, "counting_owner: %s: %s (%s)\n", what, enip_journal_text(status), strerror(errno));
    exit(1);
}

static void rest(void) {
    usleep((useconds_t)(rand() % LONGEST_PAUSE));
}

static int send_bytes(void *device, const char *bytes, size_t length) {
    return send(*(int *)device, bytes, length, MSG_NOSIGNAL) == (ssize_t)length ? 0 : -1;
}

static size_t line_of(const enip_journal_command *command, char *line) {
    for (size_t i = 0; i < command->length; i++)
        sprintf(line + 2 * i, "%02x", command->data[i]);
    strcpy(line + 2 * command->length, "\n");
    return 2 * command->length + 1;
}

/* Moves the machine: one line more, by one call. */
static void move(const enip_journal_command *command) {
    char line[2 * ENIP_JOURNAL_DATA + 2];
    size_t length = line_of(command, line);
    int log = open(log_name, O_WRONLY | O_APPEND | O_CREAT, 0666);
    if (log < 0 || write(log, line, length) != (ssize_t)length || close(log) != 0)
        check(log_name, ENIP_JOURNAL_SYSTEM);
}

static int has_moved(const enip_journal_command *command) {
    char wanted[2 * ENIP_JOURNAL_DATA + 2], line[2 * ENIP_JOURNAL_DATA + 2];
    int is_there = 0;
    FILE *log = fopen(log_name, "r");
    line_of(command, wanted);
    while (log != NULL && !is_there && fgets(line, sizeof line, log) != NULL)
        is_there = strcmp(line, wanted) == 0;
    if (log != NULL)
        fclose(log);
    return is_there;
}

static void make_reply(const enip_journal_command *command, enip_journal_reply *reply) {
    reply->status = 0;
    reply->length = command->length;
    for (size_t i = 0; i < command->length; i++)
        reply->data[i] = (uint8_t)~command->data[i];
}

static int settle(void *context, const enip_journal_command *command, const void *note, size_t length,
                  enip_journal_reply *reply) {
    int is_done = has_moved(command);
    (void)context;
    if (length != command->length || memcmp(note, command->data, length) != 0)
        return -1;
    fprintf(stderr, "in doubt, %s\n", is_done ? "moved" : "not moved");
    make_reply(command, reply);
    return is_done;
}

static void execute(const enip_journal_command *command) {
    enip_journal_reply reply;
    check("begin", enip_journal_begin(journal, command, command->data, command->length));
    rest();
    move(command);
    rest();
    make_reply(command, &reply);
    check("done", enip_journal_done(journal, command, reply.status, reply.data, reply.length));
    rest();
}

int main(int count, char **arguments) {
    struct sockaddr_in address = {.sin_family = AF_INET};
    struct timeval now;
    char *line = NULL;
    size_t capacity = 0;
    ssize_t length;
    if (count != 5 || inet_pton(AF_INET, arguments[1], &address.sin_addr) != 1)
        return 2;
    gettimeofday(&now, NULL);
    srand((unsigned)now.tv_usec);
    address.sin_port = htons((uint16_t)atoi(arguments[2]));
    log_name = arguments[4];
    check(arguments[3], enip_journal_open(arguments[3], settle, NULL, &journal));
    int device = socket(AF_INET, SOCK_STREAM, 0);
    FILE *lines = fdopen(device, "r");
    if (connect(device, (struct sockaddr *)&address, sizeof address) != 0)
        return 3;
    check("connect", enip_journal_connect(journal, send_bytes, &device));
    while ((length = getline(&line, &capacity, lines)) > 0) {
        enip_journal_command command;
        int status = enip_journal_receive(journal, line, (size_t)length, &command);
        if (status == ENIP_JOURNAL_EXECUTE)
            execute(&command);
        else
            check(line, status);
    }
    return 0;
}
