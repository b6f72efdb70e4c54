/*
 * Does what lines of standard input say with a journal of enip_owner.h, and prints what comes of each.
 * library/tests/journal writes these lines, and does the same with the module for Python.
 *
 *     open FILE                  opens the journal, and closes the one that was open
 *     settle moved STATUS HEX | not | unknown | bad      what becomes of each command in doubt from now on
 *     connect, break             a connection begins; or nothing can be sent any more
 *     receive LINE               a line of the device
 *     begin TICKET HEX, done TICKET STATUS HEX           for the last command of this ticket
 *     send LINE                  another line to the device
 */
#define _POSIX_C_SOURCE 200809L
#include <enip_owner.h>

enum { COMMANDS = 16, LINE = 4096 };

static enip_journal *journal;
static enip_journal_command commands[COMMANDS];
static int is_broken, settled;
static enip_journal_reply settled_reply;

static size_t read_hex(const char *hex, uint8_t *bytes, size_t most) {
    size_t length = 0;
    unsigned byte;
    for (; length < most && sscanf(hex + 2 * length, "%2x", &byte) == 1; length++)
        bytes[length] = (uint8_t)byte;
    return length;
}

static int send_bytes(void *context, const char *bytes, size_t length) {
    if (is_broken || *(int *)context != 7)
        return -1;
    printf("sent %.*s", (int)length, bytes);
    return 0;
}

static int settle(void *context, const enip_journal_command *command, const void *note, size_t length,
                  enip_journal_reply *reply) {
    printf("settle %u ", *(int *)context == 5 ? (unsigned)command->ticket : 0);
    for (size_t i = 0; i < length; i++)
        printf("%02x", ((const uint8_t *)note)[i]);
    printf("\n");
    *reply = settled_reply;
    return settled;
}

static void print(int status) {
    printf("%s\n", status == ENIP_JOURNAL_SYSTEM ? strerror(errno) : enip_journal_text(status));
}

static void set_settle(const char *words) {
    char hex[LINE] = "";
    settled = strncmp(words, "moved", 5) == 0 || strcmp(words, "bad") == 0 ? 1 : strcmp(words, "not") == 0 ? 0 : -1;
    settled_reply.status = 0x11;
    settled_reply.length = 0;
    if (sscanf(words, "moved %d %4095s", &settled_reply.status, hex) >= 1)
        settled_reply.length = read_hex(hex, settled_reply.data, sizeof settled_reply.data);
}

static void receive(const char *line) {
    enip_journal_command command;
    int status = enip_journal_receive(journal, line, strlen(line), &command);
    if (status == ENIP_JOURNAL_EXECUTE) {
        commands[command.ticket % COMMANDS] = command;
        printf("execute %u %u %u %d %d ", (unsigned)command.ticket, (unsigned)command.class_id,
               (unsigned)command.instance, command.service, command.again);
        for (size_t i = 0; i < command.length; i++)
            printf("%02x", command.data[i]);
        printf("\n");
    } else if (status == ENIP_JOURNAL_REFUSED) {
        commands[command.ticket % COMMANDS] = command;
        printf("refused %u\n", (unsigned)command.ticket);
    } else {
        print(status);
    }
}

/* A line of standard input. Returns whether it is one of those above. */
static int take(char *line) {
    static int five = 5, seven = 7;
    char hex[LINE] = "";
    uint8_t bytes[LINE];
    unsigned ticket;
    int status;
    uint64_t number;
    if (strncmp(line, "open ", 5) == 0) {
        enip_journal_close(journal);
        journal = NULL;
        print(enip_journal_open(line + 5, settle, &five, &journal));
    } else if (strncmp(line, "settle ", 7) == 0) {
        set_settle(line + 7);
    } else if (strcmp(line, "connect") == 0 || strcmp(line, "break") == 0) {
        is_broken = *line == 'b';
        if (!is_broken)
            print(enip_journal_connect(journal, send_bytes, &seven));
    } else if (strncmp(line, "receive ", 8) == 0) {
        receive(line + 8);
    } else if (sscanf(line, "begin %u %4095s", &ticket, hex) >= 1) {
        print(enip_journal_begin(journal, &commands[ticket % COMMANDS], bytes, read_hex(hex, bytes, sizeof bytes)));
    } else if (sscanf(line, "done %u %d %4095s", &ticket, &status, hex) >= 2) {
        number = read_hex(hex, bytes, sizeof bytes);
        print(enip_journal_done(journal, &commands[ticket % COMMANDS], status, bytes, (size_t)number));
    } else if (strncmp(line, "send ", 5) == 0) {
        strcat(line, "\n");
        status = enip_journal_send(journal, line + 5, &number);
        if (status == ENIP_JOURNAL_OK)
            printf("line %" PRIu64 "\n", number);
        else
            print(status);
    } else {
        return 0;
    }
    return 1;
}

/* The arguments that no call of the lines has. Returns how many are not refused. */
static int misuse(void) {
    enip_journal_command command;
    enip_journal *none = NULL;
    char path[ENIP_JOURNAL_PATH + 8];
    int wrong = 0, context = 7;
    uint64_t number;
    memset(&command, 0, sizeof command);
    memset(path, 'a', sizeof path - 1);
    path[sizeof path - 1] = '\0';
    wrong += enip_journal_open(NULL, settle, NULL, &none) != ENIP_JOURNAL_MISUSE;
    wrong += enip_journal_open("a", NULL, NULL, &none) != ENIP_JOURNAL_MISUSE;
    wrong += enip_journal_open("a", settle, NULL, NULL) != ENIP_JOURNAL_MISUSE;
    wrong += enip_journal_open(path, settle, NULL, &none) != ENIP_JOURNAL_MISUSE;
    *path = '/';
    wrong += enip_journal_open(path, settle, NULL, &none) != ENIP_JOURNAL_MISUSE || none != NULL;
    wrong += enip_journal_connect(NULL, send_bytes, NULL) != ENIP_JOURNAL_MISUSE;
    wrong += enip_journal_connect(journal, NULL, NULL) != ENIP_JOURNAL_MISUSE;
    wrong += enip_journal_receive(journal, "{}", 2, &command) != ENIP_JOURNAL_MISUSE;
    wrong += enip_journal_send(journal, "{}\n", &number) != ENIP_JOURNAL_MISUSE;
    wrong += enip_journal_connect(journal, send_bytes, &context) != ENIP_JOURNAL_OK;
    wrong += enip_journal_receive(NULL, "{}", 2, &command) != ENIP_JOURNAL_MISUSE;
    wrong += enip_journal_receive(journal, NULL, 2, &command) != ENIP_JOURNAL_MISUSE;
    wrong += enip_journal_receive(journal, "{}", 2, NULL) != ENIP_JOURNAL_MISUSE;
    wrong += enip_journal_begin(NULL, &command, "", 0) != ENIP_JOURNAL_MISUSE;
    wrong += enip_journal_begin(journal, NULL, "", 0) != ENIP_JOURNAL_MISUSE;
    wrong += enip_journal_begin(journal, &command, NULL, 1) != ENIP_JOURNAL_MISUSE;
    wrong += enip_journal_begin(journal, &command, path, ENIP_JOURNAL_NOTE + 1) != ENIP_JOURNAL_MISUSE;
    wrong += enip_journal_done(NULL, &command, 0, "", 0) != ENIP_JOURNAL_MISUSE;
    wrong += enip_journal_done(journal, NULL, 0, "", 0) != ENIP_JOURNAL_MISUSE;
    wrong += enip_journal_send(NULL, "{}\n", &number) != ENIP_JOURNAL_MISUSE;
    wrong += enip_journal_send(journal, NULL, &number) != ENIP_JOURNAL_MISUSE;
    wrong += enip_journal_send(journal, "{}", &number) != ENIP_JOURNAL_MISUSE;
    wrong += enip_journal_send(journal, "{}\n{}\n", &number) != ENIP_JOURNAL_MISUSE;
    wrong += enip_journal_send(journal, "{\"status\":0}\n", NULL) != ENIP_JOURNAL_OK;
    wrong += strcmp(enip_journal_text(-1), "not a status of a journal") != 0;
    wrong += strcmp(enip_journal_text(ENIP_JOURNAL_NOT_SENT + 1), "not a status of a journal") != 0;
    enip_journal_close(NULL);
    return wrong;
}

int main(void) {
    char *line = NULL;
    size_t capacity = 0;
    ssize_t length;
    while ((length = getline(&line, &capacity, stdin)) > 0) {
        line[length - 1] = '\0';
        if (strcmp(line, "misuse") == 0)
            printf("%d\n", misuse());
        else if (!take(line))
            return 2;
        fflush(stdout);
    }
    enip_journal_close(journal);
    free(line);
    return 0;
}
