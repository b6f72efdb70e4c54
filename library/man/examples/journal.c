/* The owner of a press, for one session with a device of two commands. The
   session of another program that was killed came before it. */
#define _POSIX_C_SOURCE 200809L
#include <assert.h>
#include <enip_owner.h>

/* What the device sends. */
static const char *const lines[] = {
    "{\"hello\":{\"vendor\":1,\"product_code\":2,\"serial\":3,"
    "\"name\":\"Press\",\"life\":9,\"ahead\":1,\"objects\":[]}}\n",
    "{\"command\":{\"ticket\":1,\"class\":768,\"instance\":1,\"service\":50,"
    "\"data\":\"\",\"by\":\"10.0.0.5\",\"again\":false}}\n",
    "{\"command\":{\"ticket\":1,\"class\":768,\"instance\":1,\"service\":50,"
    "\"data\":\"\",\"by\":\"10.0.0.5\",\"again\":true}}\n",
    "{\"ok\":2}\n",
};
static int strokes;

/* Whether the press has moved since a command began: its note has the
   strokes before it. */
static int settle(void *context, const enip_journal_command *command,
                  const void *note, size_t length,
                  enip_journal_reply *reply) {
    int before;
    (void)context, (void)command, (void)reply;
    if (length != sizeof before)
        return -1;
    memcpy(&before, note, length);
    return strokes > before;
}

static int send_bytes(void *context, const char *bytes, size_t length) {
    return fwrite(bytes, 1, length, context) == length ? 0 : -1;
}

/* Takes a line of the device. If it is a command, moves the press, and
   answers, unless the program is killed before. */
static void take(enip_journal *journal, const char *line, int is_killed) {
    enip_journal_command command;
    int status = enip_journal_receive(journal, line, strlen(line), &command);
    if (status != ENIP_JOURNAL_EXECUTE) {
        assert(status == ENIP_JOURNAL_OK);
        return;
    }
    status = enip_journal_begin(journal, &command, &strokes, sizeof strokes);
    assert(status == ENIP_JOURNAL_OK);
    strokes++;
    if (is_killed)
        return;
    status = enip_journal_done(journal, &command, 0, NULL, 0);
    assert(status == ENIP_JOURNAL_OK);
}

int main(void) {
    char folder[] = "/tmp/journal-XXXXXX", file[64];
    enip_journal *journal;
    int status;
    assert(mkdtemp(folder) != NULL);
    snprintf(file, sizeof file, "%s/press.journal", folder);
    for (int session = 1; session <= 2; session++) {
        status = enip_journal_open(file, settle, NULL, &journal);
        if (status != ENIP_JOURNAL_OK)
            fprintf(stderr, "%s: %s\n", file, enip_journal_text(status));
        assert(status == ENIP_JOURNAL_OK);
        assert(enip_journal_connect(journal, send_bytes, stdout) == 0);
        take(journal, lines[0], 0);
        assert(enip_journal_send(journal, "{\"state\":3}\n", NULL) == 0);
        take(journal, lines[session], session == 1);
        if (session == 2)
            take(journal, lines[3], 0);
        enip_journal_close(journal);
    }
    assert(strokes == 1);
    remove(file);
    strcat(file, ".lock");
    remove(file);
    return remove(folder);
}
