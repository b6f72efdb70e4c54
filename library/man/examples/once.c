/* A command that is executed once, whatever connections break. The device is
   in the same program: where this one calls exchange(), yours uses TCP. */
#include <assert.h>
#include <enip_types.h>
#include <stdio.h>
#include <stdlib.h>
#include <string.h>

static const char config[] =
    "vendor = 4660\ndevice_type = 43\nproduct_code = 7\n"
    "major = 1\nminor = 1\n"
    "serial = 1\nname = \"Lamp\"\naddress = [127, 0, 0, 1]\n"
    "[counter]\nlimit = 100\n"
    "[ledger]\noriginators = 4\nlife = 7\n";

static enip_adapter *device;
static enip_client *client;
static uint32_t peer;
static unsigned char frame[ENIP_FRAME_ROOM], answer[ENIP_ANSWER_ROOM];
static unsigned char reply[ENIP_REPLY_ROOM];
static size_t count;
static enip_heard heard;

static void check(int status) {
    char text[80] = "";
    if (status == ENIP_OK)
        return;
    enip_status_text(ENIP_OF_CALL, (uint32_t)status, text, sizeof text);
    fprintf(stderr, "once: %s\n", text);
    exit(1);
}

/* Sends the frame that a call wrote, and feeds what comes back. */
static void exchange(int status) {
    enip_fed fed;
    check(status);
    check(enip_adapter_feed(device, 0, peer, frame, count, answer,
                            sizeof answer, &fed));
    check(enip_client_feed(client, answer, fed.answer, reply, sizeof reply,
                           &heard));
}

int main(void) {
    const enip_wants wants = ENIP_WANTS_DEFAULT;
    unsigned char request[16], stored[ENIP_MESSAGE_ROOM];
    unsigned char message[ENIP_MESSAGE_ROOM], inner[ENIP_REPLY_ROOM];
    size_t length = 0, stored_length, size;
    uint64_t life = 7, originator = 0x1234567890abcdef;
    uint32_t number = 0;
    enip_outcome outcome;
    enip_once *once;
    check(enip_adapter_new(config, strlen(config), &device, NULL));
    check(enip_adapter_begin(device, &peer));
    check(enip_client_new(&wants, &client));
    exchange(enip_client_register(client, frame, sizeof frame, &count));
    /* the life is attribute 3 of class 0x65 of the device */
    check(enip_once_new(life, originator, number, &once));
    /* service 50 of the counter: add 5 */
    check(enip_request_service(request, sizeof request, &length, 50, 100, 1));
    check(enip_set_udint(request, sizeof request, &length, 5));
    check(enip_once_command(once, request, length, message, sizeof message,
                            &size));
    /* store these before the message is sent */
    check(enip_once_values(once, &life, &originator, &number));
    check(enip_once_request(once, stored, sizeof stored, &stored_length));

    /* the program was killed: go on with what was stored */
    enip_once_free(once);
    check(enip_once_resume(life, originator, number, stored, stored_length,
                           &once));
    /* on each connection, until it is done */
    do {
        check(enip_once_resend(once, message, sizeof message, &size));
        exchange(enip_client_ask(client, message, size, frame, sizeof frame,
                                 &count));
        check(enip_once_receive(once, reply, heard.reply, inner, sizeof inner,
                                &outcome));
    } while (outcome.kind != ENIP_ONCE_DONE);
    assert(outcome.general == 0 && outcome.reply == 8 && inner[4] == 5);
    printf("command %u is done\n", (unsigned)number);

    /* another command, which is withdrawn: it is never executed */
    check(enip_once_command(once, request, length, message, sizeof message,
                            &size));
    check(enip_once_withdraw(once, message, sizeof message, &size));
    exchange(enip_client_ask(client, message, size, frame, sizeof frame,
                             &count));
    check(enip_once_withdrawn(once, reply, heard.reply, inner, sizeof inner,
                              &outcome));
    assert(outcome.kind == ENIP_ONCE_WITHDRAWN);

    /* and one that is given up, without the device */
    check(enip_once_command(once, request, length, message, sizeof message,
                            &size));
    check(enip_once_abandon(once));
    enip_once_free(once);
    enip_client_free(client);
    enip_adapter_free(device);
    return 0;
}
