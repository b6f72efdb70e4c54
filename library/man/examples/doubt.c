/* The power fails while a numbered command is executed. Device and client are
   in the same program: where this one calls exchange(), yours uses TCP. */
#include <assert.h>
#include <enip_types.h>
#include <stdio.h>
#include <stdlib.h>
#include <string.h>

static const char config[] =
    "vendor = 4660\ndevice_type = 43\nproduct_code = 7\n"
    "major = 1\nminor = 1\n"
    "serial = 1\nname = \"Axis\"\naddress = [127, 0, 0, 1]\n"
    "[counter]\nlimit = 100\n[ledger]\noriginators = 4\nlife = 7\n"
    "[[object]]\nclass = 768\ninstance = 1\n"
    "[[object.service]]\nnumber = 50\nsize = 4\nreply = 4\n";

static unsigned char state[4096];
static size_t state_size;
static enip_adapter *device;
static enip_client *client;
static uint32_t peer;
static unsigned char frame[ENIP_FRAME_ROOM], answer[ENIP_ANSWER_ROOM];
static unsigned char reply[ENIP_REPLY_ROOM];
static size_t count;
static enip_heard heard;

static void check(int status) {
    char text[80] = "";
    if (status == ENIP_OK)
        return;
    enip_status_text(ENIP_OF_CALL, (uint32_t)status, text, sizeof text);
    fprintf(stderr, "doubt: %s\n", text);
    exit(1);
}

/* The owner: before it acts, it saves that the command is in doubt. */
static int move(void *context, const enip_asked *asked, enip_reply *reply) {
    uint64_t originator;
    uint32_t number;
    (void)context;
    check(enip_adapter_asked_command(device, &originator, &number));
    check(enip_adapter_save(device, 1, state, sizeof state, &state_size));
    /* now it moves by the data of the request */
    memcpy(reply->data, asked->data, asked->length);
    reply->length = asked->length;
    return 0;
}

/* Sends the frame that a call wrote, and feeds what comes back. */
static void exchange(int status) {
    enip_fed fed;
    check(status);
    check(enip_adapter_serve(device, 0, peer, frame, count, answer,
                             sizeof answer, move, NULL, &fed));
    check(enip_client_feed(client, answer, fed.answer, reply, sizeof reply,
                           &heard));
}

int main(void) {
    /* what the request should have had as its reply: success, position 5 */
    static const unsigned char moved[] = {0xb2, 0, 0, 0, 5, 0, 0, 0};
    const enip_wants wants = ENIP_WANTS_DEFAULT;
    unsigned char request[16], message[ENIP_MESSAGE_ROOM];
    size_t length = 0, size;
    uint64_t originator = 0;
    uint32_t number = 0;
    enip_once *once;
    check(enip_adapter_new_kept(config, strlen(config), NULL, 0, 7, &device,
                                NULL));
    check(enip_adapter_begin(device, &peer));
    check(enip_client_new(&wants, &client));
    exchange(enip_client_register(client, frame, sizeof frame, &count));
    check(enip_once_new(7, 99, 0, &once));
    check(enip_request_service(request, sizeof request, &length, 50, 768, 1));
    check(enip_set_dint(request, sizeof request, &length, 5));
    check(enip_once_command(once, request, length, message, sizeof message,
                            &size));
    exchange(enip_client_ask(client, message, size, frame, sizeof frame,
                             &count));
    /* the power fails now: what is left is the state that move() saved */
    enip_adapter_free(device);
    check(enip_adapter_new_kept(config, strlen(config), state, state_size, 8,
                                &device, NULL));
    for (size_t i = 0; enip_adapter_in_doubt(device, i, &originator, &number)
                       == ENIP_OK;) {
        printf("command %u of originator %u is in doubt\n", (unsigned)number,
               (unsigned)originator);
        /* look at the machine, and give the reply */
        check(enip_adapter_settle(device, originator, number, moved,
                                  sizeof moved));
    }
    assert(originator == 99 && number == 1);
    enip_once_free(once);
    enip_client_free(client);
    enip_adapter_free(device);
    return 0;
}
