/* A client sets an assembly over a class 3 connection. The device is in the
   same program: where this one calls exchange(), yours uses TCP. */
#include <assert.h>
#include <enip_types.h>
#include <stdio.h>
#include <stdlib.h>
#include <string.h>

static const char config[] =
    "vendor = 4660\ndevice_type = 43\nproduct_code = 7\n"
    "major = 1\nminor = 1\n"
    "serial = 1\nname = \"Lamp\"\naddress = [127, 0, 0, 1]\n"
    "[counter]\nlimit = 100\n"
    "[[assembly]]\ninstance = 100\nsettable = true\nmembers = [1]\n";

static enip_adapter *device;
static enip_client *client;
static uint32_t peer;
static unsigned char frame[ENIP_FRAME_ROOM], answer[ENIP_ANSWER_ROOM];
static unsigned char reply[ENIP_REPLY_ROOM];
static size_t count;
static enip_heard heard;

static void check(int status) {
    char text[80] = "";
    if (status == ENIP_OK)
        return;
    enip_status_text(ENIP_OF_CALL, (uint32_t)status, text, sizeof text);
    fprintf(stderr, "connection: %s\n", text);
    exit(1);
}

/* Sends the frame that a call wrote, and feeds what comes back. */
static void exchange(int status) {
    enip_fed fed;
    check(status);
    check(enip_adapter_feed(device, 0, peer, frame, count, answer,
                            sizeof answer, &fed));
    check(enip_client_feed(client, answer, fed.answer, reply, sizeof reply,
                           &heard));
}

int main(void) {
    const enip_wants wants = ENIP_WANTS_DEFAULT;
    unsigned char request[16];
    size_t length = 0;
    check(enip_adapter_new(config, strlen(config), &device, NULL));
    check(enip_adapter_begin(device, &peer));
    check(enip_client_new(&wants, &client));
    exchange(enip_client_register(client, frame, sizeof frame, &count));
    exchange(enip_client_open(client, frame, sizeof frame, &count));
    assert(heard.kind == ENIP_HEARD_OPENED);
    /* the data of assembly 100 */
    check(enip_request_set(request, sizeof request, &length, 4, 100, 3));
    check(enip_set_byte(request, sizeof request, &length, 0x01));
    check(enip_client_submit(client, request, length, frame, sizeof frame,
                             &count));
    /* no reply came: send the same request again. It is executed once. */
    exchange(enip_client_resend(client, frame, sizeof frame, &count));
    assert(heard.kind == ENIP_HEARD_ACCEPTED && heard.general == 0);
    /* another, without a reply: it is executed once or not at all */
    check(enip_client_submit(client, request, length, frame, sizeof frame,
                             &count));
    check(enip_client_give_up(client));
    exchange(enip_client_close(client, frame, sizeof frame, &count));
    assert(heard.kind == ENIP_HEARD_CLOSED);
    puts("set");
    enip_client_free(client);
    enip_adapter_free(device);
    return 0;
}
