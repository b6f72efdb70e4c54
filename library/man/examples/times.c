/* A connection that times out. Device and client are in the same program:
   where this one calls exchange(), yours uses TCP. */
#include <assert.h>
#include <enip_types.h>
#include <stdio.h>
#include <stdlib.h>
#include <string.h>

static const char config[] =
    "vendor = 4660\ndevice_type = 43\nproduct_code = 7\n"
    "major = 1\nminor = 1\n"
    "serial = 1\nname = \"Lamp\"\naddress = [127, 0, 0, 1]\n"
    "[counter]\nlimit = 100\n";

static enip_adapter *device;
static enip_client *client;
static uint32_t peer;
static unsigned char frame[ENIP_FRAME_ROOM], answer[ENIP_ANSWER_ROOM];
static unsigned char reply[ENIP_REPLY_ROOM];
static size_t count;
static enip_heard heard;

static void check(int status) {
    char text[80] = "";
    if (status == ENIP_OK)
        return;
    enip_status_text(ENIP_OF_CALL, (uint32_t)status, text, sizeof text);
    fprintf(stderr, "times: %s\n", text);
    exit(1);
}

/* Sends the frame that a call wrote, and feeds what comes back. */
static void exchange(int status) {
    enip_fed fed;
    check(status);
    check(enip_adapter_feed(device, 0, peer, frame, count, answer,
                            sizeof answer, &fed));
    check(enip_client_feed(client, answer, fed.answer, reply, sizeof reply,
                           &heard));
}

int main(void) {
    const enip_wants wants = ENIP_WANTS_DEFAULT;
    enip_endings *endings;
    enip_ended ended = {0, 0, 0};
    uint64_t deadline = 0;
    int status;
    check(enip_adapter_new(config, strlen(config), &device, NULL));
    check(enip_adapter_begin(device, &peer));
    check(enip_client_new(&wants, &client));
    exchange(enip_client_register(client, frame, sizeof frame, &count));
    check(enip_endings_new(&endings));
    exchange(enip_client_open(client, frame, sizeof frame, &count));
    check(enip_endings_update(endings, device));

    /* wait no longer than the deadline, here 32 seconds */
    check(enip_adapter_deadline(device, &deadline));
    assert(deadline == 32000000);
    check(enip_adapter_tick(device, deadline));
    check(enip_endings_update(endings, device));
    for (size_t i = 0; enip_endings_at(endings, i, &ended) == ENIP_OK; i++)
        printf("connection %u ended: %u\n", (unsigned)ended.connection,
               (unsigned)ended.why);
    assert(ended.why == ENIP_ENDED_TIMED_OUT && ended.peer == peer);
    status = enip_adapter_deadline(device, &deadline);
    assert(status == ENIP_ABSENT); /* no connection is open */
    enip_endings_free(endings);
    enip_client_free(client);
    enip_adapter_free(device);
    return 0;
}
