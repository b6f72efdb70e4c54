/* A device, and a peer that registers a session. */
#include <assert.h>
#include <enip.h>
#include <stdio.h>
#include <stdlib.h>
#include <string.h>

static const char config[] =
    "vendor = 4660\ndevice_type = 43\nproduct_code = 7\n"
    "major = 1\nminor = 1\n"
    "serial = 1\nname = \"Lamp\"\naddress = [127, 0, 0, 1]\n"
    "[counter]\nlimit = 100\n";

/* RegisterSession: what a client sends first. */
static const unsigned char piece[28] = {0x65, 0, 4, 0, [24] = 1};

int main(void) {
    unsigned char answer[ENIP_ANSWER_ROOM];
    enip_adapter *adapter;
    enip_refusal refusal;
    enip_fed fed;
    uint32_t peer;
    size_t at = 0;
    if (enip_adapter_new(config, strlen(config), &adapter, &refusal)) {
        fprintf(stderr, "configuration: %s\n", refusal.text);
        return 1;
    }
    /* for each TCP connection */
    if (enip_adapter_begin(adapter, &peer) != ENIP_OK)
        return 1;
    /* for each piece that is read from it */
    while (at < sizeof piece) {
        if (enip_adapter_feed(adapter, 0, peer, piece + at, sizeof piece - at,
                              answer, sizeof answer, &fed) != ENIP_OK)
            return 1;
        /* send fed.answer bytes of answer; if fed.close is 1, then close */
        printf("%zu bytes to send\n", fed.answer);
        if (fed.close)
            break;
        at += fed.taken;
    }
    assert(at == 28 && fed.answer == 28 && answer[4] == 1);
    /* once the TCP connection is closed */
    enip_adapter_end(adapter, peer);
    enip_adapter_free(adapter);
    return 0;
}
