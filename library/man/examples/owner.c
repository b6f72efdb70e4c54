/* A machine that moves: service 50 of class 768, with the steps as a DINT. */
#include <assert.h>
#include <enip_types.h>
#include <stdio.h>
#include <string.h>

static const char config[] =
    "vendor = 4660\ndevice_type = 43\nproduct_code = 7\n"
    "major = 1\nminor = 1\n"
    "serial = 1\nname = \"Axis\"\naddress = [127, 0, 0, 1]\n"
    "[counter]\nlimit = 100\n[[object]]\nclass = 768\ninstance = 1\n"
    "[[object.service]]\nnumber = 50\nsize = 4\nreply = 4\n";

static int32_t position;

/* The owner: it is called once for each request that was delivered. */
static int move(void *context, const enip_asked *asked, enip_reply *reply) {
    int32_t steps;
    size_t at = 0;
    (void)context;
    if (enip_get_dint(asked->data, asked->length, &at, &steps) != ENIP_OK)
        return 1;
    if (steps > 1000) {
        reply->status = 0x09; /* invalid attribute value */
        return 0;
    }
    position += steps;
    return enip_set_dint(reply->data, asked->reply_limit, &reply->length,
                         position);
}

int main(void) {
    static const unsigned char start[28] = {0x65, 0, 4, 0, [24] = 1};
    /* SendRRData with the request: service, path, 5 */
    unsigned char frame[64] = {0x6f, 0, 28, 0, 1, [30] = 2,
                               [36] = 0xb2, 0, 12};
    unsigned char answer[ENIP_ANSWER_ROOM];
    enip_adapter *adapter;
    enip_fed fed;
    uint32_t peer;
    size_t length = 40;
    int status;
    if (enip_adapter_new(config, strlen(config), &adapter, NULL) != ENIP_OK)
        return 1;
    enip_adapter_begin(adapter, &peer);
    enip_adapter_feed(adapter, 0, peer, start, sizeof start, answer,
                      sizeof answer, &fed);
    enip_request_service(frame, sizeof frame, &length, 50, 768, 1);
    enip_set_dint(frame, sizeof frame, &length, 5);
    status = enip_adapter_serve(adapter, 0, peer, frame, length, answer,
                                sizeof answer, move, NULL, &fed);
    assert(status == ENIP_OK && fed.answer == 48 && position == 5);
    printf("moved to %d\n", (int)position);
    enip_adapter_free(adapter);
    return 0;
}
