/* A peer that may only read, and counts for the share of its address. */
#include <assert.h>
#include <enip.h>
#include <stdio.h>
#include <string.h>

static const char config[] =
    "vendor = 4660\ndevice_type = 43\nproduct_code = 7\n"
    "major = 1\nminor = 1\n"
    "serial = 1\nname = \"Lamp\"\naddress = [127, 0, 0, 1]\npeers = 4\n"
    "[access]\nper_address = 1\n"
    "[counter]\nlimit = 100\n";

int main(void) {
    /* the client's address, 10.0.0.9, as an IPv6 address */
    const uint8_t group[16] = {[10] = 0xff, 0xff, 10, 0, 0, 9};
    enip_adapter *adapter;
    uint32_t peer, another;
    uint16_t peers, connections;
    int status;
    if (enip_adapter_new(config, strlen(config), &adapter, NULL) != ENIP_OK)
        return 1;
    status = enip_adapter_begin_as(adapter, ENIP_MAY_READ, group, &peer);
    if (status != ENIP_OK)
        return 1;
    status = enip_adapter_begin_as(adapter, ENIP_MAY_READ, group, &another);
    assert(status == ENIP_SHARE);
    status = enip_adapter_places(adapter, &peers, &connections);
    assert(status == ENIP_OK && peers == 3);
    printf("%d slots for peers are free, %d for connections\n", peers,
           connections);
    enip_adapter_free(adapter);
    return 0;
}
