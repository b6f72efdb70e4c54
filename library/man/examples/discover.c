/* Answers a ListIdentity that came as a UDP datagram. */
#include <assert.h>
#include <enip.h>
#include <stdio.h>
#include <string.h>

static const char config[] =
    "vendor = 4660\ndevice_type = 43\nproduct_code = 7\n"
    "major = 1\nminor = 1\n"
    "serial = 1\nname = \"Lamp\"\naddress = [127, 0, 0, 1]\n"
    "[counter]\nlimit = 100\n";

int main(void) {
    static const unsigned char datagram[24] = {0x63};
    unsigned char answer[ENIP_ANSWER_ROOM];
    enip_adapter *adapter;
    size_t count;
    int status;
    if (enip_adapter_new(config, strlen(config), &adapter, NULL) != ENIP_OK)
        return 1;
    /* for each datagram at UDP port 44818 */
    status = enip_adapter_discover(adapter, datagram, sizeof datagram, answer,
                                   sizeof answer, &count);
    if (status == ENIP_OK) /* send it to the sender of the datagram */
        printf("%zu bytes to send\n", count);
    assert(status == ENIP_OK && answer[0] == 0x63);
    status = enip_adapter_discover(adapter, "x", 1, answer, sizeof answer,
                                   &count);
    assert(status == ENIP_ABSENT); /* it has no answer */
    enip_adapter_free(adapter);
    return 0;
}
