/* The device's own side: what it writes and reads, and what peers wrote. */
#include <assert.h>
#include <enip_types.h>
#include <stdio.h>
#include <string.h>

static const char config[] =
    "vendor = 4660\ndevice_type = 43\nproduct_code = 7\n"
    "major = 1\nminor = 1\n"
    "serial = 1\nname = \"Axis\"\naddress = [127, 0, 0, 1]\n"
    "[counter]\nlimit = 100\n"
    "[[assembly]]\ninstance = 101\nmembers = [1, 4]\n"
    "[[object]]\nclass = 768\ninstance = 1\n"
    "[[object.attribute]]\nnumber = 1\ntype = \"UINT\"\nsettable = true\n";

int main(void) {
    unsigned char data[5], value[64];
    enip_adapter *adapter;
    uint32_t changes, sets;
    uint16_t speed;
    size_t length = 0, count, at = 0;
    if (enip_adapter_new(config, strlen(config), &adapter, NULL) != ENIP_OK)
        return 1;
    /* assembly 101: a state and a position */
    enip_set_byte(data, sizeof data, &length, 0x01);
    enip_set_dint(data, sizeof data, &length, 1500);
    enip_adapter_write(adapter, 101, 0, data, length);
    /* attribute 1 of the application object: a speed */
    length = 0;
    enip_set_uint(data, sizeof data, &length, 300);
    enip_adapter_write_attribute(adapter, 768, 1, 1, 0, data, length);
    /* the status and the state in Identity */
    enip_adapter_set_status(adapter, 0x0004);
    enip_adapter_set_state(adapter, 3);

    /* the speed now, which a peer may have set */
    if (enip_adapter_read(adapter, 768, 1, 1, value, sizeof value, &count)
        || enip_get_uint(value, count, &at, &speed))
        return 1;
    /* how often peers wrote: compare the numbers with those before */
    enip_adapter_changes(adapter, 101, &changes);
    enip_adapter_attribute_changes(adapter, 768, 1, 1, &sets);
    assert(speed == 300 && changes == 0 && sets == 0);
    printf("speed %d, set %u times\n", speed, (unsigned)sets);
    enip_adapter_free(adapter);
    return 0;
}
