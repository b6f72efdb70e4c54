/* A device that keeps its state over a restart. */
#include <assert.h>
#include <enip.h>
#include <stdio.h>
#include <string.h>

static const char config[] =
    "vendor = 4660\ndevice_type = 43\nproduct_code = 7\n"
    "major = 1\nminor = 1\n"
    "serial = 1\nname = \"Lamp\"\naddress = [127, 0, 0, 1]\n"
    "[counter]\nlimit = 100\n[[assembly]]\ninstance = 100\nmembers = [1]\n";

/* The last saved state, as it is in a file or in flash. */
static unsigned char state[4096];
static size_t state_size;
static uint64_t generation;

/* Before each answer leaves: saves the state if anything has changed. */
static int keep(enip_adapter *adapter) {
    uint64_t next;
    if (enip_adapter_generation(adapter, state_size == 0 ? NULL : state,
                                state_size, &next) != ENIP_OK)
        return 0;
    if (next != generation) {
        if (enip_adapter_save(adapter, next, state, sizeof state,
                              &state_size) != ENIP_OK)
            return 0;
        generation = next;
        /* store state_size bytes; until they are stored, send nothing */
    }
    return 1;
}

int main(void) {
    enip_adapter *adapter;
    enip_refusal refusal;
    unsigned char lamp;
    size_t count;
    /* the first start: nothing is kept; 1 is the number of this life */
    if (enip_adapter_new_kept(config, strlen(config), NULL, 0, 1, &adapter,
                              &refusal) != ENIP_OK)
        return 1;
    enip_adapter_write(adapter, 100, 0, "\x01", 1);
    if (!keep(adapter))
        return 1;
    enip_adapter_free(adapter);
    /* the next start, in another life */
    if (enip_adapter_new_kept(config, strlen(config), state, state_size, 2,
                              &adapter, &refusal) != ENIP_OK) {
        fprintf(stderr, "state: %s\n", refusal.text);
        return 1;
    }
    enip_adapter_read(adapter, 4, 100, 3, &lamp, 1, &count);
    assert(lamp == 1 && generation == 1);
    printf("the lamp is %s\n", lamp ? "on" : "off");
    enip_adapter_free(adapter);
    return 0;
}
