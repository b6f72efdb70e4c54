/* Two adapters in two threads: each registers 1,000 sessions, one after another. */
#include <enip.h>
#include <pthread.h>
#include <stddef.h>

static const char configuration[] =
    "vendor = 1\ndevice_type = 43\nproduct_code = 7\nmajor = 2\nminor = 5\nserial = 1\nname = \"T\"\n"
    "address = [127, 0, 0, 1]\n[counter]\nlimit = 100\n";

static const unsigned char registers[28] = {0x65, 0, 4, 0, [24] = 1};

static int failure;

/* Returns NULL if each registration was answered. */
static void *serve(void *unused) {
    unsigned char buffer[ENIP_ANSWER_ROOM];
    enip_adapter *adapter;
    void *failed = unused;
    if (enip_adapter_new(configuration, sizeof configuration - 1, &adapter, NULL) != ENIP_OK)
        return &failure;
    for (unsigned i = 1; i <= 1000 && failed == NULL; i++) {
        uint32_t peer;
        enip_fed fed;
        if (enip_adapter_begin(adapter, &peer) != ENIP_OK || peer != i)
            failed = &failure;
        if (enip_adapter_feed(adapter, i, peer, registers, 28, buffer, sizeof buffer, &fed) != ENIP_OK || fed.answer != 28)
            failed = &failure;
        enip_adapter_end(adapter, peer);
    }
    enip_adapter_free(adapter);
    return failed;
}

int main(void) {
    pthread_t threads[2];
    int failed = 0;
    for (int i = 0; i < 2; i++)
        failed |= pthread_create(&threads[i], NULL, serve, NULL);
    for (int i = 0; i < 2; i++) {
        void *result = NULL;
        failed |= pthread_join(threads[i], &result) != 0 || result != NULL;
    }
    return failed;
}
