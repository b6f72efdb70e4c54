/* Feeds one frame to an adapter COUNT times and once more, through the calls of enip.h, and prints the last answer.
 * library COUNT FRAME: FRAME is get, set or repeat (the same item on a class 3 connection). */
#include <enip.h>
#include <stdio.h>
#include <stdlib.h>
#include <string.h>

static const char configuration[] =
    "vendor = 4660\ndevice_type = 43\nproduct_code = 7\nmajor = 2\nminor = 5\nserial = 1\nname = \"Demo\"\n"
    "address = [127, 0, 0, 1]\n[counter]\nlimit = 100\n[[assembly]]\ninstance = 100\nsettable = true\nmembers = [1, 2, 1]\n";

static const unsigned char registers[28] = {0x65, 0, 4, 0, [24] = 1};
static const unsigned char get[] = {0x0e, 3, 0x20, 1, 0x24, 1, 0x30, 1};
static const unsigned char set[] = {0x10, 3, 0x20, 4, 0x24, 100, 0x30, 3, 1, 2, 3, 4};
static const unsigned char add[] = {1, 0, 0x32, 2, 0x20, 0x64, 0x24, 1, 1, 0, 0, 0};
static const unsigned char opens[] = {0x54, 2, 0x20, 6, 0x24, 1, 0x0a, 1, 0,    0,    0, 0, 0x44, 0x33, 0x22, 0x11,
                                      1,    1, 0x42, 0, 0x78, 0x56, 0x34, 0x12, 0,    0,    0, 0, 0x80, 0x84, 0x1e, 0,
                                      0xf4, 0x43, 0x80, 0x84, 0x1e, 0, 0xf4, 0x43, 0xa3, 2, 0x20, 2, 0x24, 1};

static enip_adapter *adapter;
static uint32_t peer;

/* Writes a frame of session 1 with one address item and one data item, and returns its size. */
static size_t frame_of(unsigned char *frame, unsigned char command, const unsigned char *bytes, size_t size, int connected) {
    size_t head = connected ? 20 : 16, at = 24 + 6;
    memset(frame, 0, 24 + head);
    frame[0] = command, frame[2] = (unsigned char)(head + size), frame[4] = 1;
    frame[at] = 2;
    if (connected)
        frame[at + 2] = 0xa1, frame[at + 4] = 4, frame[at + 6] = 1, at += 4;
    frame[at + 6] = connected ? 0xb1 : 0xb2, frame[at + 8] = (unsigned char)size;
    memcpy(frame + 24 + head, bytes, size);
    return 24 + head + size;
}

static inline enip_fed feed(const unsigned char *frame, size_t size, unsigned char *buffer) {
    enip_fed fed = {0, 0, 0, 1};
    if (enip_adapter_feed(adapter, 1, peer, frame, size, buffer, ENIP_ANSWER_ROOM, &fed) != ENIP_OK || fed.answer == 0)
        exit(1);
    return fed;
}

int main(int argument_count, char **arguments) {
    unsigned char frame[128], buffer[ENIP_ANSWER_ROOM];
    long count = argument_count == 3 ? strtol(arguments[1], NULL, 10) : 0;
    size_t size;
    if (argument_count != 3 || enip_adapter_new(configuration, sizeof configuration - 1, &adapter, NULL) != ENIP_OK)
        return 2;
    enip_adapter_begin(adapter, &peer);
    feed(registers, sizeof registers, buffer);
    if (strcmp(arguments[2], "repeat") == 0) {
        size = frame_of(frame, 0x6f, opens, sizeof opens, 0);
        feed(frame, size, buffer);
        if (buffer[24 + 16 + 2] != 0)
            return 3;
        size = frame_of(frame, 0x70, add, sizeof add, 1);
    } else if (strcmp(arguments[2], "set") == 0) {
        size = frame_of(frame, 0x6f, set, sizeof set, 0);
    } else {
        size = frame_of(frame, 0x6f, get, sizeof get, 0);
    }
    for (long i = 0; i < count; i++)
        feed(frame, size, buffer);
    size = feed(frame, size, buffer).answer;
    for (size_t i = 0; i < size; i++)
        printf("%02x", buffer[i]);
    return enip_adapter_free(adapter);
}
