/*
 * The typed helpers of enip_types.h: the bytes of each type, by the encodings of the standard (Volume 1, "Data
 * management") and worked by hand, each size that is too small, and each pointer that is NULL. C99 and C++17.
 * Prints `N passed, M failed`.
 */
#include <enip_types.h>
#include <stdio.h>
#include <stdlib.h>

static int passed, failed;

static void is(const char *what, long long got, long long wanted) {
    if (got == wanted) {
        passed++;
    } else {
        failed++;
        printf("types: %s: %lld instead of %lld\n", what, got, wanted);
    }
}

/* A block of exactly these bytes, so that a tool such as valgrind sees each access outside of it. */
static uint8_t *block_of(const void *bytes, size_t size) {
    uint8_t *block = (uint8_t *)malloc(size == 0 ? 1 : size);
    if (block == NULL)
        exit(2);
    if (size != 0)
        memcpy(block, bytes, size);
    else
        *block = 0;
    return block;
}

static const uint8_t nothing[8] = {0};

/*
 * Reads one value of COUNT bytes: behind 0 to 2 other bytes, with bytes behind it and without, from each size that is
 * too small, from each offset that is too great, and with each pointer NULL.
 */
#define READS(name, type, text, count, wanted)                                                                      \
    do {                                                                                                            \
        for (size_t before = 0; before <= 2; before++) {                                                            \
            uint8_t all[12];                                                                                        \
            memset(all, 0xa5, sizeof all);                                                                          \
            memcpy(all + before, text, count);                                                                      \
            for (size_t size = 0; size <= before + (count) + 1; size++) {                                           \
                uint8_t *block = block_of(all, size);                                                               \
                type value, kept;                                                                                   \
                size_t offset = before;                                                                             \
                int is_there = size >= before + (count);                                                            \
                memset(&value, 0x5a, sizeof value);                                                                 \
                kept = value;                                                                                       \
                is(#name, enip_get_##name(block, size, &offset, &value), is_there ? ENIP_OK : ENIP_ABSENT);         \
                is(#name ": the offset", (long long)offset, (long long)(before + (is_there ? (count) : 0)));        \
                is(#name ": the value", is_there ? value == (wanted) : memcmp(&value, &kept, sizeof kept) == 0, 1); \
                offset = SIZE_MAX - 1;                                                                              \
                is(#name ": a great offset", enip_get_##name(block, size, &offset, &value), ENIP_ABSENT);           \
                is(#name ": a great offset", offset == SIZE_MAX - 1, 1);                                            \
                free(block);                                                                                        \
            }                                                                                                       \
        }                                                                                                           \
        refuses_reads(#name, enip_get_##name(NULL, 8, &at, &name##_value),                                          \
                      enip_get_##name(nothing, 8, NULL, &name##_value), enip_get_##name(nothing, 8, &at, NULL),     \
                      enip_get_##name(NULL, 0, &at, &name##_value));                                                \
    } while (0)

static size_t at;
static int bool_value;
static int8_t sint_value;
static int16_t int_value;
static int32_t dint_value;
static int64_t lint_value;
static uint8_t usint_value, byte_value;
static uint16_t uint_value, word_value;
static uint32_t udint_value, dword_value;
static uint64_t ulint_value, lword_value;
static float real_value;
static double lreal_value;

static void refuses_reads(const char *what, int no_bytes, int no_offset, int no_value, int empty) {
    is(what, no_bytes, ENIP_MISUSE);
    is(what, no_offset, ENIP_MISUSE);
    is(what, no_value, ENIP_MISUSE);
    is(what, empty, ENIP_ABSENT);
    is(what, (long long)at, 0);
}

static void numbers_are_read(void) {
    READS(bool, int, "\x00", 1, 0);
    READS(bool, int, "\x01", 1, 1);
    READS(sint, int8_t, "\x7f", 1, 127);
    READS(sint, int8_t, "\x80", 1, -128);
    READS(sint, int8_t, "\xff", 1, -1);
    READS(int, int16_t, "\x34\x12", 2, 0x1234);
    READS(int, int16_t, "\x00\x80", 2, -32768);
    READS(int, int16_t, "\xfe\xff", 2, -2);
    READS(dint, int32_t, "\x78\x56\x34\x12", 4, 0x12345678);
    READS(dint, int32_t, "\x00\x00\x00\x80", 4, INT32_MIN);
    READS(dint, int32_t, "\xfd\xff\xff\xff", 4, -3);
    READS(lint, int64_t, "\xf0\xde\xbc\x9a\x78\x56\x34\x12", 8, INT64_C(0x123456789abcdef0));
    READS(lint, int64_t, "\x00\x00\x00\x00\x00\x00\x00\x80", 8, INT64_MIN);
    READS(lint, int64_t, "\xfc\xff\xff\xff\xff\xff\xff\xff", 8, -4);
    READS(usint, uint8_t, "\xfe", 1, 254);
    READS(uint, uint16_t, "\x02\xff", 2, 0xff02);
    READS(udint, uint32_t, "\x04\x03\x02\xff", 4, 0xff020304);
    READS(ulint, uint64_t, "\x08\x07\x06\x05\x04\x03\x02\xff", 8, UINT64_C(0xff02030405060708));
    READS(byte, uint8_t, "\x81", 1, 0x81);
    READS(word, uint16_t, "\x01\x80", 2, 0x8001);
    READS(dword, uint32_t, "\x01\x02\x03\x80", 4, 0x80030201);
    READS(lword, uint64_t, "\x01\x02\x03\x04\x05\x06\x07\x80", 8, UINT64_C(0x8007060504030201));
    /* 1.5 is 3fc00000, and -2.25 is c010000000000000 */
    READS(real, float, "\x00\x00\xc0\x3f", 4, 1.5f);
    READS(lreal, double, "\x00\x00\x00\x00\x00\x00\x02\xc0", 8, -2.25);
}

/* A byte that is neither 0 nor 1 is not a BOOL. */
static void bools_are_refused(void) {
    static const uint8_t bytes[] = {2, 0xff, 0x80, 0x10};
    for (size_t i = 0; i < sizeof bytes; i++) {
        size_t offset = i;
        int value = 7;
        is("bool: another byte", enip_get_bool(bytes, sizeof bytes, &offset, &value), ENIP_ABSENT);
        is("bool: another byte", (long long)offset, (long long)i);
        is("bool: another byte", value, 7);
    }
}

/* Writes one value behind 0 to 2 bytes: into each size that is too small, and into one that is enough. */
#define WRITES(name, value, text, count)                                                                 \
    do {                                                                                                 \
        for (size_t before = 0; before <= 2; before++) {                                                 \
            for (size_t size = before; size <= before + (count) + 1; size++) {                           \
                uint8_t all[12], wanted[12], *block;                                                     \
                size_t length = before;                                                                  \
                int fits = size >= before + (count);                                                     \
                memset(all, 0xa5, sizeof all);                                                           \
                memcpy(wanted, all, sizeof all);                                                         \
                if (fits)                                                                                \
                    memcpy(wanted + before, text, count);                                                \
                block = block_of(all, size);                                                             \
                is(#name, enip_set_##name(block, size, &length, value), fits ? ENIP_OK : ENIP_ROOM);     \
                is(#name ": the length", (long long)length, (long long)(before + (fits ? (count) : 0))); \
                is(#name ": the bytes", memcmp(block, wanted, size), 0);                                 \
                length = SIZE_MAX;                                                                       \
                is(#name ": a great length", enip_set_##name(block, size, &length, value), ENIP_ROOM);   \
                is(#name ": a great length", length == SIZE_MAX && memcmp(block, wanted, size) == 0, 1); \
                free(block);                                                                             \
            }                                                                                            \
        }                                                                                                \
        at = 0;                                                                                          \
        is(#name ": no buffer", enip_set_##name(NULL, 8, &at, value), ENIP_MISUSE);                      \
        is(#name ": no length", enip_set_##name(scratch, 8, NULL, value), ENIP_MISUSE);                  \
        is(#name ": no buffer", (long long)at, 0);                                                       \
    } while (0)

static uint8_t scratch[80000];

static void numbers_are_written(void) {
    WRITES(bool, 0, "\x00", 1);
    WRITES(bool, 1, "\x01", 1);
    WRITES(bool, 0x100, "\x01", 1);
    WRITES(sint, 127, "\x7f", 1);
    WRITES(sint, -128, "\x80", 1);
    WRITES(int, 0x1234, "\x34\x12", 2);
    WRITES(int, -2, "\xfe\xff", 2);
    WRITES(dint, 0x12345678, "\x78\x56\x34\x12", 4);
    WRITES(dint, INT32_MIN, "\x00\x00\x00\x80", 4);
    WRITES(lint, INT64_C(0x123456789abcdef0), "\xf0\xde\xbc\x9a\x78\x56\x34\x12", 8);
    WRITES(lint, -4, "\xfc\xff\xff\xff\xff\xff\xff\xff", 8);
    WRITES(usint, 254, "\xfe", 1);
    WRITES(uint, 0xff02, "\x02\xff", 2);
    WRITES(udint, 0xff020304, "\x04\x03\x02\xff", 4);
    WRITES(ulint, UINT64_C(0xff02030405060708), "\x08\x07\x06\x05\x04\x03\x02\xff", 8);
    WRITES(byte, 0x81, "\x81", 1);
    WRITES(word, 0x8001, "\x01\x80", 2);
    WRITES(dword, 0x80030201, "\x01\x02\x03\x80", 4);
    WRITES(lword, UINT64_C(0x8007060504030201), "\x01\x02\x03\x04\x05\x06\x07\x80", 8);
    WRITES(real, 1.5f, "\x00\x00\xc0\x3f", 4);
    WRITES(lreal, -2.25, "\x00\x00\x00\x00\x00\x00\x02\xc0", 8);
}

/* The bits of a REAL and an LREAL are kept, also those of infinity, of -0 and of the least number. */
static void bits_are_kept(void) {
    static const uint8_t reals[] = {0, 0, 0x80, 0x7f, 0, 0, 0, 0x80, 1, 0, 0, 0, 0xff, 0xff, 0x7f, 0xff};
    static const uint8_t lreals[] = {0, 0, 0, 0, 0, 0, 0xf0, 0xff, 0, 0, 0, 0, 0, 0, 0, 0x80, 1, 0, 0, 0, 0, 0, 0, 0};
    size_t from = 0, length = 0;
    float real = 0;
    double lreal = 0;
    for (size_t i = 0; i < sizeof reals / 4; i++) {
        is("real: read", enip_get_real(reals, sizeof reals, &from, &real), ENIP_OK);
        is("real: written", enip_set_real(scratch, sizeof scratch, &length, real), ENIP_OK);
    }
    is("real: all are read", (long long)from, 16);
    is("real: all are written", length == sizeof reals && memcmp(scratch, reals, sizeof reals) == 0, 1);
    from = length = 0;
    for (size_t i = 0; i < sizeof lreals / 8; i++) {
        is("lreal: read", enip_get_lreal(lreals, sizeof lreals, &from, &lreal), ENIP_OK);
        is("lreal: written", enip_set_lreal(scratch, sizeof scratch, &length, lreal), ENIP_OK);
    }
    is("lreal: all are read", (long long)from, 24);
    is("lreal: all are written", length == sizeof lreals && memcmp(scratch, lreals, sizeof lreals) == 0, 1);
}

typedef int get_text(const void *, size_t, size_t *, const char **, size_t *);
typedef int set_text(void *, size_t, size_t *, const char *, size_t);

static int gets_short(const void *bytes, size_t size, size_t *offset, const char **text, size_t *length) {
    return enip_get_short_string(bytes, size, offset, text, length);
}

static int gets_long(const void *bytes, size_t size, size_t *offset, const char **text, size_t *length) {
    return enip_get_string(bytes, size, offset, text, length);
}

static int sets_short(void *buffer, size_t size, size_t *length, const char *text, size_t text_length) {
    return enip_set_short_string(buffer, size, length, text, text_length);
}

static int sets_long(void *buffer, size_t size, size_t *length, const char *text, size_t text_length) {
    return enip_set_string(buffer, size, length, text, text_length);
}

/* A text behind one byte, with a length of 1 or 2 bytes: in each size, and with each pointer NULL. */
static void texts_are_read(get_text *get, const char *bytes, size_t head) {
    size_t whole = 1 + head + 3, offset = 1, length;
    const char *text;
    for (size_t size = 0; size <= whole + 1; size++) {
        uint8_t *block = block_of(bytes, size);
        int is_there = size >= whole;
        offset = 1;
        length = 77;
        text = NULL;
        is("a text", get(block, size, &offset, &text, &length), is_there ? ENIP_OK : ENIP_ABSENT);
        is("a text: the offset", (long long)offset, is_there ? (long long)whole : 1);
        is("a text: its length", (long long)length, is_there ? 3 : 77);
        is("a text: where it is", text == (is_there ? (const char *)block + 1 + head : NULL), 1);
        free(block);
    }
    offset = 0;
    is("a text: no bytes", get(NULL, whole, &offset, &text, &length), ENIP_MISUSE);
    is("a text: no offset", get(bytes, whole, NULL, &text, &length), ENIP_MISUSE);
    is("a text: no text", get(bytes, whole, &offset, NULL, &length), ENIP_MISUSE);
    is("a text: no length", get(bytes, whole, &offset, &text, NULL), ENIP_MISUSE);
    is("a text: empty bytes", get(NULL, 0, &offset, &text, &length), ENIP_ABSENT);
    is("a text: the offset", (long long)offset, 0);
}

/* The same text, written into each size. */
static void texts_are_written(set_text *set, const char *bytes, size_t head, size_t longest) {
    size_t whole = 1 + head + 3, length;
    char *text = (char *)block_of(scratch, longest + 1);
    memset(text, 'x', longest + 1);
    for (size_t size = 1; size <= whole + 1; size++) {
        uint8_t all[8], wanted[8], *block;
        int fits = size >= whole;
        memset(all, bytes[0], sizeof all);
        memcpy(wanted, all, sizeof all);
        if (fits)
            memcpy(wanted, bytes, whole);
        block = block_of(all, size);
        length = 1;
        is("a text is written", set(block, size, &length, "abc", 3), fits ? ENIP_OK : ENIP_ROOM);
        is("a text is written: the length", (long long)length, fits ? (long long)whole : 1);
        is("a text is written: the bytes", memcmp(block, wanted, size), 0);
        free(block);
    }
    length = 0;
    is("an empty text", set(scratch, head, &length, NULL, 0), ENIP_OK);
    is("an empty text", (long long)length, (long long)head);
    is("an empty text", scratch[0] == 0 && scratch[head - 1] == 0, 1);
    length = 0;
    is("no text", set(scratch, sizeof scratch, &length, NULL, 1), ENIP_MISUSE);
    is("a text and no buffer", set(NULL, sizeof scratch, &length, "a", 1), ENIP_MISUSE);
    is("a text and no length", set(scratch, sizeof scratch, NULL, "a", 1), ENIP_MISUSE);
    is("a text that is too long", set(scratch, sizeof scratch, &length, text, longest + 1), ENIP_MISUSE);
    is("nothing is written", (long long)length, 0);
    is("the longest text", set(scratch, head + longest, &length, text, longest), ENIP_OK);
    is("the longest text: the length", (long long)length, (long long)(head + longest));
    is("the longest text: its length", scratch[0] == 0xff && scratch[head - 1] == 0xff, 1);
    is("the longest text: its bytes", memcmp(scratch + head, text, longest), 0);
    free(text);
}

static void bytes_are_copied(void) {
    static const uint8_t bytes[] = {1, 2, 3, 4};
    uint8_t value[3] = {9, 9, 9};
    size_t from = 2, length = 1;
    is("bytes: too many", enip_get_bytes(bytes, sizeof bytes, &from, value, 3), ENIP_ABSENT);
    is("bytes: as before", from == 2 && value[0] == 9, 1);
    is("bytes", enip_get_bytes(bytes, sizeof bytes, &from, value, 2), ENIP_OK);
    is("bytes: the offset", (long long)from, 4);
    is("bytes: the value", value[0] == 3 && value[1] == 4 && value[2] == 9, 1);
    is("bytes: none at the end", enip_get_bytes(bytes, sizeof bytes, &from, value, 0), ENIP_OK);
    is("bytes: one at the end", enip_get_bytes(bytes, sizeof bytes, &from, value, 1), ENIP_ABSENT);
    from = 0;
    is("bytes: none of none", enip_get_bytes(NULL, 0, &from, value, 0), ENIP_OK);
    is("bytes: no value", enip_get_bytes(bytes, sizeof bytes, &from, NULL, 1), ENIP_MISUSE);
    memset(scratch, 0xa5, 8);
    is("bytes are written: too many", enip_set_bytes(scratch, 4, &length, bytes, 4), ENIP_ROOM);
    is("bytes are written: nothing", length == 1 && scratch[1] == 0xa5, 1);
    is("bytes are written", enip_set_bytes(scratch, 5, &length, bytes, 4), ENIP_OK);
    is("bytes are written: the bytes", memcmp(scratch, "\xa5\x01\x02\x03\x04\xa5", 6), 0);
    is("bytes are written: the length", (long long)length, 5);
    is("bytes are written: none", enip_set_bytes(scratch, 5, &length, NULL, 0), ENIP_OK);
    is("bytes are written: none of them", enip_set_bytes(scratch, 8, &length, NULL, 1), ENIP_MISUSE);
    /* from the same buffer */
    length = 1;
    memcpy(scratch, "abcdef", 6);
    is("bytes of the buffer itself", enip_set_bytes(scratch, 8, &length, scratch, 4), ENIP_OK);
    is("bytes of the buffer itself", memcmp(scratch, "aabcdf", 6), 0);
}

/* One segment or one request, in each size that is too small and in one that is enough. */
#define BUILDS(what, call, text, count)                                                                        \
    do {                                                                                                       \
        for (size_t size = 0; size <= (count) + 1; size++) {                                                   \
            uint8_t *block = block_of(scratch, size);                                                          \
            size_t length = 0;                                                                                 \
            int fits = size >= (count), wanted = fits ? ENIP_OK : ENIP_ROOM;                                   \
            memset(block, 0xa5, size);                                                                         \
            is(what, call, wanted);                                                                            \
            is(what ": the length", (long long)length, fits ? (long long)(count) : 0);                         \
            is(what ": the bytes", fits ? memcmp(block, text, count) == 0 : size == 0 || block[0] == 0xa5, 1); \
            is(what ": the byte behind", size <= (count) || block[count] == 0xa5, 1);                          \
            free(block);                                                                                       \
        }                                                                                                      \
    } while (0)

static void paths(void) {
    BUILDS("class 1", enip_path_class(block, size, &length, 1), "\x20\x01", 2);
    BUILDS("class 255", enip_path_class(block, size, &length, 255), "\x20\xff", 2);
    BUILDS("class 256", enip_path_class(block, size, &length, 256), "\x21\x00\x00\x01", 4);
    BUILDS("class 65535", enip_path_class(block, size, &length, 65535), "\x21\x00\xff\xff", 4);
    BUILDS("instance 0", enip_path_instance(block, size, &length, 0), "\x24\x00", 2);
    BUILDS("instance 255", enip_path_instance(block, size, &length, 255), "\x24\xff", 2);
    BUILDS("instance 256", enip_path_instance(block, size, &length, 256), "\x25\x00\x00\x01", 4);
    BUILDS("instance 65535", enip_path_instance(block, size, &length, 65535), "\x25\x00\xff\xff", 4);
    BUILDS("instance 65536", enip_path_instance(block, size, &length, 65536), "\x26\x00\x00\x00\x01\x00", 6);
    BUILDS("instance 2^32 - 1", enip_path_instance(block, size, &length, UINT32_MAX), "\x26\x00\xff\xff\xff\xff", 6);
    BUILDS("attribute 3", enip_path_attribute(block, size, &length, 3), "\x30\x03", 2);
    BUILDS("attribute 255", enip_path_attribute(block, size, &length, 255), "\x30\xff", 2);
    BUILDS("attribute 256", enip_path_attribute(block, size, &length, 256), "\x31\x00\x00\x01", 4);
    BUILDS("member 2", enip_path_member(block, size, &length, 2), "\x28\x02", 2);
    BUILDS("member 513", enip_path_member(block, size, &length, 513), "\x29\x00\x01\x02", 4);
    at = 0;
    is("a path and no buffer", enip_path_class(NULL, 8, &at, 1), ENIP_MISUSE);
    is("a path and no length", enip_path_class(scratch, 8, NULL, 1), ENIP_MISUSE);
}

static void requests(void) {
    /* the examples of docs/PROTOCOL.md: attribute 1 of Identity; class 256, instance 65,536 */
    BUILDS("get", enip_request_get(block, size, &length, 1, 1, 1), "\x0e\x03\x20\x01\x24\x01\x30\x01", 8);
    BUILDS("a wide path", enip_request_service(block, size, &length, ENIP_GET_ATTRIBUTES_ALL, 256, 65536),
           "\x01\x05\x21\x00\x00\x01\x26\x00\x00\x00\x01\x00", 12);
    BUILDS("set", enip_request_set(block, size, &length, 4, 100, 3), "\x10\x03\x20\x04\x24\x64\x30\x03", 8);
    BUILDS("the widest path", enip_request_attribute(block, size, &length, ENIP_GET_MEMBER, 0x1234, 0x56789abc, 0xdef0),
           "\x18\x07\x21\x00\x34\x12\x26\x00\xbc\x9a\x78\x56\x31\x00\xf0\xde", 16);
    BUILDS("service 127", enip_request_service(block, size, &length, 0x7f, 100, 1), "\x7f\x02\x20\x64\x24\x01", 6);
    at = 0;
    is("service 128", enip_request_service(scratch, 80, &at, 0x80, 100, 1), ENIP_MISUSE);
    is("service 255", enip_request_attribute(scratch, 80, &at, 0xff, 100, 1, 1), ENIP_MISUSE);
    is("a request and no buffer", enip_request_get(NULL, 80, &at, 1, 1, 1), ENIP_MISUSE);
    is("a request and no length", enip_request_set(scratch, 80, NULL, 1, 1, 1), ENIP_MISUSE);
    is("nothing is written", (long long)at, 0);
    /* a request with data, behind another */
    is("a request", enip_request_get(scratch, 80, &at, 1, 1, 7), ENIP_OK);
    is("another", enip_request_set(scratch, 80, &at, 768, 1, 1), ENIP_OK);
    is("its data", enip_set_uint(scratch, 80, &at, 1000), ENIP_OK);
    is("both", at == 20 && memcmp(scratch, "\x0e\x03\x20\x01\x24\x01\x30\x07\x10\x04\x21\x00\x00\x03\x24\x01\x30\x01"
                                           "\xe8\x03", 20) == 0, 1);
}

static void replies(void) {
    static const uint8_t reply[] = {0x8e, 0, 0, 0, 0x34, 0x12}, refused[] = {0x90, 0, 0x0c, 2, 1, 2, 3, 4, 9};
    uint8_t service = 9, general = 9;
    for (size_t size = 0; size <= sizeof reply; size++) {
        uint8_t *block = block_of(reply, size);
        int is_there = size >= 4;
        at = 0;
        service = general = 9;
        is("a reply", enip_get_reply(block, size, &at, &service, &general), is_there ? ENIP_OK : ENIP_ABSENT);
        is("a reply: its data", (long long)at, is_there ? 4 : 0);
        is("a reply: its service", service, is_there ? 0x0e : 9);
        is("a reply: its status", general, is_there ? 0 : 9);
        free(block);
    }
    for (size_t size = 0; size <= sizeof refused; size++) {
        uint8_t *block = block_of(refused, size);
        int is_there = size >= 8;
        at = 0;
        service = general = 9;
        is("a refusal", enip_get_reply(block, size, &at, &service, &general), is_there ? ENIP_OK : ENIP_ABSENT);
        is("a refusal: behind its words", (long long)at, is_there ? 8 : 0);
        is("a refusal: its service", service, is_there ? 0x10 : 9);
        is("a refusal: its status", general, is_there ? 0x0c : 9);
        free(block);
    }
    at = 4;
    is("not a reply", enip_get_reply("\0\0\0\0\x7f\0\0\0", 8, &at, &service, &general), ENIP_ABSENT);
    is("not a reply", (long long)at, 4);
    is("no reply", enip_get_reply(NULL, 8, &at, &service, &general), ENIP_MISUSE);
    is("a reply, no offset", enip_get_reply(reply, 6, NULL, &service, &general), ENIP_MISUSE);
    is("a reply, no service", enip_get_reply(reply, 6, &at, NULL, &general), ENIP_MISUSE);
    is("a reply, no status", enip_get_reply(reply, 6, &at, &service, NULL), ENIP_MISUSE);
}

/* Fields of several types, one after the other. The first that is missing ends them. */
static void structures(void) {
    static const uint8_t bytes[] = {0x34, 0x12, 4, 'D', 'e', 'm', 'o', 1, 0, 0, 0x80, 0x3f, 0xff};
    const char *name = "";
    size_t from = 0, length = 0;
    uint16_t vendor = 0;
    int flag = 0;
    float gain = 0;
    int8_t last = 0;
    is("a structure", enip_get_uint(bytes, sizeof bytes, &from, &vendor) || vendor != 0x1234, 0);
    is("a structure", enip_get_short_string(bytes, sizeof bytes, &from, &name, &length) || length != 4, 0);
    is("a structure", memcmp(name, "Demo", 4), 0);
    is("a structure", enip_get_bool(bytes, sizeof bytes, &from, &flag) || flag != 1, 0);
    is("a structure", enip_get_real(bytes, sizeof bytes, &from, &gain) || gain != 1, 0);
    is("a structure", enip_get_sint(bytes, sizeof bytes, &from, &last) || last != -1, 0);
    is("its end", (long long)from, 13);
    is("its end", enip_get_sint(bytes, sizeof bytes, &from, &last), ENIP_ABSENT);
}

static void defaults(void) {
    static const enip_wants wants = ENIP_WANTS_DEFAULT;
    is("the serial number", wants.originator_serial, 0x01020304);
    is("the connection ID", wants.t_to_o_id, 0x00010001);
    is("the interval", wants.rpi, 1000000);
    is("the vendor", wants.originator_vendor, 0x1234);
    is("the connection's number", wants.connection_serial, 1);
    is("the size to the target", wants.o_to_t_size, 500);
    is("the size to the originator", wants.t_to_o_size, 500);
    is("the first count", wants.first_count, 1);
    is("the multiplier", wants.timeout_multiplier, 3);
}

int main(void) {
    numbers_are_read();
    bools_are_refused();
    numbers_are_written();
    bits_are_kept();
    texts_are_read(gets_short, "?\x03" "abc?", 1);
    texts_are_read(gets_long, "?\x03\x00" "abc?", 2);
    texts_are_written(sets_short, "?\x03" "abc", 1, 255);
    texts_are_written(sets_long, "?\x03\x00" "abc", 2, 65535);
    bytes_are_copied();
    paths();
    requests();
    replies();
    structures();
    defaults();
    printf("%d passed, %d failed\n", passed, failed);
    return failed != 0;
}
