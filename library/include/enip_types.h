/*
 * enip_types.h: the elementary types, paths and requests of the standard, as bytes (ODVA CIP Networks Library,
 * Volume 1, "Data management"). It has no code of its own in the library: all its functions are inline.
 *
 * enip_get_TYPE reads the value at *offset of size bytes, and moves *offset behind it. So you read the fields of a
 * structure one after the other. Begin with an offset of 0.
 *
 * enip_set_TYPE, enip_path_PART and enip_request_KIND write behind the first *length bytes of a buffer, and add what
 * they wrote to *length. So you write fields one after the other. Begin with a length of 0.
 *
 * Values are least significant byte first. A call that returns a status other than ENIP_OK has changed nothing.
 *
 * Every call returns ENIP_MISUSE if a pointer is NULL; the bytes to read may be NULL if their size is 0. No call reads
 * or writes outside of size bytes, whatever *offset and *length are.
 *
 * C99 and C++17.
 */
#ifndef ENIP_TYPES_H
#define ENIP_TYPES_H

#include "enip.h"

#include <string.h>

#ifdef __cplusplus
#define ENIP_INLINE inline
#else
#define ENIP_INLINE static inline
#endif

/*
 * The initial value of an enip_wants: an interval of one second, so that the connection times out 32 seconds after the
 * last request, and 500 bytes in both directions.
 *
 *     enip_wants wants = ENIP_WANTS_DEFAULT;
 *     wants.originator_serial = my_serial;
 *
 * Set originator_vendor and originator_serial to your own. No two connections to a device may have the same of both and
 * the same connection_serial.
 */
#define ENIP_WANTS_DEFAULT {0x01020304, 0x00010001, 1000000, 0x1234, 1, 500, 500, 1, 3}

/* The services of the standard that devices of this project have. */
enum {
    ENIP_GET_ATTRIBUTES_ALL = 0x01,
    ENIP_GET_ATTRIBUTE_LIST = 0x03,
    ENIP_SET_ATTRIBUTE_LIST = 0x04,
    ENIP_RESET = 0x05,
    ENIP_MULTIPLE_SERVICE_PACKET = 0x0a,
    ENIP_GET_ATTRIBUTE_SINGLE = 0x0e,
    ENIP_SET_ATTRIBUTE_SINGLE = 0x10,
    ENIP_GET_MEMBER = 0x18,
    ENIP_SET_MEMBER = 0x19
};

/* ---- inner functions: do not call them ---- */

/* Finds count bytes at *offset, and moves *offset behind them. value is where the caller's result goes. */
ENIP_INLINE int enip_inner_take(const void *bytes, size_t size, size_t *offset, size_t count, const void *value,
                                const uint8_t **at) {
    if (offset == NULL || value == NULL || (bytes == NULL && size != 0))
        return ENIP_MISUSE;
    if (*offset > size || count > size - *offset)
        return ENIP_ABSENT;
    *at = bytes == NULL ? NULL : (const uint8_t *)bytes + *offset;
    *offset += count;
    return ENIP_OK;
}

/* Reads a number of 1 to 8 bytes. */
ENIP_INLINE int enip_inner_get(const void *bytes, size_t size, size_t *offset, size_t count, const void *value,
                               uint64_t *number) {
    const uint8_t *at = NULL;
    int status = enip_inner_take(bytes, size, offset, count, value, &at);
    *number = 0;
    for (size_t i = count; status == ENIP_OK && i > 0; i--)
        *number = *number << 8 | at[i - 1];
    return status;
}

/* Writes a number of count bytes, 1 to 8, and then length bytes of a text. */
ENIP_INLINE int enip_inner_set(void *buffer, size_t size, size_t *used, size_t count, uint64_t number,
                               const void *text, size_t length) {
    uint8_t *at;
    if (buffer == NULL || used == NULL || (text == NULL && length != 0))
        return ENIP_MISUSE;
    if (*used > size || count > size - *used || length > size - *used - count)
        return ENIP_ROOM;
    at = (uint8_t *)buffer + *used;
    if (length != 0)
        memmove(at + count, text, length);
    for (size_t i = 0; i < count; i++)
        at[i] = (uint8_t)(number >> (8 * i));
    *used += count + length;
    return ENIP_OK;
}

/* Reads a text whose length is in the first count bytes. */
ENIP_INLINE int enip_inner_get_text(const void *bytes, size_t size, size_t *offset, size_t count, const char **text,
                                    size_t *length) {
    const uint8_t *at = NULL;
    uint64_t number = 0;
    size_t from = offset == NULL ? 0 : *offset;
    int status = enip_inner_get(bytes, size, &from, count, text, &number);
    if (offset == NULL || length == NULL)
        return ENIP_MISUSE;
    if (status == ENIP_OK)
        status = enip_inner_take(bytes, size, &from, (size_t)number, text, &at);
    if (status == ENIP_OK) {
        *text = (const char *)at;
        *length = (size_t)number;
        *offset = from;
    }
    return status;
}

/* ---- values that are read ---- */

/* Reads a BOOL: one byte, which is 0 or 1. ENIP_OK; ENIP_ABSENT if there is no such byte at *offset; ENIP_MISUSE. */
ENIP_INLINE int enip_get_bool(const void *bytes, size_t size, size_t *offset, int *value) {
    uint64_t number = 0;
    size_t from = offset == NULL ? 0 : *offset;
    int status = enip_inner_get(bytes, size, &from, 1, value, &number);
    if (offset == NULL)
        return ENIP_MISUSE;
    if (status == ENIP_OK && number > 1)
        return ENIP_ABSENT;
    if (status == ENIP_OK) {
        *value = (int)number;
        *offset = from;
    }
    return status;
}

/* Reads a SINT: one byte, two's complement. ENIP_OK; ENIP_ABSENT if no byte is left at *offset; ENIP_MISUSE. */
ENIP_INLINE int enip_get_sint(const void *bytes, size_t size, size_t *offset, int8_t *value) {
    uint64_t number;
    int status = enip_inner_get(bytes, size, offset, 1, value, &number);
    if (status == ENIP_OK)
        *value = (int8_t)number;
    return status;
}

/* Reads an INT: 2 bytes, two's complement. ENIP_OK; ENIP_ABSENT if fewer are left at *offset; ENIP_MISUSE. */
ENIP_INLINE int enip_get_int(const void *bytes, size_t size, size_t *offset, int16_t *value) {
    uint64_t number;
    int status = enip_inner_get(bytes, size, offset, 2, value, &number);
    if (status == ENIP_OK)
        *value = (int16_t)number;
    return status;
}

/*
 * Reads a DINT: 4 bytes, two's complement. A TIME, in milliseconds, is read in the same way.
 * ENIP_OK; ENIP_ABSENT if fewer are left at *offset; ENIP_MISUSE.
 */
ENIP_INLINE int enip_get_dint(const void *bytes, size_t size, size_t *offset, int32_t *value) {
    uint64_t number;
    int status = enip_inner_get(bytes, size, offset, 4, value, &number);
    if (status == ENIP_OK)
        *value = (int32_t)number;
    return status;
}

/*
 * Reads a LINT: 8 bytes, two's complement. An LTIME, in microseconds, is read in the same way.
 * ENIP_OK; ENIP_ABSENT if fewer are left at *offset; ENIP_MISUSE.
 */
ENIP_INLINE int enip_get_lint(const void *bytes, size_t size, size_t *offset, int64_t *value) {
    uint64_t number;
    int status = enip_inner_get(bytes, size, offset, 8, value, &number);
    if (status == ENIP_OK)
        *value = (int64_t)number;
    return status;
}

/* Reads a USINT: one byte. ENIP_OK; ENIP_ABSENT if no byte is left at *offset; ENIP_MISUSE. */
ENIP_INLINE int enip_get_usint(const void *bytes, size_t size, size_t *offset, uint8_t *value) {
    uint64_t number;
    int status = enip_inner_get(bytes, size, offset, 1, value, &number);
    if (status == ENIP_OK)
        *value = (uint8_t)number;
    return status;
}

/*
 * Reads a UINT: 2 bytes. A DATE, in days since 1972-01-01, is read in the same way.
 * ENIP_OK; ENIP_ABSENT if fewer are left at *offset; ENIP_MISUSE.
 */
ENIP_INLINE int enip_get_uint(const void *bytes, size_t size, size_t *offset, uint16_t *value) {
    uint64_t number;
    int status = enip_inner_get(bytes, size, offset, 2, value, &number);
    if (status == ENIP_OK)
        *value = (uint16_t)number;
    return status;
}

/*
 * Reads a UDINT: 4 bytes. A TIME_OF_DAY, in milliseconds, is read in the same way.
 * ENIP_OK; ENIP_ABSENT if fewer are left at *offset; ENIP_MISUSE.
 */
ENIP_INLINE int enip_get_udint(const void *bytes, size_t size, size_t *offset, uint32_t *value) {
    uint64_t number;
    int status = enip_inner_get(bytes, size, offset, 4, value, &number);
    if (status == ENIP_OK)
        *value = (uint32_t)number;
    return status;
}

/* Reads a ULINT: 8 bytes. ENIP_OK; ENIP_ABSENT if fewer are left at *offset; ENIP_MISUSE. */
ENIP_INLINE int enip_get_ulint(const void *bytes, size_t size, size_t *offset, uint64_t *value) {
    uint64_t number;
    int status = enip_inner_get(bytes, size, offset, 8, value, &number);
    if (status == ENIP_OK)
        *value = number;
    return status;
}

/* Reads a BYTE: 8 bits. ENIP_OK; ENIP_ABSENT if no byte is left at *offset; ENIP_MISUSE. */
ENIP_INLINE int enip_get_byte(const void *bytes, size_t size, size_t *offset, uint8_t *value) {
    return enip_get_usint(bytes, size, offset, value);
}

/* Reads a WORD: 16 bits, 2 bytes. ENIP_OK; ENIP_ABSENT if fewer are left at *offset; ENIP_MISUSE. */
ENIP_INLINE int enip_get_word(const void *bytes, size_t size, size_t *offset, uint16_t *value) {
    return enip_get_uint(bytes, size, offset, value);
}

/* Reads a DWORD: 32 bits, 4 bytes. ENIP_OK; ENIP_ABSENT if fewer are left at *offset; ENIP_MISUSE. */
ENIP_INLINE int enip_get_dword(const void *bytes, size_t size, size_t *offset, uint32_t *value) {
    return enip_get_udint(bytes, size, offset, value);
}

/* Reads an LWORD: 64 bits, 8 bytes. ENIP_OK; ENIP_ABSENT if fewer are left at *offset; ENIP_MISUSE. */
ENIP_INLINE int enip_get_lword(const void *bytes, size_t size, size_t *offset, uint64_t *value) {
    return enip_get_ulint(bytes, size, offset, value);
}

/* Reads a REAL: 4 bytes, IEEE 754. ENIP_OK; ENIP_ABSENT if fewer are left at *offset; ENIP_MISUSE. */
ENIP_INLINE int enip_get_real(const void *bytes, size_t size, size_t *offset, float *value) {
    uint64_t number;
    int status = enip_inner_get(bytes, size, offset, 4, value, &number);
    if (status == ENIP_OK) {
        uint32_t bits = (uint32_t)number;
        memcpy(value, &bits, sizeof bits);
    }
    return status;
}

/* Reads an LREAL: 8 bytes, IEEE 754. ENIP_OK; ENIP_ABSENT if fewer are left at *offset; ENIP_MISUSE. */
ENIP_INLINE int enip_get_lreal(const void *bytes, size_t size, size_t *offset, double *value) {
    uint64_t number;
    int status = enip_inner_get(bytes, size, offset, 8, value, &number);
    if (status == ENIP_OK)
        memcpy(value, &number, sizeof number);
    return status;
}

/*
 * Reads a SHORT_STRING: a byte with the length, and the text. *text points into the bytes, and has *length bytes, 0 to
 * 255, with no 0 byte behind them.
 * ENIP_OK; ENIP_ABSENT if the bytes at *offset are not a whole SHORT_STRING; ENIP_MISUSE.
 */
ENIP_INLINE int enip_get_short_string(const void *bytes, size_t size, size_t *offset, const char **text,
                                      size_t *length) {
    return enip_inner_get_text(bytes, size, offset, 1, text, length);
}

/*
 * Reads a STRING: 2 bytes with the length, and the text. *text points into the bytes, and has *length bytes, 0 to
 * 65,535, with no 0 byte behind them.
 * ENIP_OK; ENIP_ABSENT if the bytes at *offset are not a whole STRING; ENIP_MISUSE.
 */
ENIP_INLINE int enip_get_string(const void *bytes, size_t size, size_t *offset, const char **text, size_t *length) {
    return enip_inner_get_text(bytes, size, offset, 2, text, length);
}

/* Copies count bytes at *offset to value. ENIP_OK; ENIP_ABSENT if fewer are left; ENIP_MISUSE. */
ENIP_INLINE int enip_get_bytes(const void *bytes, size_t size, size_t *offset, void *value, size_t count) {
    const uint8_t *at = NULL;
    int status = enip_inner_take(bytes, size, offset, count, value, &at);
    if (status == ENIP_OK && count != 0)
        memmove(value, at, count);
    return status;
}

/*
 * Reads the start of a reply, as enip_client_feed writes it: *service is the service without bit 7, and *general the
 * general status, which is 0 for success. *offset is then where the data of the reply begin, behind the additional
 * status.
 * ENIP_OK; ENIP_ABSENT if the bytes at *offset are not a reply; ENIP_MISUSE.
 */
ENIP_INLINE int enip_get_reply(const void *bytes, size_t size, size_t *offset, uint8_t *service, uint8_t *general) {
    const uint8_t *head = NULL, *more = NULL;
    size_t from = offset == NULL ? 0 : *offset;
    int status = enip_inner_take(bytes, size, &from, 4, service, &head);
    if (offset == NULL || general == NULL)
        return ENIP_MISUSE;
    if (status == ENIP_OK && head[0] < 0x80)
        return ENIP_ABSENT;
    if (status == ENIP_OK)
        status = enip_inner_take(bytes, size, &from, 2 * (size_t)head[3], service, &more);
    if (status == ENIP_OK) {
        *service = head[0] & 0x7f;
        *general = head[2];
        *offset = from;
    }
    return status;
}

/* ---- values that are written ---- */

/* Writes a BOOL: one byte, 0 if value is 0, otherwise 1. ENIP_OK, ENIP_ROOM, ENIP_MISUSE. */
ENIP_INLINE int enip_set_bool(void *buffer, size_t size, size_t *length, int value) {
    return enip_inner_set(buffer, size, length, 1, value != 0, NULL, 0);
}

/* Writes a SINT: one byte, two's complement. ENIP_OK, ENIP_ROOM, ENIP_MISUSE. */
ENIP_INLINE int enip_set_sint(void *buffer, size_t size, size_t *length, int8_t value) {
    return enip_inner_set(buffer, size, length, 1, (uint8_t)value, NULL, 0);
}

/* Writes an INT: 2 bytes, two's complement. ENIP_OK, ENIP_ROOM, ENIP_MISUSE. */
ENIP_INLINE int enip_set_int(void *buffer, size_t size, size_t *length, int16_t value) {
    return enip_inner_set(buffer, size, length, 2, (uint16_t)value, NULL, 0);
}

/*
 * Writes a DINT: 4 bytes, two's complement. A TIME, in milliseconds, is written in the same way.
 * ENIP_OK, ENIP_ROOM, ENIP_MISUSE.
 */
ENIP_INLINE int enip_set_dint(void *buffer, size_t size, size_t *length, int32_t value) {
    return enip_inner_set(buffer, size, length, 4, (uint32_t)value, NULL, 0);
}

/*
 * Writes a LINT: 8 bytes, two's complement. An LTIME, in microseconds, is written in the same way.
 * ENIP_OK, ENIP_ROOM, ENIP_MISUSE.
 */
ENIP_INLINE int enip_set_lint(void *buffer, size_t size, size_t *length, int64_t value) {
    return enip_inner_set(buffer, size, length, 8, (uint64_t)value, NULL, 0);
}

/* Writes a USINT: one byte. ENIP_OK, ENIP_ROOM, ENIP_MISUSE. */
ENIP_INLINE int enip_set_usint(void *buffer, size_t size, size_t *length, uint8_t value) {
    return enip_inner_set(buffer, size, length, 1, value, NULL, 0);
}

/*
 * Writes a UINT: 2 bytes. A DATE, in days since 1972-01-01, is written in the same way.
 * ENIP_OK, ENIP_ROOM, ENIP_MISUSE.
 */
ENIP_INLINE int enip_set_uint(void *buffer, size_t size, size_t *length, uint16_t value) {
    return enip_inner_set(buffer, size, length, 2, value, NULL, 0);
}

/*
 * Writes a UDINT: 4 bytes. A TIME_OF_DAY, in milliseconds, is written in the same way.
 * ENIP_OK, ENIP_ROOM, ENIP_MISUSE.
 */
ENIP_INLINE int enip_set_udint(void *buffer, size_t size, size_t *length, uint32_t value) {
    return enip_inner_set(buffer, size, length, 4, value, NULL, 0);
}

/* Writes a ULINT: 8 bytes. ENIP_OK, ENIP_ROOM, ENIP_MISUSE. */
ENIP_INLINE int enip_set_ulint(void *buffer, size_t size, size_t *length, uint64_t value) {
    return enip_inner_set(buffer, size, length, 8, value, NULL, 0);
}

/* Writes a BYTE: 8 bits. ENIP_OK, ENIP_ROOM, ENIP_MISUSE. */
ENIP_INLINE int enip_set_byte(void *buffer, size_t size, size_t *length, uint8_t value) {
    return enip_set_usint(buffer, size, length, value);
}

/* Writes a WORD: 16 bits, 2 bytes. ENIP_OK, ENIP_ROOM, ENIP_MISUSE. */
ENIP_INLINE int enip_set_word(void *buffer, size_t size, size_t *length, uint16_t value) {
    return enip_set_uint(buffer, size, length, value);
}

/* Writes a DWORD: 32 bits, 4 bytes. ENIP_OK, ENIP_ROOM, ENIP_MISUSE. */
ENIP_INLINE int enip_set_dword(void *buffer, size_t size, size_t *length, uint32_t value) {
    return enip_set_udint(buffer, size, length, value);
}

/* Writes an LWORD: 64 bits, 8 bytes. ENIP_OK, ENIP_ROOM, ENIP_MISUSE. */
ENIP_INLINE int enip_set_lword(void *buffer, size_t size, size_t *length, uint64_t value) {
    return enip_set_ulint(buffer, size, length, value);
}

/* Writes a REAL: 4 bytes, IEEE 754. ENIP_OK, ENIP_ROOM, ENIP_MISUSE. */
ENIP_INLINE int enip_set_real(void *buffer, size_t size, size_t *length, float value) {
    uint32_t bits;
    memcpy(&bits, &value, sizeof bits);
    return enip_inner_set(buffer, size, length, 4, bits, NULL, 0);
}

/* Writes an LREAL: 8 bytes, IEEE 754. ENIP_OK, ENIP_ROOM, ENIP_MISUSE. */
ENIP_INLINE int enip_set_lreal(void *buffer, size_t size, size_t *length, double value) {
    uint64_t bits;
    memcpy(&bits, &value, sizeof bits);
    return enip_inner_set(buffer, size, length, 8, bits, NULL, 0);
}

/*
 * Writes a SHORT_STRING: a byte with the length, and the text. text may be NULL if text_length is 0.
 * ENIP_OK; ENIP_ROOM; ENIP_MISUSE, also if the text is longer than 255 bytes.
 */
ENIP_INLINE int enip_set_short_string(void *buffer, size_t size, size_t *length, const char *text,
                                      size_t text_length) {
    if (text_length > UINT8_MAX)
        return ENIP_MISUSE;
    return enip_inner_set(buffer, size, length, 1, text_length, text, text_length);
}

/*
 * Writes a STRING: 2 bytes with the length, and the text. text may be NULL if text_length is 0.
 * ENIP_OK; ENIP_ROOM; ENIP_MISUSE, also if the text is longer than 65,535 bytes.
 */
ENIP_INLINE int enip_set_string(void *buffer, size_t size, size_t *length, const char *text, size_t text_length) {
    if (text_length > UINT16_MAX)
        return ENIP_MISUSE;
    return enip_inner_set(buffer, size, length, 2, text_length, text, text_length);
}

/* Copies count bytes to the buffer. bytes may be NULL if count is 0. ENIP_OK, ENIP_ROOM, ENIP_MISUSE. */
ENIP_INLINE int enip_set_bytes(void *buffer, size_t size, size_t *length, const void *bytes, size_t count) {
    return enip_inner_set(buffer, size, length, 0, 0, bytes, count);
}

/* ---- paths ---- */

/* Writes a logical segment in its narrowest form. kind is that of the form of 8 bits: 0x20, 0x24, 0x28 or 0x30. */
ENIP_INLINE int enip_inner_segment(void *buffer, size_t size, size_t *length, uint8_t kind, uint32_t value) {
    if (value <= UINT8_MAX)
        return enip_inner_set(buffer, size, length, 2, kind | value << 8, NULL, 0);
    if (value <= UINT16_MAX)
        return enip_inner_set(buffer, size, length, 4, (kind + 1u) | value << 16, NULL, 0);
    return enip_inner_set(buffer, size, length, 6, (kind + 2u) | (uint64_t)value << 16, NULL, 0);
}

/*
 * Writes the segment of a class: 2 bytes up to class 255, otherwise 4. A path is class, instance, attribute, member, in
 * this order; the last two are optional.
 * ENIP_OK, ENIP_ROOM, ENIP_MISUSE.
 */
ENIP_INLINE int enip_path_class(void *buffer, size_t size, size_t *length, uint16_t class_code) {
    return enip_inner_segment(buffer, size, length, 0x20, class_code);
}

/*
 * Writes the segment of an instance: 2 bytes up to instance 255, 4 up to 65,535, otherwise 6. Instance 0 is the class
 * itself.
 * ENIP_OK, ENIP_ROOM, ENIP_MISUSE.
 */
ENIP_INLINE int enip_path_instance(void *buffer, size_t size, size_t *length, uint32_t instance) {
    return enip_inner_segment(buffer, size, length, 0x24, instance);
}

/* Writes the segment of an attribute: 2 bytes up to attribute 255, otherwise 4. ENIP_OK, ENIP_ROOM, ENIP_MISUSE. */
ENIP_INLINE int enip_path_attribute(void *buffer, size_t size, size_t *length, uint16_t attribute) {
    return enip_inner_segment(buffer, size, length, 0x30, attribute);
}

/* Writes the segment of a member: 2 bytes up to member 255, otherwise 4. ENIP_OK, ENIP_ROOM, ENIP_MISUSE. */
ENIP_INLINE int enip_path_member(void *buffer, size_t size, size_t *length, uint16_t member) {
    return enip_inner_segment(buffer, size, length, 0x28, member);
}

/* ---- requests ---- */

/* Writes the start of a request: the service, the size of the path in words, and the path. */
ENIP_INLINE int enip_inner_request(void *buffer, size_t size, size_t *length, uint8_t service, uint16_t class_code,
                                   uint32_t instance, const uint16_t *attribute) {
    uint8_t path[14];
    size_t used = 0;
    if (service >= 0x80)
        return ENIP_MISUSE;
    enip_path_class(path, sizeof path, &used, class_code);
    enip_path_instance(path, sizeof path, &used, instance);
    if (attribute != NULL)
        enip_path_attribute(path, sizeof path, &used, *attribute);
    return enip_inner_set(buffer, size, length, 2, service | (uint64_t)(used / 2) << 8, path, used);
}

/*
 * Writes the start of a request to an object: the service, the size of the path in words, and the path, 6 to 12 bytes.
 * The data of the service follow, for example by enip_set_udint. Pass the request to enip_client_ask,
 * enip_client_submit or enip_once_command.
 * ENIP_OK; ENIP_ROOM; ENIP_MISUSE, also if bit 7 of the service is set.
 */
ENIP_INLINE int enip_request_service(void *buffer, size_t size, size_t *length, uint8_t service,
                                     uint16_t class_code, uint32_t instance) {
    return enip_inner_request(buffer, size, length, service, class_code, instance, NULL);
}

/*
 * Writes the start of a request whose path names an attribute, too: 8 to 16 bytes.
 * ENIP_OK; ENIP_ROOM; ENIP_MISUSE, also if bit 7 of the service is set.
 */
ENIP_INLINE int enip_request_attribute(void *buffer, size_t size, size_t *length, uint8_t service,
                                       uint16_t class_code, uint32_t instance, uint16_t attribute) {
    return enip_inner_request(buffer, size, length, service, class_code, instance, &attribute);
}

/*
 * Writes a request that reads an attribute, Get_Attribute_Single. It is complete.
 * ENIP_OK, ENIP_ROOM, ENIP_MISUSE.
 */
ENIP_INLINE int enip_request_get(void *buffer, size_t size, size_t *length, uint16_t class_code, uint32_t instance,
                                 uint16_t attribute) {
    return enip_inner_request(buffer, size, length, ENIP_GET_ATTRIBUTE_SINGLE, class_code, instance, &attribute);
}

/*
 * Writes the start of a request that sets an attribute, Set_Attribute_Single. The value follows, for example by
 * enip_set_uint.
 * ENIP_OK, ENIP_ROOM, ENIP_MISUSE.
 */
ENIP_INLINE int enip_request_set(void *buffer, size_t size, size_t *length, uint16_t class_code, uint32_t instance,
                                 uint16_t attribute) {
    return enip_inner_request(buffer, size, length, ENIP_SET_ATTRIBUTE_SINGLE, class_code, instance, &attribute);
}

#endif
