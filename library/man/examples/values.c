/* Writes a structure: a flag, a count, a speed and a name. Then reads it. */
#include <assert.h>
#include <enip_types.h>
#include <stdio.h>
#include <string.h>

int main(void) {
    unsigned char buffer[32];
    size_t length = 0, at = 0, name_length;
    const char *name;
    int is_on;
    uint16_t count;
    float speed;
    /* each call writes behind the one before; 0 is ENIP_OK */
    if (enip_set_bool(buffer, sizeof buffer, &length, 1)
        || enip_set_uint(buffer, sizeof buffer, &length, 513)
        || enip_set_real(buffer, sizeof buffer, &length, 1.5f)
        || enip_set_short_string(buffer, sizeof buffer, &length, "Axis", 4))
        return 1; /* ENIP_ROOM: the buffer is full */
    assert(length == 12 && buffer[1] == 0x01 && buffer[2] == 0x02);
    if (enip_get_bool(buffer, length, &at, &is_on)
        || enip_get_uint(buffer, length, &at, &count)
        || enip_get_real(buffer, length, &at, &speed)
        || enip_get_short_string(buffer, length, &at, &name, &name_length))
        return 1; /* ENIP_ABSENT: the bytes end too early */
    assert(is_on && count == 513 && speed == 1.5f && at == length);
    printf("%.*s: %d, %g\n", (int)name_length, name, count, (double)speed);
    return 0;
}
