/* Requests: a read, a set with its value, and a service of a wide class. */
#include <assert.h>
#include <enip_types.h>
#include <stdio.h>
#include <string.h>

int main(void) {
    unsigned char buffer[32];
    size_t length = 0;
    /* attribute 7 of the Identity object */
    if (enip_request_get(buffer, sizeof buffer, &length, 1, 1, 7))
        return 1;
    assert(length == 8 && !memcmp(buffer, "\x0e\3\x20\1\x24\1\x30\7", 8));
    /* the data of assembly 100, a UINT */
    length = 0;
    if (enip_request_set(buffer, sizeof buffer, &length, 4, 100, 3)
        || enip_set_uint(buffer, sizeof buffer, &length, 1000))
        return 1;
    assert(length == 10);
    /* service 50 of class 768: the class takes 4 bytes of the path */
    length = 0;
    if (enip_request_service(buffer, sizeof buffer, &length, 50, 768, 1)
        || enip_set_dint(buffer, sizeof buffer, &length, 5))
        return 1;
    assert(length == 12 && buffer[1] == 3);
    /* a path alone: member 2 of the data of assembly 100 */
    length = 0;
    if (enip_path_class(buffer, sizeof buffer, &length, 4)
        || enip_path_instance(buffer, sizeof buffer, &length, 100)
        || enip_path_attribute(buffer, sizeof buffer, &length, 3)
        || enip_path_member(buffer, sizeof buffer, &length, 2))
        return 1;
    printf("%zu bytes\n", length);
    return 0;
}
