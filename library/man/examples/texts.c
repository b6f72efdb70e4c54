/* Prints the version, and what a general status means. */
#include <assert.h>
#include <enip.h>
#include <stdio.h>
#include <string.h>

int main(void) {
    char text[80];
    size_t length;
    length = enip_status_text(ENIP_OF_GENERAL, 0x08, text, sizeof text);
    assert(length == strlen(text) && length > 0);
    assert(strcmp(enip_version(), ENIP_VERSION) == 0);
    printf("libenip %s: 0x08 is \"%s\"\n", enip_version(), text);
    return 0;
}
