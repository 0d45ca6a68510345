/* Prints the name of the library that is linked: its version, the requested changes that it has, the source of the port. */
#include <inttypes.h>
#include <stdio.h>

#include "point_store.h"

int main(void) {
    uint8_t name[PS_NAME_BYTES];
    uint64_t length, number = ps_name(name, sizeof name, &length);
    if (number != PS_OK) {
        fprintf(stderr, "name refused with %" PRIu64 ": %s\n", number, ps_refusal_text(number));
        return 1;
    }
    printf("%.*s\n", (int)length, (const char *)name);
    if (!ps_version_agrees()) {
        printf("the header is of version %s\n", PS_VERSION);
        return 1;
    }
    return 0;
}
