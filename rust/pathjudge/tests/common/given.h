/* What the C programs have in common: facts that have to hold, and the certificates of tests/chain. */
#include "pathjudge.h"

#include <stdio.h>
#include <stdlib.h>

#define LENGTH(array) (sizeof(array) / sizeof((array)[0]))

#define HOLDS(fact)                                            \
    do {                                                       \
        if (!(fact)) {                                         \
            printf("line %d: not so: %s\n", __LINE__, #fact);  \
            exit(EXIT_FAILURE);                                \
        }                                                      \
    } while (0)

enum { TIME = 1700000000, CERT_NOT_VALID_FOR_NAME = 3, INVALID_SIGNATURE = 8 };

static const uint8_t server_authentication[] = {0x2b, 6, 1, 5, 5, 7, 3, 1};

/* The bytes of a file, in a block of exactly their length, so that a sanitizer sees every step beyond it. */
static pathjudge_bytes contents(const char *name) {
    FILE *file = fopen(name, "rb");
    HOLDS(file && fseek(file, 0, SEEK_END) == 0);
    long length = ftell(file);
    HOLDS(length > 0);
    rewind(file);
    uint8_t *start = malloc((size_t)length);
    HOLDS(start && fread(start, 1, (size_t)length, file) == (size_t)length && fclose(file) == 0);
    return (pathjudge_bytes){start, (size_t)length};
}

static pathjudge_bytes part(pathjudge_bytes whole, pathjudge_place place) {
    HOLDS(place.start <= place.end && place.end <= whole.length);
    return (pathjudge_bytes){whole.start + place.start, place.end - place.start};
}
