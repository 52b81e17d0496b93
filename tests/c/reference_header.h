/* The last field of a text's header. */
#ifndef REFERENCE_HEADER_H
#define REFERENCE_HEADER_H

#include "reference.h"

/* What the header says: how many names it has, and the settings. The weights are packed as the calls take them, those of the
 * first eight names; with more names the text is refused for their number. */
struct header {
    size_t names;
    int modulus;
    uint64_t order, packed;
};

/* Reads the last field, header->names being known; says whether it is one. */
int reference_header(const uint8_t *bytes, size_t length, struct header *header);

/* One digit to so many: their number; anything else: -1. */
int reference_digits(const uint8_t *bytes, size_t length, size_t most);

#endif
