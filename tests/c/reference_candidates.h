/* The monomials that the reference looks at. */
#ifndef REFERENCE_CANDIDATES_H
#define REFERENCE_CANDIDATES_H

#include "reference.h"

struct candidate {
    uint8_t exponents[8];
    uint8_t divisors;
    int sum; /* by weight: of weight times exponent; else 0 */
};

struct candidates {
    struct candidate *list;
    size_t count, room;
};

/* All monomials that could be standard or leading for b's number of points, and perhaps others, increasing in b's order. Those
 * by weight are put in `weighed`, which is empty and whose list the caller frees; any other order has its own for good. */
const struct candidates *reference_candidates(const struct basis *b, struct candidates *weighed);

#endif
