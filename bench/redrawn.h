/* What the calls in plain C share: points as residues, and tables checked by drawing them up again. */
#ifndef REDRAWN_H
#define REDRAWN_H

#include "tableau.h"

#include <stddef.h>

static inline uint8_t residue(unsigned p, uint8_t level)
{
    return (uint8_t)(level < 128 ? level : level + p);
}

/* The place of a point among n distinct points; n if it is not there. */
unsigned place_of(const uint8_t *points, unsigned n, const uint8_t *point);

/* The residues of the distinct ones among so many points, in the layout of the states table, and how often each came; gives
 * the refusal, and where it is 0 their number is *n. Else nothing is written. */
unsigned gather_points(unsigned p, unsigned m, size_t count, const uint8_t *levels, uint8_t *states, uint8_t *counts,
                       unsigned *n);

/* A basis with tables of its own. */
struct redrawn {
    struct drawn drawn;
    uint8_t standard[512], leads[3592], coefficients[28736];
};

/* Draws up the points again; whether n, r and the tables are the ones handed in. */
int good_tables(struct tableau *t, struct redrawn *to, uint64_t modulus, uint64_t variables, uint64_t order,
                uint64_t weights, uint64_t n, uint64_t r, const uint8_t *states, const uint8_t *standard,
                const uint8_t *leads, const uint8_t *coefficients, const uint8_t *counts);

#endif
