/* Which monomial comes next in Buchberger and Moeller's way. The standard monomials found so far
 * increase, so for each variable its products with them increase too: a position for each variable
 * is enough, and no queue. A monomial of total degree at most 64 has a 64-bit rank whose order is the
 * monomial order, and the rank of a product is the sum of the ranks. */
#ifndef CANDIDATES_H
#define CANDIDATES_H

#include <stdint.h>

#define MOST 64 /* points */

struct candidates {
    unsigned m, found;   /* variables; standard monomials found */
    uint64_t step[8];    /* rank of each variable */
    uint64_t rank[MOST]; /* of the standard monomials */
    unsigned at[8];      /* the next standard monomial to be multiplied with each variable */
};

/* A standard monomial, the parent, times a variable. */
struct candidate {
    uint64_t rank;
    unsigned parent, by;
    uint8_t exponents[8];
};

void candidates_begin(struct candidates *c, unsigned m, unsigned order, uint64_t weights);

/* The monomial is standard. */
void candidates_found(struct candidates *c, const struct candidate *monomial);

/* The next monomial that has only standard proper divisors; 0 if there is none. The exponents of the
 * standard monomials stand in a table, 8 each. */
int candidates_next(struct candidates *c, const uint8_t *standard, struct candidate *next);

#endif
