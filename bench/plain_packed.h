/* Drawing up modulo 2 with packed columns, in plain C tuned for speed and with no proof: the measure that the archive's packed
 * drawing up is held against.
 *
 * A column of values at up to 64 points is a word, a monomial without squares a byte. x_k^2 and x_k have equal values at every
 * point, so standard monomials are without squares, and x_k^2 is a lead where x_k is standard, with the row x_k^2 + x_k: it has
 * only to come in its place.
 *
 * The pivot rows are kept fully reduced: row j is a combination of the standard monomials found that is 1 at pivot j and 0 at
 * the other pivots. So a column's factors are its bits at the pivots, all known at once, and it loses one row for each point
 * among the pivots where it is 1: of a monomial of degree d, that are few. Which pivot is taken does not matter to the basis.
 * Since the values at the pivots are known, their places hold the coefficients, each at the pivot of its standard monomial: a
 * row is one word. Rows of leads are brought into the standard monomials' order when all are found.
 *
 * The monomials without squares that are not yet known to be multiples of a lead are the zeros of a set of 256 bits, numbered
 * so that the order of numbers is the monomial order within a degree (lex: altogether). */
#ifndef PLAIN_PACKED_H
#define PLAIN_PACKED_H

#include "misqafur.h"

/* Has every refusal of the call, and takes no order by weight: 5 is for every number above 2. */
__typeof__(misqafur_draw_up_packed) plain_draw_up_packed;

#define MOST_LEADS 449
#define ONES 0x0101010101010101u
#define RISING 0x8040201008040201u  /* byte i has bit i */
#define FALLING 0x0102040810204080u /* byte i has bit 7 - i */

struct packed {
    unsigned m, n, found, r;
    uint64_t pivots;                /* the points that are pivots */
    uint64_t known[4];              /* monomials that are multiples of leads, or no monomials */
    uint64_t spread;                /* where the bits of a monomial's number go: RISING or FALLING */
    unsigned shift;                 /* by which its number is shifted before */
    uint64_t column[8];             /* of the variables, by bit of a monomial's number */
    uint64_t value[256];            /* of the standard monomials, by number */
    uint64_t row[64];               /* values at points that are no pivots, coefficients at pivots */
    uint8_t row_of[64];             /* of a pivot */
    uint64_t lead_row[MOST_LEADS];  /* coefficients of the leads, at pivots */
    uint64_t variable[8];           /* the pivot of a variable that is standard, by bit; else 0 */
    uint8_t *standard, *leads;
};

/* The eight bytes of a number's bits, in the places that a pattern says. */
static inline uint64_t spread_bits(uint64_t pattern, unsigned bits)
{
    return (((bits * ONES & pattern) + 0x7f * ONES) >> 7) & ONES;
}

static inline void put_eight(uint8_t *to, uint64_t eight)
{
    memcpy(to, &eight, 8);
}

/* Finds the standard monomials and the leads, in the order's sequence, from columns that are there. */
void packed_walk(struct packed *d, uint64_t order);

#endif
