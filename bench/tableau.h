/* Buchberger and Moeller's way with exchange steps, for plain.c.
 *
 * The points stand in slots. Once a standard monomial has been found it takes the slot of its pivot
 * point, so that with f of them found slots 0 to f-1 mean standard monomials and slots f to n-1
 * mean points. Row j of the tableau is the combination of standard monomials that is 1 at pivot j
 * and 0 at the other pivots: its coefficients in the slots below f, its values in the others. So a
 * monomial's factors are its values at the pivots, all known at once, and one pass over the rows
 * leaves both its values at the other points and its coefficients. */
#ifndef TABLEAU_H
#define TABLEAU_H

#include "candidates.h"
#include "reduce.h"

#define LEADS 449 /* rows of the leads table */

struct tableau {
    unsigned p, m, n, found, width; /* width: n rounded up to whole vectors */
    unsigned room;                  /* products that an entry below p can gain and still fit 16 bits */
    uint16_t magic;                 /* 65536 / p */
    uint16_t inverse[64];
    uint16_t coordinate[8][MOST];   /* of the points, by variable and slot */
    uint16_t value[MOST][MOST];     /* of the standard monomials, by slot */
    uint16_t row[MOST][MOST];
    struct candidates candidates;
    uint8_t parent[MOST], by[MOST]; /* a standard monomial is its parent times a variable */
};

/* A basis in the layout of the lent tables, and what drawing up knows besides. */
struct drawn {
    unsigned r;
    uint8_t *standard, *leads, *coefficients;
    uint64_t rank[LEADS];
    uint8_t parent[LEADS], by[LEADS];
};

/* Gets ready for n points of m residues, 8 bytes each. */
void tableau_begin(struct tableau *t, unsigned p, unsigned m, unsigned order, uint64_t weights, unsigned n,
                   const uint8_t *points);

/* Draws up the basis of its points. */
void tableau_draw(struct tableau *t, struct drawn *to);

/* From values by slot, below p: what is left at the points that are no pivots, and the coefficients
 * c with values + sum of c * standard monomials equal to 0 at the pivots. */
void tableau_eliminate(const struct tableau *t, const uint16_t *values, uint16_t *rest);

/* The values by slot of a standard monomial times a variable. */
void tableau_times(const struct tableau *t, unsigned standard, unsigned variable, uint16_t *values);

#endif
