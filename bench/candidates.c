/* The next monomial. */
#include "candidates.h"

#include <string.h>

/* Digits of 7 bits. lex: e1 to e8; grlex: the degree, e1 to e7; by weight: the sum of weight times exponent, which has 13 bits,
 * e1 to e7; grevlex: the degree, then the sums of the first 7, 6 .. 1 exponents. */
static uint64_t variable_rank(unsigned order, uint64_t weight, unsigned k)
{
    uint64_t sum = 0;
    if (order == 0)
        return (uint64_t)1 << 7 * (7 - k);
    if (order == 1 || order == 3)
        return (weight << 49) + (k < 7 ? (uint64_t)1 << 7 * (6 - k) : 0);
    for (unsigned i = k; i < 8; i++)
        sum += (uint64_t)1 << 7 * i;
    return sum;
}

void candidates_begin(struct candidates *c, unsigned m, unsigned order, uint64_t weights)
{
    c->m = m;
    c->found = 0;
    memset(c->at, 0, sizeof c->at);
    for (unsigned k = 0; k < m; k++)
        c->step[k] = variable_rank(order, order == 3 ? weights >> 8 * k & 255 : 1, k);
}

void candidates_found(struct candidates *c, const struct candidate *monomial)
{
    c->rank[c->found++] = monomial->rank;
}

/* The least product at the positions; 0 if there is none. */
static int least(const struct candidates *c, struct candidate *next)
{
    next->rank = UINT64_MAX;
    for (unsigned k = 0; k < c->m; k++)
        if (c->at[k] < c->found && c->rank[c->at[k]] + c->step[k] < next->rank) {
            next->rank = c->rank[c->at[k]] + c->step[k];
            next->parent = c->at[k];
            next->by = k;
        }
    return next->rank != UINT64_MAX;
}

/* Moves the positions past the monomial; whether all its proper divisors are standard. */
static int pass(struct candidates *c, const struct candidate *next)
{
    int all = 1;
    for (unsigned k = 0; k < c->m; k++) {
        int same = c->at[k] < c->found && c->rank[c->at[k]] + c->step[k] == next->rank;
        all &= same || next->exponents[k] == 0;
        c->at[k] += (unsigned)same;
    }
    return all;
}

int candidates_next(struct candidates *c, const uint8_t *standard, struct candidate *next)
{
    while (least(c, next)) {
        memcpy(next->exponents, standard + 8 * next->parent, 8);
        next->exponents[next->by]++;
        if (pass(c, next))
            return 1;
    }
    return 0;
}
