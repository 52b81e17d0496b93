/* The inputs of the benchmark, the same in every run. */
#ifndef INPUTS_H
#define INPUTS_H

#include "misqafur.h"

/* A basis as lent tables, of exactly the sizes. */
struct lent {
    uint64_t n, r;
    uint8_t states[MISQAFUR_STATES_SIZE], standard[MISQAFUR_STANDARD_SIZE];
    uint8_t leads[MISQAFUR_LEADS_SIZE], coefficients[MISQAFUR_COEFFICIENTS_SIZE], counts[MISQAFUR_COUNTS_SIZE];
};

/* What the calls are handed of it. */
#define LENT(L)                                                                                               \
    (L)->states, sizeof (L)->states, (L)->standard, sizeof (L)->standard, (L)->leads, sizeof (L)->leads,      \
        (L)->coefficients, sizeof (L)->coefficients, (L)->counts, sizeof (L)->counts

#define MOST_TERMS 32

struct input {
    uint64_t p, m, order, weights, n;
    uint8_t levels[512];           /* n points */
    uint8_t rounds[MISQAFUR_MAX_COUNT * 512]; /* the n points over and over, each as often as it can be counted */
    struct lent before;            /* the basis of all points but the last */
    struct lent whole;             /* the basis of all points */
    uint8_t terms[MOST_TERMS], exponents[8 * MOST_TERMS];
};

/* What the calls are handed of its settings. */
#define UNDER(I) (I)->p, (I)->m, (I)->order, (I)->weights

/* Whether p^m is enough for n distinct points. */
int input_exists(uint64_t p, uint64_t m, uint64_t n);

/* An order in a word. */
extern const char *const order_words[4];

/* Distinct random points, the same in every order, and a random polynomial; by weight some weights. The two bases are left to be
 * drawn up. */
void input_make(struct input *input, uint64_t p, uint64_t m, uint64_t order, uint64_t n);

#endif
