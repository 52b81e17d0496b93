/* Drawing up in plain C by the archive's own method, under the same rule: a working row of values and
 * coefficients meets the pivot rows in the order they were found, every product of residues is worked
 * out by doubling and adding, and no number is greater than 121. It shows how much of a ratio is the
 * method's. */
#include "plain.h"

#include "redrawn.h"

#include <string.h>

#define LANES 16
#define ROW 128     /* values at the points, then coefficients */
#define MULTIPLES 9 /* 1, 2, 3, 4, 8, 12, 16, 32, 48 times a pivot row */

struct rows {
    uint8_t p;
    const uint8_t *inverse;
    unsigned n, cancellations;
    struct candidates candidates;
    uint8_t coordinate[8][MOST], value[MOST][MOST];
    uint8_t pivot_row[MOST][MULTIPLES][ROW];
    uint8_t pivot[MOST];
};

static inline uint8_t add(uint8_t p, uint8_t x, uint8_t y)
{
    uint8_t sum = (uint8_t)(x + y);
    uint8_t less = (uint8_t)(sum - p);
    return less < sum ? less : sum;
}

/* By doubling and adding, from the highest bit of y on. */
static inline uint8_t mul(uint8_t p, uint8_t x, uint8_t y)
{
    uint8_t product = 0;
    for (uint8_t bit = 32; bit > 0; bit >>= 1) {
        uint8_t chosen = (uint8_t)(y & bit) == bit ? x : 0;
        product = add(p, add(p, product, product), chosen);
    }
    return product;
}

static inline unsigned whole(unsigned length)
{
    return (length + LANES - 1) / LANES * LANES;
}

static void add_one(uint8_t p, unsigned width, uint8_t *restrict to, const uint8_t *a)
{
    for (unsigned i = 0; i < width; i++)
        to[i] = add(p, to[i], a[i]);
}

static void add_three(uint8_t p, unsigned width, uint8_t *restrict to, const uint8_t *a, const uint8_t *b, const uint8_t *c)
{
    for (unsigned i = 0; i < width; i++)
        to[i] = add(p, add(p, add(p, to[i], a[i]), b[i]), c[i]);
}

/* The row of a digit to the base 4, of the three multiples from `first` on. */
static const uint8_t *named(unsigned digit, const uint8_t (*first)[ROW])
{
    static const uint8_t zeros[ROW];
    return digit == 0 ? zeros : first[digit - 1];
}

/* Meets pivot row j; 1 for a cancellation, else 0. Up to 5 each factor is the number of a multiple. */
static unsigned cancel(const struct rows *w, unsigned j, uint8_t *row)
{
    const uint8_t (*multiples)[ROW] = w->pivot_row[j];
    uint8_t p = w->p, entry = row[w->pivot[j]];
    unsigned factor = (unsigned)(p - entry), width = whole(w->n + j + 1);
    if (entry == 0)
        return 0;
    if (p <= 5)
        add_one(p, width, row, multiples[factor - 1]);
    else
        add_three(p, width, row, named(factor & 3, multiples), named(factor >> 2 & 3, multiples + 3),
                  named(factor >> 4, multiples + 6));
    return 1;
}

/* Keeps a pivot row, scaled to 1 at its pivot, with its multiples: each is the one before and the first
 * of its three. */
static void keep(struct rows *w, unsigned pivot, const uint8_t *row)
{
    unsigned found = w->candidates.found;
    uint8_t (*multiples)[ROW] = w->pivot_row[found], p = w->p, scale = w->inverse[row[pivot]];
    for (unsigned i = 0; i < ROW; i++)
        multiples[0][i] = mul(p, scale, row[i]);
    multiples[0][w->n + found] = scale;
    for (unsigned k = 1; k < (p <= 5 ? 4 : MULTIPLES); k++)
        for (unsigned i = 0; i < ROW; i++)
            multiples[k][i] = add(p, multiples[k - 1][i], multiples[(k - 1) / 3 * 3][i]);
    w->pivot[found] = (uint8_t)pivot;
}

/* Takes a monomial with these values: it is standard, or a lead, and then r grows. */
static unsigned take(struct rows *w, const struct candidate *c, const uint8_t *values, unsigned r, uint8_t *standard,
                     uint8_t *leads, uint8_t *coefficients)
{
    uint8_t row[ROW] = {0};
    unsigned pivot = 0;
    memcpy(row, values, w->n);
    for (unsigned j = 0; j < w->candidates.found; j++)
        w->cancellations += cancel(w, j, row);
    while (pivot < w->n && row[pivot] == 0)
        pivot++;
    if (pivot < w->n) {
        memcpy(standard + 8 * w->candidates.found, c->exponents, 8);
        memcpy(w->value[w->candidates.found], values, MOST);
        keep(w, pivot, row);
        candidates_found(&w->candidates, c);
        return r;
    }
    memcpy(leads + 8 * r, c->exponents, 8);
    memcpy(coefficients + 64 * r, row + w->n, w->candidates.found);
    return r + 1;
}

/* Inverses of the residues 1 to p - 1, worked out once for each p: the archive has them in a table. */
static const uint8_t *inverses(uint8_t p)
{
    static uint8_t inverse[64][64];
    for (uint8_t a = 1; a < p && inverse[p][p - 1] == 0; a++)
        for (uint8_t b = 1; b < p; b++)
            if (mul(p, a, b) == 1)
                inverse[p][a] = b;
    return inverse[p];
}

static void begin(struct rows *w, uint8_t p, unsigned m, unsigned order, uint64_t weights, unsigned n,
                  const uint8_t *states)
{
    w->p = p;
    w->n = n;
    w->cancellations = 0;
    w->inverse = inverses(p);
    candidates_begin(&w->candidates, m, order, weights);
    memset(w->coordinate, 0, sizeof w->coordinate);
    for (unsigned k = 0; k < m; k++)
        for (unsigned i = 0; i < n; i++)
            w->coordinate[k][i] = states[8 * i + k];
}

uint64_t rows_draw_up(uint64_t modulus, uint64_t variables, uint64_t order, uint64_t weights,
                      uint8_t *states, size_t states_length, uint8_t *standard, size_t standard_length,
                      uint8_t *leads, size_t leads_length, uint8_t *coefficients, size_t coefficients_length,
                      uint8_t *counts, size_t counts_length, const uint8_t *levels, size_t levels_length)
{
    struct rows w;
    struct candidate c = {.rank = 0};
    uint8_t values[MOST] = {0};
    unsigned n = 0, r = 0;
    (void)states_length, (void)standard_length, (void)leads_length, (void)coefficients_length, (void)counts_length;
    unsigned refusal = gather_points((unsigned)modulus, (unsigned)variables, levels_length / variables, levels, states,
                                     counts, &n);
    if (refusal != 0)
        return refusal;
    begin(&w, (uint8_t)modulus, (unsigned)variables, (unsigned)order, weights, n, states);
    memset(standard, 0, MISQAFUR_STANDARD_SIZE);
    memset(leads, 0, MISQAFUR_LEADS_SIZE);
    memset(coefficients, 0, MISQAFUR_COEFFICIENTS_SIZE);
    for (unsigned i = 0; i < n; i++)
        values[i] = 1;
    r = take(&w, &c, values, r, standard, leads, coefficients);
    while (candidates_next(&w.candidates, standard, &c)) {
        for (unsigned i = 0; i < MOST; i++)
            values[i] = mul(w.p, w.value[c.parent][i], w.coordinate[c.by][i]);
        r = take(&w, &c, values, r, standard, leads, coefficients);
    }
    return 256 * n + 65536 * r + ((uint64_t)w.cancellations << 32);
}
