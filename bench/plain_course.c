/* Running a time course's model in plain C: powers of the levels, the values of the standard monomials, a product with each
 * interpolant; and the states met, looked up from the latest on. */
#include "plain_course.h"

#include <string.h>

#define MOST 64
#define LANES 16
#define POWERS 65

static inline uint8_t add(uint8_t p, uint8_t x, uint8_t y)
{
    uint8_t sum = (uint8_t)(x + y);
    uint8_t less = (uint8_t)(sum - p);
    return less < sum ? less : sum;
}

/* By doubling and adding, from the highest bit of y on. */
static inline uint8_t mul(uint8_t p, uint8_t x, uint8_t y)
{
    uint8_t product = 0;
    for (uint8_t bit = 32; bit > 0; bit >>= 1) {
        uint8_t chosen = (uint8_t)(y & bit) == bit ? x : 0;
        product = add(p, add(p, product, product), chosen);
    }
    return product;
}

/* As many as n in whole lanes. */
static inline unsigned whole(unsigned n)
{
    return (n + LANES - 1) / LANES * LANES;
}

/* The greatest exponent of each variable in n monomials. */
static void greatest(unsigned m, unsigned n, const uint8_t *standard, unsigned most[8])
{
    memset(most, 0, 8 * sizeof *most);
    for (unsigned t = 0; t < n; t++)
        for (unsigned k = 0; k < m; k++)
            if (standard[8 * t + k] > most[k])
                most[k] = standard[8 * t + k];
}

/* The values of n monomials at a state: for each variable a row of powers, taken by all monomials at once. */
static void values_at(uint8_t p, unsigned m, unsigned n, const uint8_t *standard, const unsigned most[8], const uint8_t *state,
                      uint8_t values[MOST])
{
    uint8_t power[POWERS], factor[MOST] = {0};
    memset(values, 1, MOST);
    for (unsigned k = 0; k < m; k++) {
        if (most[k] == 0)
            continue;
        power[0] = 1;
        for (unsigned e = 1; e <= most[k]; e++)
            power[e] = mul(p, power[e - 1], state[k]);
        for (unsigned t = 0; t < n; t++)
            factor[t] = power[standard[8 * t + k]];
        for (unsigned t = 0; t < whole(n); t++)
            values[t] = mul(p, values[t], factor[t]);
    }
}

/* The sum of products with the values. */
static uint8_t product_with(uint8_t p, unsigned n, const uint8_t *interpolant, const uint8_t values[MOST])
{
    uint8_t products[MOST];
    for (unsigned t = 0; t < whole(n); t++)
        products[t] = mul(p, interpolant[t], values[t]);
    for (unsigned from = LANES; from < n; from += LANES)
        for (unsigned t = 0; t < LANES; t++)
            products[t] = add(p, products[t], products[from + t]);
    for (unsigned half = LANES / 2; half > 0; half /= 2)
        for (unsigned t = 0; t < half; t++)
            products[t] = add(p, products[t], products[t + half]);
    return products[0];
}

struct run_end plain_run(unsigned p, unsigned m, unsigned n, const struct course_left *model, const uint8_t start[8])
{
    uint64_t met[MISQAFUR_MAX_STEPS + 1];
    unsigned most[8];
    uint8_t state[8], next[8] = {0}, values[MOST];
    memcpy(state, start, 8);
    memcpy(&met[0], start, 8);
    greatest(m, n, model->lent.standard, most);
    for (unsigned k = 1; k <= MISQAFUR_MAX_STEPS; k++) {
        values_at((uint8_t)p, m, n, model->lent.standard, most, state, values);
        for (unsigned g = 0; g < m; g++)
            next[g] = product_with((uint8_t)p, n, model->interpolants + 64 * g, values);
        memcpy(state, next, 8);
        memcpy(&met[k], next, 8);
        for (unsigned j = k; j > 0; j--)
            if (met[j - 1] == met[k])
                return (struct run_end){k, k - (j - 1), k};
    }
    return (struct run_end){0, 0, MISQAFUR_MAX_STEPS};
}
