/* Drawing up, withdrawing, checking and remainders in plain C over the tableau. */
#include "plain.h"

#include "redrawn.h"

#include <string.h>

uint64_t plain_draw_up(uint64_t modulus, uint64_t variables, uint64_t order, uint64_t weights,
                       uint8_t *states, size_t states_length, uint8_t *standard, size_t standard_length,
                       uint8_t *leads, size_t leads_length, uint8_t *coefficients, size_t coefficients_length,
                       uint8_t *counts, size_t counts_length, const uint8_t *levels, size_t levels_length)
{
    struct tableau t;
    struct drawn to = {.standard = standard, .leads = leads, .coefficients = coefficients};
    unsigned p = (unsigned)modulus, m = (unsigned)variables, n = 0;
    (void)states_length, (void)standard_length, (void)leads_length, (void)coefficients_length, (void)counts_length;
    unsigned refusal = gather_points(p, m, levels_length / variables, levels, states, counts, &n);
    if (refusal != 0)
        return refusal;
    tableau_begin(&t, p, m, (unsigned)order, weights, n, states);
    tableau_draw(&t, &to);
    return 256 * n + 65536 * to.r;
}

/* The rest is drawn up anew: nothing of the old basis serves. */
uint32_t plain_withdraw_point(uint64_t modulus, uint64_t variables, uint64_t order, uint64_t weights,
                              uint64_t n, uint64_t r,
                              uint8_t *states, size_t states_length, uint8_t *standard, size_t standard_length,
                              uint8_t *leads, size_t leads_length, uint8_t *coefficients, size_t coefficients_length,
                              uint8_t *counts, size_t counts_length, const uint8_t *levels, size_t levels_length)
{
    struct tableau t;
    struct redrawn old;
    struct drawn to = {.standard = standard, .leads = leads, .coefficients = coefficients};
    uint8_t point[8] = {0};
    unsigned p = (unsigned)modulus, left = (unsigned)n - 1;
    (void)states_length, (void)standard_length, (void)leads_length, (void)coefficients_length, (void)counts_length;
    if (!good_tables(&t, &old, modulus, variables, order, weights, n, r, states, standard, leads, coefficients, counts))
        return 10;
    for (size_t k = 0; k < levels_length; k++)
        point[k] = residue(p, levels[k]);
    unsigned place = place_of(states, (unsigned)n, point);
    if (place == n)
        return 12;
    if (counts[place] > 1) {
        counts[place]--;
        return 256 * (uint32_t)n + 65536 * (uint32_t)r;
    }
    memmove(counts + place, counts + place + 1, left - place);
    counts[left] = 0;
    memmove(states + 8 * place, states + 8 * place + 8, 8 * (left - place));
    memset(states + 8 * left, 0, 8);
    tableau_begin(&t, p, (unsigned)variables, (unsigned)order, weights, left, states);
    tableau_draw(&t, &to);
    return 256 * left + 65536 * to.r;
}

uint32_t plain_check(uint64_t modulus, uint64_t variables, uint64_t order, uint64_t weights,
                     uint64_t n, uint64_t r,
                     const uint8_t *states, size_t states_length,
                     const uint8_t *standard, size_t standard_length,
                     const uint8_t *leads, size_t leads_length,
                     const uint8_t *coefficients, size_t coefficients_length,
                     const uint8_t *counts, size_t counts_length)
{
    struct tableau t;
    struct redrawn to;
    (void)states_length, (void)standard_length, (void)leads_length, (void)coefficients_length, (void)counts_length;
    return good_tables(&t, &to, modulus, variables, order, weights, n, r, states, standard, leads, coefficients, counts) ? 0 : 10;
}

/* Powers of the residues: a^e for e from 1 to p - 1, after which they repeat. */
struct powers {
    uint16_t of[61][64];
};

static void make_powers(const struct tableau *t, struct powers *to)
{
    for (unsigned a = 0; a < 64; a++)
        to->of[1][a] = (uint16_t)a;
    for (unsigned e = 2; e < t->p; e++)
        for (unsigned a = 0; a < 64; a++)
            to->of[e][a] = reduce((uint16_t)(to->of[e - 1][a] * a), t->magic, (uint16_t)t->p);
}

/* Adds a term's values at the points, by slot. */
static void add_term(const struct tableau *t, const struct powers *powers, uint16_t coefficient,
                     const uint8_t *exponents, uint16_t *values)
{
    uint16_t term[MOST], p = (uint16_t)t->p, magic = t->magic;
    for (unsigned i = 0; i < MOST; i++)
        term[i] = coefficient;
    for (unsigned k = 0; k < t->m; k++) {
        uint16_t factor[MOST] = {0};
        if (exponents[k] == 0)
            continue;
        const uint16_t *power = powers->of[(exponents[k] - 1) % (p - 1) + 1];
        for (unsigned i = 0; i < t->n; i++)
            factor[i] = power[t->coordinate[k][i]];
        for (unsigned i = 0; i < MOST; i++)
            term[i] = reduce((uint16_t)(term[i] * factor[i]), magic, p);
    }
    for (unsigned i = 0; i < t->n; i++)
        values[i] = reduce((uint16_t)(values[i] + term[i]), magic, p);
}

uint32_t plain_remainder(uint64_t modulus, uint64_t variables, uint64_t order, uint64_t weights,
                         uint64_t n, uint64_t r,
                         const uint8_t *states, size_t states_length,
                         const uint8_t *standard, size_t standard_length,
                         const uint8_t *leads, size_t leads_length,
                         const uint8_t *coefficients, size_t coefficients_length,
                         const uint8_t *counts, size_t counts_length,
                         const uint8_t *term_coefficients, size_t term_coefficients_length,
                         const uint8_t *exponents, size_t exponents_length, uint8_t *out, size_t out_length)
{
    struct tableau t;
    struct redrawn to;
    struct powers powers;
    uint16_t values[MOST] = {0}, rest[MOST];
    unsigned p = (unsigned)modulus;
    (void)states_length, (void)standard_length, (void)leads_length, (void)coefficients_length, (void)counts_length;
    (void)exponents_length, (void)out_length;
    if (!good_tables(&t, &to, modulus, variables, order, weights, n, r, states, standard, leads, coefficients, counts))
        return 10;
    make_powers(&t, &powers);
    for (size_t i = 0; i < term_coefficients_length; i++)
        add_term(&t, &powers, residue(p, term_coefficients[i]), exponents + 8 * i, values);
    tableau_eliminate(&t, values, rest);
    memset(out, 0, 64);
    for (unsigned i = 0; i < n; i++)
        out[i] = (uint8_t)(rest[i] == 0 ? 0 : p - rest[i]);
    return 0;
}
