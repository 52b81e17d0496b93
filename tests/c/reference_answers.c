/* Interpolants, remainders and wiring lists, by docs/SCOPE.md: the refusals in their order, then the answer. */
#include "reference_handed.h"

#include <string.h>

/* The residues of the values, and b; or the refusal, out_size being that of the caller's answer. */
static int values_refusal(const struct handed *h, struct basis *b, const uint8_t *values, size_t values_length,
                          size_t out_length, size_t out_size, int residues[64])
{
    int refusal = reference_early_refusal(h, out_length, out_size);
    if (refusal != 0)
        return refusal;
    if (values_length != h->n)
        return 7;
    if (h->n > 64)
        return 8;
    if (!reference_all_in_range(h->modulus, values, values_length))
        return 9;
    if (reference_table_refusal(h, b) != 0)
        return 10;
    for (int q = 0; q < b->n; q++)
        residues[q] = reference_residue(b->p, (int8_t)values[q]);
    return 0;
}

uint32_t reference_interpolate(uint64_t modulus, uint64_t variables, uint64_t order, uint64_t weights,
                               uint64_t n, uint64_t r,
                               const uint8_t *states, size_t states_length,
                               const uint8_t *standard, size_t standard_length,
                               const uint8_t *leads, size_t leads_length,
                               const uint8_t *coefficients, size_t coefficients_length,
                               const uint8_t *counts, size_t counts_length,
                               const uint8_t *values, size_t values_length, uint8_t *out, size_t out_length)
{
    HANDED(h);
    struct basis b;
    int residues[64] = {0};
    int refusal = values_refusal(&h, &b, values, values_length, out_length, 64, residues);
    if (refusal == 0)
        reference_solve(&b, residues, out);
    return (uint32_t)refusal;
}

/* The place of the only byte in which two points differ; 8 if they differ in more. */
static int only_difference(const uint8_t *a, const uint8_t *b)
{
    int place = 8, count = 0;
    for (int k = 0; k < 8; k++)
        if (a[k] != b[k]) {
            place = k;
            count++;
        }
    return count == 1 ? place : 8;
}

/* A variable is listed if two points differ in it alone and have different values; in increasing order. */
uint32_t reference_wiring(uint64_t modulus, uint64_t variables, uint64_t order, uint64_t weights,
                          uint64_t n, uint64_t r,
                          const uint8_t *states, size_t states_length,
                          const uint8_t *standard, size_t standard_length,
                          const uint8_t *leads, size_t leads_length,
                          const uint8_t *coefficients, size_t coefficients_length,
                          const uint8_t *counts, size_t counts_length,
                          const uint8_t *values, size_t values_length, uint8_t *out, size_t out_length)
{
    HANDED(h);
    struct basis b;
    int residues[64] = {0}, listed[9] = {0};
    uint32_t count = 0;
    int refusal = values_refusal(&h, &b, values, values_length, out_length, 8, residues);
    if (refusal != 0)
        return (uint32_t)refusal;
    for (int q = 0; q < b.n; q++)
        for (int s = 0; s < q; s++)
            if (residues[q] != residues[s])
                listed[only_difference(b.states + 8 * q, b.states + 8 * s)] = 1;
    memset(out, 0, 8);
    for (int k = 0; k < b.m; k++)
        if (listed[k])
            out[count++] = (uint8_t)(k + 1);
    return 256 * count;
}

/* Whether every coefficient is in range and every exponent above the m-th is 0. */
static int terms_are_good(uint64_t p, uint64_t m, const uint8_t *coefficients, const uint8_t *exponents, size_t count)
{
    for (size_t i = 0; i < 8 * count; i++)
        if (i % 8 >= m && exponents[i] != 0)
            return 0;
    return reference_all_in_range(p, coefficients, count);
}

uint32_t reference_remainder(uint64_t modulus, uint64_t variables, uint64_t order, uint64_t weights,
                             uint64_t n, uint64_t r,
                             const uint8_t *states, size_t states_length,
                             const uint8_t *standard, size_t standard_length,
                             const uint8_t *leads, size_t leads_length,
                             const uint8_t *coefficients, size_t coefficients_length,
                             const uint8_t *counts, size_t counts_length,
                             const uint8_t *term_coefficients, size_t term_coefficients_length,
                             const uint8_t *exponents, size_t exponents_length, uint8_t *out, size_t out_length)
{
    HANDED(h);
    struct basis b;
    int values[64] = {0};
    size_t count = term_coefficients_length;
    int refusal = reference_early_refusal(&h, out_length, 64);
    if (refusal != 0)
        return (uint32_t)refusal;
    if (exponents_length % 8 != 0 || exponents_length / 8 != count)
        return 7;
    if (n > 64 || count > 256)
        return 8;
    if (!terms_are_good(modulus, variables, term_coefficients, exponents, count))
        return 9;
    if (reference_table_refusal(&h, &b) != 0)
        return 10;
    for (int q = 0; q < b.n; q++)
        for (size_t i = 0; i < count; i++)
            values[q] += reference_residue(b.p, (int8_t)term_coefficients[i]) *
                         reference_value(b.p, exponents + 8 * i, b.states + 8 * q);
    for (int q = 0; q < b.n; q++)
        values[q] %= b.p;
    reference_solve(&b, values, out);
    return 0;
}
