/* The calls that write tables, and checking, by docs/SCOPE.md: the refusals in their order, then the answer. */
#include "reference_handed.h"

#include <string.h>

uint32_t reference_write_out(struct basis *b, uint8_t *states, uint8_t *standard, uint8_t *leads, uint8_t *coefficients,
                             uint8_t *counts)
{
    reference_basis(b);
    memcpy(states, b->states, 512);
    memcpy(standard, b->standard, 512);
    memcpy(leads, b->leads, 3592);
    memcpy(coefficients, b->coefficients, 28736);
    memcpy(counts, b->counts, 64);
    return 256 * (uint32_t)b->n + 65536 * (uint32_t)b->r;
}

/* Refusals 3 to 10, and 15, of a call that is handed one point's levels; without one, b is the basis handed in and point has
 * the residues. */
static int point_refusal(const struct handed *h, const uint8_t *levels, size_t levels_length, struct basis *b,
                         uint8_t point[8])
{
    int refusal = reference_early_refusal(h, 0, 0);
    if (refusal != 0)
        return refusal;
    if (levels_length != h->variables)
        return 7;
    if (h->n > 64)
        return 8;
    if (!reference_all_in_range(h->modulus, levels, levels_length))
        return 9;
    if (reference_table_refusal(h, b) != 0)
        return 10;
    memset(point, 0, 8);
    for (int k = 0; k < b->m; k++)
        point[k] = reference_residue(b->p, (int8_t)levels[k]);
    return 0;
}

uint32_t reference_add_point(uint64_t modulus, uint64_t variables, uint64_t order, uint64_t weights,
                             uint64_t n, uint64_t r,
                             uint8_t *states, size_t states_length, uint8_t *standard, size_t standard_length,
                             uint8_t *leads, size_t leads_length, uint8_t *coefficients, size_t coefficients_length,
                             uint8_t *counts, size_t counts_length, const uint8_t *levels, size_t levels_length)
{
    HANDED(h);
    struct basis b;
    uint8_t point[8];
    int refusal = point_refusal(&h, levels, levels_length, &b, point);
    if (refusal != 0)
        return (uint32_t)refusal;
    int place = reference_place(b.states, b.n, point);
    if (place == 64)
        return 8;
    if (place < b.n && b.counts[place] == 255)
        return 13;
    if (place == b.n)
        memcpy(b.states + 8 * b.n++, point, 8);
    b.counts[place]++;
    return reference_write_out(&b, states, standard, leads, coefficients, counts);
}

uint32_t reference_withdraw_point(uint64_t modulus, uint64_t variables, uint64_t order, uint64_t weights,
                                  uint64_t n, uint64_t r,
                                  uint8_t *states, size_t states_length, uint8_t *standard, size_t standard_length,
                                  uint8_t *leads, size_t leads_length,
                                  uint8_t *coefficients, size_t coefficients_length,
                                  uint8_t *counts, size_t counts_length, const uint8_t *levels, size_t levels_length)
{
    HANDED(h);
    struct basis b;
    uint8_t point[8];
    int refusal = point_refusal(&h, levels, levels_length, &b, point);
    if (refusal != 0)
        return (uint32_t)refusal;
    int place = reference_place(b.states, b.n, point);
    if (place == b.n)
        return 12;
    if (--b.counts[place] == 0) {
        b.n--;
        for (int i = place; i < b.n; i++) {
            memcpy(b.states + 8 * i, b.states + 8 * i + 8, 8);
            b.counts[i] = b.counts[i + 1];
        }
        memset(b.states + 8 * b.n, 0, 8);
        b.counts[b.n] = 0;
    }
    return reference_write_out(&b, states, standard, leads, coefficients, counts);
}

/* The points of the levels, in the order in which each came first, and their counts, into b; or the refusal. */
static int gather(struct basis *b, const uint8_t *levels, size_t points)
{
    struct arrivals a = {.n = 0};
    for (size_t i = 0; i < points && a.n <= 64; i++) {
        uint8_t point[8] = {0};
        for (int k = 0; k < b->m; k++)
            point[k] = reference_residue(b->p, (int8_t)levels[(size_t)b->m * i + (size_t)k]);
        reference_arrive(&a, point, 1);
    }
    return a.n > 64 ? 8 : reference_take_arrivals(b, &a);
}

uint64_t reference_draw_up(uint64_t modulus, uint64_t variables, uint64_t order, uint64_t weights,
                           uint8_t *states, size_t states_length, uint8_t *standard, size_t standard_length,
                           uint8_t *leads, size_t leads_length, uint8_t *coefficients, size_t coefficients_length,
                           uint8_t *counts, size_t counts_length, const uint8_t *levels, size_t levels_length)
{
    uint64_t n = 0, r = 0;
    HANDED(h);
    struct basis b;
    int refusal = reference_early_refusal(&h, 0, 0);
    if (refusal != 0)
        return (uint64_t)refusal;
    if (levels_length % variables != 0)
        return 7;
    if (!reference_all_in_range(modulus, levels, levels_length))
        return 9;
    reference_take_settings(&h, &b);
    refusal = gather(&b, levels, levels_length / variables);
    if (refusal != 0)
        return (uint64_t)refusal;
    uint64_t answer = reference_write_out(&b, states, standard, leads, coefficients, counts);
    return answer + ((uint64_t)b.cancellations << 32);
}

/* What drawing up leaves and answers, without its cancellations: there is one definition of a basis. */
uint32_t reference_draw_up_packed(uint64_t modulus, uint64_t variables, uint64_t order, uint64_t weights,
                                  uint8_t *states, size_t states_length, uint8_t *standard, size_t standard_length,
                                  uint8_t *leads, size_t leads_length,
                                  uint8_t *coefficients, size_t coefficients_length,
                                  uint8_t *counts, size_t counts_length, const uint8_t *levels, size_t levels_length)
{
    if (modulus != 2)
        return 3;
    return (uint32_t)reference_draw_up(modulus, variables, order, weights, states, states_length, standard,
                                       standard_length, leads, leads_length, coefficients, coefficients_length, counts,
                                       counts_length, levels, levels_length);
}

uint32_t reference_check(uint64_t modulus, uint64_t variables, uint64_t order, uint64_t weights,
                         uint64_t n, uint64_t r,
                         const uint8_t *states, size_t states_length,
                         const uint8_t *standard, size_t standard_length,
                         const uint8_t *leads, size_t leads_length,
                         const uint8_t *coefficients, size_t coefficients_length,
                         const uint8_t *counts, size_t counts_length)
{
    HANDED(h);
    struct basis b;
    int refusal = reference_early_refusal(&h, 0, 0);
    if (refusal != 0)
        return (uint32_t)refusal;
    if (n > 64)
        return 8;
    return (uint32_t)reference_table_refusal(&h, &b);
}
