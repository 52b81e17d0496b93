/* Leaving a variable out, by docs/SCOPE.md: the refusals in their order, then the basis of the shortened points. */
#include "reference_handed.h"

#include <string.h>

/* The settings without variable k, from 1: its weight goes, and the later ones move down. */
static void take_settings_without(const struct basis *from, int k, struct basis *to)
{
    to->p = from->p;
    to->m = from->m - 1;
    to->order = from->order;
    memset(to->weights, 0, sizeof to->weights);
    for (int i = 0; i < to->m; i++)
        to->weights[i] = from->weights[i < k - 1 ? i : i + 1];
}

/* The points without their level of variable k: those that become equal are one, at the place of the first, and their counts
 * are added; or refusal 13. */
static int take_points_without(const struct basis *from, int k, struct basis *to)
{
    struct arrivals a = {.n = 0};
    for (int i = 0; i < from->n; i++) {
        uint8_t point[8] = {0};
        for (int j = 0; j < to->m; j++)
            point[j] = from->states[8 * i + (j < k - 1 ? j : j + 1)];
        reference_arrive(&a, point, from->counts[i]);
    }
    return reference_take_arrivals(to, &a);
}

uint32_t reference_leave_out(uint64_t modulus, uint64_t variables, uint64_t order, uint64_t weights,
                             uint64_t n, uint64_t r,
                             const uint8_t *states, size_t states_length,
                             const uint8_t *standard, size_t standard_length,
                             const uint8_t *leads, size_t leads_length,
                             const uint8_t *coefficients, size_t coefficients_length,
                             const uint8_t *counts, size_t counts_length, uint64_t variable,
                             uint8_t *new_states, size_t new_states_length,
                             uint8_t *new_standard, size_t new_standard_length,
                             uint8_t *new_leads, size_t new_leads_length,
                             uint8_t *new_coefficients, size_t new_coefficients_length,
                             uint8_t *new_counts, size_t new_counts_length)
{
    HANDED(h);
    const size_t new_length[5] = {new_states_length, new_standard_length, new_leads_length, new_coefficients_length,
                                  new_counts_length};
    struct basis b, left;
    int refusal = reference_settings_refusal(modulus, variables, order, weights);
    if (refusal != 0)
        return (uint32_t)refusal;
    if (variable < 1 || variable > variables || variables == 1)
        return 16;
    if (reference_too_short(h.length) || reference_too_short(new_length))
        return 6;
    if (n > 64)
        return 8;
    if (reference_table_refusal(&h, &b) != 0)
        return 10;
    take_settings_without(&b, (int)variable, &left);
    if (take_points_without(&b, (int)variable, &left) != 0)
        return 13;
    return reference_write_out(&left, new_states, new_standard, new_leads, new_coefficients, new_counts);
}
