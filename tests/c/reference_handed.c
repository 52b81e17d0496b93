/* The refusals that several of the calls over tables have. */
#include "reference_handed.h"

#include <string.h>

static const size_t sizes[5] = {512, 512, 3592, 28736, 64};

/* Gene k has its weight in byte k - 1. */
static int weight_of(uint64_t weights, int k)
{
    return (int)(weights >> 8 * (k - 1) & 255);
}

/* Order 3 has a weight from 1 to 99 for each gene; no other order has one, and no gene behind the last. */
static int weights_are_good(int m, int order, uint64_t weights)
{
    for (int k = 1; k <= 8; k++) {
        int weight = weight_of(weights, k), weighed = order == 3 && k <= m;
        if (weighed ? weight < 1 || weight > 99 : weight != 0)
            return 0;
    }
    return 1;
}

int reference_settings_refusal(uint64_t modulus, uint64_t variables, uint64_t order, uint64_t weights)
{
    static const uint64_t primes[18] = {2, 3, 5, 7, 11, 13, 17, 19, 23, 29, 31, 37, 41, 43, 47, 53, 59, 61};
    int known = 0;
    for (int i = 0; i < 18; i++)
        known |= modulus == primes[i];
    if (!known)
        return 3;
    if (variables < 1 || variables > 8)
        return 4;
    if (order > 3)
        return 5;
    return weights_are_good((int)variables, (int)order, weights) ? 0 : 15;
}

int reference_in_range(int p, int level)
{
    return -(p - 1) <= level && level <= p - 1;
}

uint8_t reference_residue(int p, int level)
{
    return (uint8_t)(level < 0 ? level + p : level);
}

int reference_all_in_range(uint64_t p, const uint8_t *levels, size_t count)
{
    for (size_t i = 0; i < count; i++)
        if (!reference_in_range((int)p, (int8_t)levels[i]))
            return 0;
    return 1;
}

int reference_too_short(const size_t length[5])
{
    for (int t = 0; t < 5; t++)
        if (length[t] < sizes[t])
            return 1;
    return 0;
}

int reference_early_refusal(const struct handed *h, size_t out_length, size_t out_size)
{
    int refusal = reference_settings_refusal(h->modulus, h->variables, h->order, h->weights);
    if (refusal != 0)
        return refusal;
    return reference_too_short(h->length) || out_length < out_size ? 6 : 0;
}

int reference_place(const uint8_t *points, int n, const uint8_t point[8])
{
    int place = 0;
    while (place < n && memcmp(points + 8 * place, point, 8) != 0)
        place++;
    return place;
}

int reference_arrive(struct arrivals *a, const uint8_t point[8], uint64_t times)
{
    int place = reference_place(a->points[0], a->n, point);
    if (place == a->n) {
        memcpy(a->points[a->n++], point, 8);
        a->times[place] = 0;
    }
    a->times[place] += times;
    return place;
}

int reference_take_arrivals(struct basis *b, const struct arrivals *a)
{
    b->n = a->n;
    memset(b->states, 0, sizeof b->states);
    memset(b->counts, 0, sizeof b->counts);
    memcpy(b->states, a->points, 8 * (size_t)a->n);
    for (int i = 0; i < a->n; i++) {
        if (a->times[i] > 255)
            return 13;
        b->counts[i] = (uint8_t)a->times[i];
    }
    return 0;
}

static int points_are_good(const uint8_t *states, int p, int m, int n)
{
    for (int i = 0; i < 8 * n; i++)
        if (states[i] > (i % 8 < m ? p - 1 : 0))
            return 0;
    for (int i = 0; i < n; i++)
        if (reference_place(states, n, states + 8 * i) != i)
            return 0;
    return 1;
}

/* A count for each point, and 0 behind them. */
static int counts_are_good(const uint8_t counts[64], int n)
{
    for (int i = 0; i < 64; i++)
        if ((counts[i] > 0) != (i < n))
            return 0;
    return 1;
}

void reference_take_settings(const struct handed *h, struct basis *b)
{
    b->p = (int)h->modulus;
    b->m = (int)h->variables;
    b->order = (int)h->order;
    for (int k = 1; k <= 8; k++)
        b->weights[k - 1] = weight_of(h->weights, k);
}

int reference_table_refusal(const struct handed *h, struct basis *b)
{
    reference_take_settings(h, b);
    b->n = (int)h->n;
    memset(b->states, 0, sizeof b->states);
    memcpy(b->states, h->table[0], 8 * (size_t)b->n);
    memcpy(b->counts, h->table[4], 64);
    if (!points_are_good(b->states, b->p, b->m, b->n) || !counts_are_good(b->counts, b->n))
        return 10;
    reference_basis(b);
    if (h->r != (uint64_t)b->r)
        return 10;
    const uint8_t *expected[4] = {b->states, b->standard, b->leads, b->coefficients};
    for (int t = 0; t < 4; t++)
        if (memcmp(h->table[t], expected[t], sizes[t]) != 0)
            return 10;
    return 0;
}
