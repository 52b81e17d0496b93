/* Random numbers, and settings made of them. */
#ifndef SETTINGS_H
#define SETTINGS_H

#include "misqafur.h"

static uint64_t state = 1;

static uint32_t below(uint32_t bound)
{
    state ^= state << 13;
    state ^= state >> 7;
    state ^= state << 17;
    return (uint32_t)((state >> 32) % bound);
}

static uint32_t rarely(void)
{
    return below(12) == 0;
}

/* Weights for m variables, packed; now and then one is wrong, or one is missing or too many. */
static uint64_t make_weights(uint64_t m, uint32_t *wrong)
{
    uint8_t weights[MISQAFUR_WEIGHTS_SIZE];
    uint32_t k, count = (uint32_t)m;
    for (k = 0; k < MISQAFUR_WEIGHTS_SIZE; k++)
        weights[k] = misqafur_weight(1 + (int)below(99));
    *wrong = rarely();
    if (*wrong != 0 && below(2) == 0)
        weights[below(count)] = misqafur_weight(below(2) == 0 ? 0 : 100 + (int)below(300));
    else if (*wrong != 0)
        count += below(2) == 0 ? 1 : UINT32_MAX;
    return misqafur_pack_weights(weights, count);
}

/* Settings that are taken or not; gives the refusal. */
static uint32_t make_settings(uint64_t *p, uint64_t *m, uint64_t *order, uint64_t *weights)
{
    static const uint64_t primes[] = {2, 2, 3, 5, 7, 61, 4, 0};
    uint32_t wrong = 0;
    *p = primes[below(8)];
    *m = *p == 2 && below(3) == 0 ? 7 + below(2) : below(10);
    *order = below(5);
    *weights = rarely();
    if (*p == 4 || *p == 0)
        return 3;
    if (*m < 1 || *m > 8)
        return 4;
    if (*order > MISQAFUR_WEIGHT)
        return 5;
    if (*order == MISQAFUR_WEIGHT)
        *weights = make_weights(*m, &wrong);
    else
        wrong = *weights != 0;
    return wrong != 0 ? 15 : 0;
}

#endif
