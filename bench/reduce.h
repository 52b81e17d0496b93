/* Residues without division. */
#ifndef REDUCE_H
#define REDUCE_H

#include <stdint.h>

/* Products of residues that an entry below p can gain and still fit 16 bits. */
static inline unsigned room_for_products(unsigned p)
{
    return (65535 - (p - 1)) / ((p - 1) * (p - 1));
}

static inline uint16_t magic_of(unsigned p)
{
    return (uint16_t)(65536 / p);
}

/* x modulo p, for any 16-bit x: x * magic / 65536 is x / p or one less. */
static inline uint16_t reduce(uint16_t x, uint16_t magic, uint16_t p)
{
    uint16_t quotient = (uint16_t)((uint32_t)x * magic >> 16);
    int16_t rest = (int16_t)(x - quotient * p - p);
    return (uint16_t)(rest + (p & (rest >> 15)));
}

/* Inverses of the residues 1 to p - 1. */
static inline void make_inverses(unsigned p, uint16_t inverse[64])
{
    inverse[1] = 1;
    for (unsigned a = 2; a < p; a++)
        inverse[a] = (uint16_t)((p - p / a) * inverse[p % a] % p);
}

#endif
