/* A small generator of numbers, the same on every machine (splitmix64). */
#ifndef CHANCE_H
#define CHANCE_H

#include <stdint.h>

struct chance {
    uint64_t state;
};

static inline uint64_t any_number(struct chance *c)
{
    uint64_t z = c->state += 0x9e3779b97f4a7c15u;
    z = (z ^ z >> 30) * 0xbf58476d1ce4e5b9u;
    z = (z ^ z >> 27) * 0x94d049bb133111ebu;
    return z ^ z >> 31;
}

/* A number from 0 to limit - 1. */
static inline uint64_t below(struct chance *c, uint64_t limit)
{
    return any_number(c) % limit;
}

/* True once in so many times. */
static inline int once_in(struct chance *c, uint64_t times)
{
    return below(c, times) == 0;
}

#endif
