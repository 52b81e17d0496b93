/* The calls of one archive, each made over and over on one input. */
#ifndef SIDE_H
#define SIDE_H

#include "../inputs.h"

struct task {
    struct input in;
    uint8_t values[MISQAFUR_RESIDUES_SIZE]; /* one for each point */
    size_t text_length;
    uint8_t text[16384]; /* the points and values as comma-separated text */
};

/* What a call leaves. */
struct left {
    uint64_t answer;
    struct lent lent;
    uint8_t out[MISQAFUR_RESIDUES_SIZE], weights[MISQAFUR_WEIGHTS_SIZE]; /* the weights of a text are 0 here */
};

#define CALLS 8

/* Makes one call so many times. */
typedef void repeated(const struct task *task, struct left *left, unsigned times);

/* The archive of before and the one of now: drawing up, adding, withdrawing, checking, interpolating, remainder, wiring,
 * reading a text. */
extern repeated *const old_side[CALLS], *const new_side[CALLS];

#endif
