/* Inputs for drawing up modulo 2, the same in every run. */
#ifndef PACKED_INPUTS_H
#define PACKED_INPUTS_H

#include "misqafur.h"

/* RANDOM: distinct random states. CUBE: the states whose numbers are below n, each turned over in the same random genes, in a
 * random order: of 2^k states the face of a cube. NETWORK: states as they follow each other in a random Boolean network, each
 * gene a function of two others, from a random state on until one comes again, and then from another. */
enum shape { RANDOM, CUBE, NETWORK, SHAPES };

extern const char *const shape_names[SHAPES];

struct boolean_input {
    uint64_t m, order, n;
    uint8_t levels[512];
};

/* Input `index` of its kind; 2^m has to be at least n. */
void boolean_input_make(struct boolean_input *input, enum shape shape, uint64_t m, uint64_t order, uint64_t n, uint64_t index);

#endif
