/* A step and a run of a time course's model in plain C, by the archive's rule: every product of residues is worked out by
 * doubling and adding, and no number is greater than 121. */
#ifndef PLAIN_COURSE_H
#define PLAIN_COURSE_H

#include "inputs.h"

/* What a time course leaves: the sheet, the interpolants and the weights; and its number. */
struct course_left {
    uint64_t number;
    struct lent lent;
    uint8_t interpolants[MISQAFUR_INTERPOLANTS_SIZE], weights[MISQAFUR_WEIGHTS_SIZE];
};

/* How the run from a state ended: as the call answers it, and how many steps were made. */
struct run_end {
    unsigned step, back, made;
};

/* The run from a state, 256 steps at most, of the model of m genes over n standard monomials. */
struct run_end plain_run(unsigned p, unsigned m, unsigned n, const struct course_left *model, const uint8_t start[8]);

#endif
