/* Sets of states, and the ways in which a sheet of one is reached. */
#ifndef NAMES_H
#define NAMES_H

#include "forward.h"

/* States under settings, each once, 8 bytes a state; and how many there are in all. */
struct set {
    int p, m;
    uint64_t order, weights;
    size_t n, states_in_all;
    uint8_t states[8 * MISQAFUR_MAX_POINTS];
};

/* Settings with room for few enough states to look at each of them; no state is in the set yet. */
void random_settings(struct chance *c, struct set *set);

/* The state with this number, from 0 to states_in_all - 1. */
void state_of(const struct set *set, size_t code, uint8_t state[8]);

int is_among(const uint8_t *states, size_t n, const uint8_t state[8]);

/* A state that is not in the set, if there is one. */
int other_state(struct chance *c, const struct set *set, uint8_t state[8]);

/* The same states in another order. */
void shuffle_set(struct chance *c, struct set *set);

enum way { DRAWN, PACKED, ADDED, WITHDRAWN, LEFT_OUT, TIMED, WAYS };

/* What the ways work with: chance, the text of a time course, and how often each was taken. */
struct reaching {
    struct made made;
    struct times times;
    long ways[WAYS];
};

/* The sheet of a set, in some way that leads to it, and one of its states again now and then; gives the refusal. */
uint32_t reach(struct reaching *w, const struct set *set, struct misqafur_sheet *s);

#endif
