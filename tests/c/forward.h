/* Time courses as records, their text, and what is to hold of a call's answer, from the bytes it left alone: the reference has no
 * part in it. */
#ifndef FORWARD_H
#define FORWARD_H

#include "made.h"

/* More records than any text has room for. */
#define MOST_TIMES 4100

struct timed {
    uint8_t state[8];
    int course;
};

struct times {
    int p, m;
    uint64_t order, weights;
    size_t count;
    struct timed at[MOST_TIMES];
};

/* One record more; gives its number in the text, the header being 1. */
uint64_t put_timed(struct times *t, const uint8_t *state, int course);

/* The text of the records, with levels in either sign and numbers of one to three digits, as a call that names a course. */
void times_call(struct made *made, const struct times *t, uint64_t course);

/* The value of a monomial at a state. */
unsigned monomial_value(uint64_t p, const uint8_t *exponents, const uint8_t *state);

/* The state after one step of the model. */
void forward(const struct misqafur_course *c, const uint8_t state[8], uint8_t next[8]);

/* Whether c is what a text is to leave that is taken: the settings; the states with a successor and their counts; the sheet that
 * drawing up makes of them; the interpolants of their successors; for every course the model applied k times to the first state is
 * record k+1; and the run of the course named ends as c says, and repeats from there. If not, it says on standard error what. */
int course_holds(const struct times *t, uint64_t course, const struct misqafur_course *c);

#endif
