/* The fifth table: what running a time course forward costs. */
#ifndef COURSE_RATIOS_H
#define COURSE_RATIOS_H

#include "inputs.h"

/* Whether a time course through the points of an input leaves what reading them, drawing them up and an interpolation for each
 * gene leave, and its runs end as plain C says: how often not. */
int course_compare(struct input *in);

/* The same, and the time over that of these calls and the run in plain C; and of a step over that of plain C by the same rule; then
 * the medians. */
int course_measure(struct input *in);
void course_medians(void);

#endif
