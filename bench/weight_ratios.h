/* The third table: what an order by weight costs. */
#ifndef WEIGHT_RATIOS_H
#define WEIGHT_RATIOS_H

#include "inputs.h"

/* Of an input in grlex the same points by the weights 1, which leave the same: how many results differ. */
int weight_compare(struct input *in);

/* The same, and each call's time by weight over that in grlex, one after the other in one run; then the medians. */
int weight_measure(struct input *in);
void weight_medians(void);

#endif
