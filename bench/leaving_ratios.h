/* The fourth table: what leaving a gene out costs. */
#ifndef LEAVING_RATIOS_H
#define LEAVING_RATIOS_H

#include "inputs.h"

/* Whether the first and the last gene of an input left out leave what drawing up the shortened points leaves: how often not. */
int leaving_compare(struct input *in);

/* The same, and the time of each over that of drawing up the points with all genes, in turns in one run; then the medians. */
int leaving_measure(struct input *in);
void leaving_medians(void);

#endif
