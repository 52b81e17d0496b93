/* Scripts that have a published algebra package draw up the benchmark's inputs. */
#ifndef SCRIPTS_H
#define SCRIPTS_H

#include "inputs.h"

/* What a package is told before all inputs, and for each. Each input has it print a line: the package,
 * p, m, the order, n, r and the microseconds of one run. */
void singular_begin(void);
void singular_input(const struct input *in);
void macaulay2_begin(void);
void macaulay2_input(const struct input *in);

#endif
