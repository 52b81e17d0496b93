/* The sixth table: what a sheet as JSON costs, written and read. */
#ifndef JSON_RATIOS_H
#define JSON_RATIOS_H

#include "inputs.h"

/* Whether the archive writes the sheet of an input as plain C does, and both read the text back as the sheet: how often not. */
int json_compare(struct input *in);

/* The same, and the times of writing and of reading, less that of checking the same sheet, over those of plain C, which recognises
 * nothing; then the medians. */
int json_measure(struct input *in);
void json_medians(void);

#endif
