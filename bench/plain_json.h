/* A sheet's text as JSON written and read in plain C, without recognising the sheet: the measure for what writing and reading cost
 * beside that. */
#ifndef PLAIN_JSON_H
#define PLAIN_JSON_H

#include "inputs.h"

/* What a text says: settings, n and r with the tables, and weights. */
struct json_read {
    uint64_t p, m, order;
    struct lent lent;
    uint8_t weights[MISQAFUR_WEIGHTS_SIZE];
};

/* Writes the text of an input's whole sheet; gives its length. */
size_t plain_write_json(const struct input *in, uint8_t *out);

/* Reads a text of that form, and only such: 0, or 19, and then nothing has changed. A list that has no room makes it 19 too. */
int plain_read_json(const uint8_t *text, size_t length, struct json_read *to);

#endif
