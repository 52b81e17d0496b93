/* What tests of sheets as JSON have in common. */
#ifndef MADE_JSON_H
#define MADE_JSON_H

#include "made.h"
#include "reference_json.h"

/* A document of the form of a sheet, whose numbers are random and below the limit, but for these and for weights from 1 to 99. */
struct shape {
    int modulus, order;
    size_t variables, n, r;
    uint64_t limit;
};

void put_shape(struct document *d, struct chance *c, const struct shape *shape);

/* A document's text becomes that of the call. */
void put_document(struct made *made, const struct document *d);

/* A call that reads the text of a random sheet. */
void put_sheet_text(struct made *made);

/* Changes, inserts or removes a byte of the text. */
void mistype_json(struct made *made);

#endif
