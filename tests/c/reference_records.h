/* A text taken apart: what the reference's two calls that read one share. */
#ifndef REFERENCE_RECORDS_H
#define REFERENCE_RECORDS_H

#include "reference_header.h"

#define MOST_TEXT 16384

/* A field's content stands in text order at bytes[start .. start + length). */
struct field {
    size_t start, length;
};

struct records {
    uint8_t bytes[MOST_TEXT];
    size_t used;
    struct field fields[MOST_TEXT + 1];
    size_t field_count;
    size_t first_field[MOST_TEXT + 2]; /* of each record; one more stands at the end */
    size_t count;                      /* records without a fault in them, from the first on */
    int broken;                        /* whether the record after these has a fault */
};

/* The records of a text that is not too long, on the heap: the caller frees them. */
struct records *reference_records(const uint8_t *text, size_t length);

/* An optional minus sign and one to three digits: whether a field is that, and its number. */
int reference_read_level(const struct records *from, size_t field, int *level);

/* The record with refusal 2, or 0; then the settings. Every record but the header has as many levels as the header has fields,
 * and is good, those before being so; NULL asks for no more. */
size_t reference_fault_of_form(const struct records *from, struct header *header,
                               int (*good)(const struct records *, size_t record));

/* The residues of a record's first m levels; whether all are in range. */
int reference_read_point(const struct records *from, size_t record, int p, int m, uint8_t point[8]);

/* The number of a text that is refused. */
uint64_t reference_refused(uint64_t refusal, uint64_t record);

#endif
