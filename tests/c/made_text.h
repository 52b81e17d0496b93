/* What random texts for the reader and of time courses have in common. */
#ifndef MADE_TEXT_H
#define MADE_TEXT_H

#include "made.h"

/* A call of this kind with an empty text, and buffers of mostly enough bytes. */
void lend_for_text(struct made *made, enum kind kind);

/* Bytes at the text's end, as long as there is room. */
void put_bytes(struct made *made, const char *bytes, size_t length);

/* A field, now and then in quotes. */
void put_field(struct made *made, const char *content);

void put_break(struct made *made);

/* The header of so many names; now and then another modulus. */
void put_header(struct made *made, size_t m, int p);

/* A level with this residue; once in so many times one out of range. */
void put_level(struct made *made, int p, uint8_t residue, uint64_t times);

/* Changes, inserts or removes one byte; to one of those that matter in a text of records, or of these. */
void mistype(struct made *made);
void mistype_by(struct made *made, const char *bytes, size_t count);

#endif
