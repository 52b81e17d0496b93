/* What texts with a set of faults have in common. */
#ifndef FAULTY_TEXT_H
#define FAULTY_TEXT_H

#include "made.h"

/* A call of this kind with an empty text, and buffers of their sizes and some bytes more, unless one is too short as fault 6. */
void lend_faulty(struct made *made, enum kind kind, uint32_t faults, uint32_t variant);

/* At the text's end a word; a number. */
void put_word(struct made *made, const char *word);
void put_number(struct made *made, int number);

/* The header of m names, with its faults. */
void put_faulty_header(struct made *made, int m, uint32_t faults, uint32_t variant);

/* A level of point i of a grid of 11 by 11, or the negative one of the same residue. */
int grid_level(int i, int k, int negative);

/* What breaks the rules at the end of a record or of the header; the last of these is a blank record behind it. */
extern const char *const breaks[10];

/* Long enough to be refused with 1. */
void put_too_much(struct made *made);

#endif
