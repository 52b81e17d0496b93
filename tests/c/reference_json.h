/* A sheet's text as JSON in the reference: the nine members as lists of numbers, and the one text that they have. */
#ifndef REFERENCE_JSON_H
#define REFERENCE_JSON_H

#include "reference.h"

#define JSON_MEMBERS 9

/* A member: numbers in rows. A list is one row, and a number a row of one. */
struct member {
    size_t rows, *ends; /* where each row ends among the numbers */
    size_t count;
    int *numbers;
};

enum { COEFFICIENTS_MEMBER, COUNTS_MEMBER, LEADS_MEMBER, MODULUS_MEMBER, ORDER_MEMBER, POINTS_MEMBER, STANDARD_MEMBER,
       VARIABLES_MEMBER, WEIGHTS_MEMBER };

struct document {
    struct member member[JSON_MEMBERS];
};

/* The document of a text, which has at most 131,072 bytes: 0, or 19 for a text that has none. */
int reference_document(const uint8_t *text, size_t length, struct document *d);

/* A document whose members are empty, with room in each for so many rows and numbers: each of them is a byte of a text, at least. To be
 * freed. */
struct document *reference_new_document(size_t room);

/* Writes the members' text behind each other, at most so many bytes of it; gives how many it has in all. */
size_t reference_written(const struct document *d, char *to, size_t room);

#endif
