/* The calls once more, written in plain C from docs/SCOPE.md and the readings taken of its open points, to
 * compare the archive with.
 * Each has the type of the exported call of the same name. */
#ifndef REFERENCE_H
#define REFERENCE_H

#include "misqafur.h"

__typeof__(misqafur_add_point) reference_add_point;
__typeof__(misqafur_withdraw_point) reference_withdraw_point;
__typeof__(misqafur_draw_up) reference_draw_up;
__typeof__(misqafur_draw_up_packed) reference_draw_up_packed;
__typeof__(misqafur_check) reference_check;
__typeof__(misqafur_interpolate) reference_interpolate;
__typeof__(misqafur_remainder) reference_remainder;
__typeof__(misqafur_wiring) reference_wiring;
__typeof__(misqafur_leave_out) reference_leave_out;
__typeof__(misqafur_read_text) reference_read_text;
__typeof__(misqafur_time_course) reference_time_course;
__typeof__(misqafur_write_json) reference_write_json;
__typeof__(misqafur_read_json) reference_read_json;

/* What the files of the reference share. */

/* The basis of some points and their counts, with the inverse of the matrix that evaluates standard monomials at
 * the points. */
struct basis {
    int p, m, order, weights[8], n, r, cancellations;
    uint8_t states[512], standard[512], leads[3592], coefficients[28736], counts[64];
    int inverse[64][64]; /* row: standard monomial; column: point */
};

/* The basis by the definitions, of b->n distinct points in b->states, under b's settings; the counts stay. */
void reference_basis(struct basis *b);

/* The coefficients over the standard monomials of the combination with these values at the points. */
void reference_solve(const struct basis *b, const int values[64], uint8_t coefficients[64]);

/* The value of x1^e1 ... x8^e8 at a point; 0 to the power 0 is 1. */
int reference_value(int p, const uint8_t *exponents, const uint8_t *point);

/* 3, 4, 5, 15 or 0. */
int reference_settings_refusal(uint64_t modulus, uint64_t variables, uint64_t order, uint64_t weights);

/* Points as they come, one after the other: the distinct ones, and how often each came. There is room for the 65th. */
struct arrivals {
    int n;
    uint8_t points[65][8];
    uint64_t times[65];
};

/* The place of a point among the first n of a table; n if it is not there. */
int reference_place(const uint8_t *points, int n, const uint8_t point[8]);

/* A point that comes so many times; gives its place. */
int reference_arrive(struct arrivals *a, const uint8_t point[8], uint64_t times);

/* Whether a number is from -(p-1) to p-1, and its residue. */
int reference_in_range(int p, int level);
uint8_t reference_residue(int p, int level);

#endif
