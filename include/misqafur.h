/* misqafur.h: the calls of libmisqafur.a and libmisqafur.so, for hosts in C (C99 or later) and C++ (C++11
 * or later) on x86-64 Linux.
 *
 * From up to 64 points whose coordinates are residues modulo a prime p, the library works out the
 * standard monomials and the reduced Groebner basis of the ideal of all polynomials that vanish at
 * the points; and over them interpolants, remainders and wiring lists. From records of states over time it makes the model
 * that takes each state to its successor, and runs it forward. A basis it writes as canonical JSON, to be archived and compared,
 * and reads it back.
 *
 * Settings, in every call but those that read a text, any 64-bit numbers:
 *   modulus    p, one of 2 3 5 7 11 13 17 19 23 29 31 37 41 43 47 53 59 61
 *   variables  m, 1 to 8
 *   order      0 lex, 1 grlex, 2 grevlex, 3 by weight; in the first three x1 is the greatest variable, xm the smallest
 *   weights    with order 3 one for each variable, 1 to 99, as one number, w1 + 256 w2 + 65536 w3 and so on; with any
 *              other order 0. misqafur_pack_weights makes the number of bytes
 * By weight, the monomial with the larger sum of weight times exponent is greater, between equal sums by lex: a variable
 * with a large weight is used last. With all weights 1 that is grlex.
 *
 * Levels, values and the coefficients of a polynomial are signed bytes from -(p-1) to p-1, handed
 * in as plain bytes of the same bits: 255 is -1. A negative one has p added, any other is kept.
 *
 * A basis is two numbers, n distinct points and r elements, and five tables that the host lends:
 *   states        512 bytes: point i has bytes 8i to 8i+7, its residues, in order of arrival
 *   standard      512 bytes: n standard monomials, 8 exponents each, increasing in the order
 *   leads         3,592 bytes: r leading monomials, 8 exponents each, increasing
 *   coefficients  28,736 bytes: those of element i begin at byte 64i, one residue for each standard
 *                 monomial in table order; element i is its leading monomial plus their combination
 *   counts        64 bytes: byte i is how many times point i was taken, 1 to 255
 * Of the 8 bytes of a point or a monomial the first belongs to x1, the second to x2 and so on to xm;
 * bytes m to 7 are 0. Every other byte of these sizes is 0 too. The basis of no points has n = 0,
 * r = 1 and five tables of zeros: its one element is the monomial 1.
 *
 * Replicates. Three pots in the same state are ordinary: the state is one point, and its count is 3.
 * Points are compared by residues, so modulo 5 the levels 4 and -1 are the same point. Adding a point
 * that is there raises its count and changes nothing else; withdrawing it lowers the count, and at 0 the
 * point goes. Drawing up takes the pots as they come, in any order, and counts. With p = 5 and one
 * gene, pots of the levels 4, 0 and -1 give n = 2, the states 4 0 and the counts 2 1: two states, of
 * which the first was seen in two pots. n, r and the other tables are those of the distinct points,
 * however often each was seen; an interpolant or a wiring list takes one value for each of them.
 *
 * Lent memory. Each buffer is a pointer and its length in bytes; with length 0 the pointer may be
 * NULL. A table or answer buffer may be longer than its size: no byte past the size is read or
 * written. Levels, values, terms and text are read where their length is not refused, and else not at
 * all. No byte that a call may write may be lent to it twice; buffers that are only read may overlap.
 *
 * Refusals. A call that succeeds answers refusal 0 with its numbers. Otherwise it answers the first
 * of these that holds, in this order, but that 19 is looked for directly after 1, 15 and then 16 directly after 5, 17 directly
 * after 9, and 8 for points directly before 13; and no lent byte has changed. The number comes alone, all else in the answer
 * being 0; only misqafur_read_text and misqafur_time_course add the record at fault:
 *    1  the text is longer than 16,384 bytes, or as JSON than 131,072
 *    2  the text breaks the rules, or a record's field count differs from the header's; in a time course also: a course
 *       number is not 1 to 99, or returns after another
 *    3  the modulus is not one of the 18, or in misqafur_draw_up_packed not 2
 *    4  the number of variables is not 1 to 8
 *    5  the order is not 0, 1, 2 or 3
 *    6  a lent table or answer buffer is shorter than its size
 *    7  a length is wrong
 *    8  an n above 64, or more than 256 terms; directly before 13: more than 64 distinct points
 *    9  a level, value or coefficient is outside -(p-1) to p-1, or a variable above m has an
 *       exponent that is not 0
 *   10  n, r and the tables are not the basis of their points under these settings; counts that are
 *       not 1 to 255 for each point, or not 0 behind them, are none either
 *   11  given by no call: a point that equals an earlier one is a replicate
 *   12  a point that is to be withdrawn is not there (compared by residues)
 *   13  a point would be counted more than 255 times
 *   14  in a text, a replicate has another value than its point has (compared by residues)
 *   15  with order 3 a variable's weight is not 1 to 99, or a byte of the weights behind the m-th is not 0; with
 *       another order the weights are not 0
 *   16  the variable that is to be left out is not 1 to m, or m is 1
 *   17  in a time course, a state stands with two different successors (compared by residues)
 *   18  the time course that is to be run is not in the text
 *   19  the text is not of the form in which a sheet is written as JSON, byte for byte
 * Beside each call stand the refusals that it can answer, in the order in which they are looked for.
 *
 * Calls use no heap, open no files, keep nothing between them and share nothing: any number of
 * threads may call at once, as long as no thread writes what another has lent. Every call returns.
 * MISQAFUR_STACK bytes of stack are enough for any call.
 *
 * A host that keeps whole sheets uses struct misqafur_sheet and the misqafur_sheet_ helpers at the end:
 * they hand settings, n, r, tables and their lengths to the calls, and keep the n and r that come back.
 *
 * Example: three points modulo 5, an interpolant, and the element x1*x2 + x2 + x1.
 *
 *   #include <misqafur.h>
 *   #include <stdio.h>
 *
 *   static struct misqafur_sheet sheet;
 *
 *   int main(void)
 *   {
 *       const uint8_t levels[6] = {0, 0, 1, 2, 2, 1};
 *       const uint8_t values[3] = {1, 0, misqafur_level(-2)};
 *       uint8_t interpolant[MISQAFUR_RESIDUES_SIZE];
 *       uint32_t refusal = misqafur_sheet_init(&sheet, 5, 2, MISQAFUR_GRLEX, 0);
 *       if (refusal == 0)
 *           refusal = misqafur_sheet_draw_up(&sheet, levels, 6);
 *       if (refusal == 0)
 *           refusal = misqafur_sheet_interpolate(&sheet, values, 3, interpolant, sizeof interpolant);
 *       if (refusal != 0) {
 *           fprintf(stderr, "%s\n", misqafur_refusal_text(refusal));
 *           return 1;
 *       }
 *       printf("%d + %d x2 + %d x1\n", interpolant[0], interpolant[1], interpolant[2]);         // 1 + 2 x2 + 0 x1
 *       printf("x1^%d x2^%d\n", sheet.leads[8], sheet.leads[9]);                                // x1^1 x2^1
 *       printf("%d %d %d\n", sheet.coefficients[64], sheet.coefficients[65], sheet.coefficients[66]); // 0 1 1
 *       return 0;
 *   }
 */
#ifndef MISQAFUR_H
#define MISQAFUR_H

#include <stddef.h>
#include <stdint.h>
#include <string.h>

/* The interface's number, which changes when a call's arguments or tables do; it is in the shared library's name, and the
 * first of the version's three. The second goes up with each further call. */
#define MISQAFUR_ABI 3
#define MISQAFUR_VERSION_MAJOR 3
#define MISQAFUR_VERSION_MINOR 2
#define MISQAFUR_VERSION_PATCH 0
#define MISQAFUR_VERSION "3.2.0"
#define MISQAFUR_VERSION_NUMBER \
    (10000 * MISQAFUR_VERSION_MAJOR + 100 * MISQAFUR_VERSION_MINOR + MISQAFUR_VERSION_PATCH)

#define MISQAFUR_STATES_SIZE 512
#define MISQAFUR_STANDARD_SIZE 512
#define MISQAFUR_LEADS_SIZE 3592
#define MISQAFUR_COEFFICIENTS_SIZE 28736
#define MISQAFUR_COUNTS_SIZE 64
#define MISQAFUR_RESIDUES_SIZE 64 /* an interpolant, a remainder, the values read from a text */
#define MISQAFUR_INTERPOLANTS_SIZE 512 /* those of a time course: 64 residues for each of 8 variables */
#define MISQAFUR_WIRING_SIZE 8
#define MISQAFUR_WEIGHTS_SIZE 8
#define MISQAFUR_JSON_SIZE 131072 /* what is lent for a sheet's text as JSON; a longer one is not read either */
#define MISQAFUR_LEVELS_SIZE 512 /* what misqafur_pack_levels asks for: 8 levels for each of 64 points */

#define MISQAFUR_MAX_POINTS 64
#define MISQAFUR_MAX_COUNT 255
#define MISQAFUR_MAX_VARIABLES 8
#define MISQAFUR_MAX_WEIGHT 99
#define MISQAFUR_MAX_TERMS 256
#define MISQAFUR_MAX_TEXT 16384
#define MISQAFUR_MAX_COURSE 99
#define MISQAFUR_MAX_STEPS 256

#define MISQAFUR_LEX 0
#define MISQAFUR_GRLEX 1
#define MISQAFUR_GREVLEX 2
#define MISQAFUR_WEIGHT 3

/* Bytes of stack that are enough for any call. */
#define MISQAFUR_STACK 163840

/* The refusals by name; misqafur_refusal_text has a sentence for each. */
enum misqafur_refusals {
    MISQAFUR_TAKEN = 0,
    MISQAFUR_REFUSED_TEXT_LENGTH = 1,
    MISQAFUR_REFUSED_TEXT_FORM = 2,
    MISQAFUR_REFUSED_MODULUS = 3,
    MISQAFUR_REFUSED_VARIABLES = 4,
    MISQAFUR_REFUSED_ORDER = 5,
    MISQAFUR_REFUSED_SIZE = 6,
    MISQAFUR_REFUSED_LENGTH = 7,
    MISQAFUR_REFUSED_COUNT = 8,
    MISQAFUR_REFUSED_RANGE = 9,
    MISQAFUR_REFUSED_BASIS = 10,
    MISQAFUR_REFUSED_REPEATED = 11, /* by no call */
    MISQAFUR_REFUSED_ABSENT = 12,
    MISQAFUR_REFUSED_REPLICATES = 13,
    MISQAFUR_REFUSED_OTHER_VALUE = 14,
    MISQAFUR_REFUSED_WEIGHT = 15,
    MISQAFUR_REFUSED_LEFT_OUT = 16,
    MISQAFUR_REFUSED_SUCCESSOR = 17,
    MISQAFUR_REFUSED_COURSE = 18,
    MISQAFUR_REFUSED_JSON_FORM = 19
};

/* An answer is to be looked at: compilers that know how warn where it is not. */
#if defined(__GNUC__)
#define MISQAFUR_ANSWER __attribute__((warn_unused_result))
#else
#define MISQAFUR_ANSWER
#endif

#ifdef __cplusplus
extern "C" {
#endif

/* misqafur_abi_3, with the number of this header's interface in its name: a library of another interface has no such
 * call. Answers the library's version, as MISQAFUR_VERSION_NUMBER is this header's. A host calls it as misqafur_version. */
#define MISQAFUR_NUMBERED(number) misqafur_abi_##number
#define MISQAFUR_ABI_CALL(number) MISQAFUR_NUMBERED(number)
uint32_t MISQAFUR_ABI_CALL(MISQAFUR_ABI)(void);

/* Adds one point to a basis. One that is there already is a replicate: its count is raised by 1, no other
 * byte changes, and n and r are answered as they were. A new one arrives last, with the count 1.
 * Reads: the settings, n, r, the five tables, m levels (a copy: states itself is written).
 * Writes: the five tables, to their sizes.
 * Answers the new n and r (misqafur_points, misqafur_elements).
 * Refusals: 3, 4, 5, 15, 6, 7 (levels_length is not m), 8 (n is above 64), 9, 10, 8 (64 points are there, and this
 * one is new), 13 (its count is 255). */
uint32_t misqafur_add_point(uint64_t modulus, uint64_t variables, uint64_t order, uint64_t weights,
                            uint64_t n, uint64_t r,
                            uint8_t *states, size_t states_length, uint8_t *standard, size_t standard_length,
                            uint8_t *leads, size_t leads_length, uint8_t *coefficients, size_t coefficients_length,
                            uint8_t *counts, size_t counts_length, const uint8_t *levels, size_t levels_length);

/* Withdraws one point, named by its levels, from a basis. Of one with a count of 2 or more a replicate goes: the count
 * is lowered by 1, no other byte changes, and n and r are answered as they were. Else the point goes:
 * later points and their counts move up one place, the tables become those of the remaining points, and
 * every byte given up is 0. A point that is added again arrives last.
 * Reads: the settings, n, r, the five tables, m levels (a copy: states itself is written).
 * Writes: the five tables, to their sizes.
 * Answers the new n and r (misqafur_points, misqafur_elements); without points n = 0 and r = 1.
 * Refusals: 3, 4, 5, 15, 6, 7 (levels_length is not m), 8 (n is above 64), 9, 10, 12. */
uint32_t misqafur_withdraw_point(uint64_t modulus, uint64_t variables, uint64_t order, uint64_t weights,
                                 uint64_t n, uint64_t r,
                                 uint8_t *states, size_t states_length, uint8_t *standard, size_t standard_length,
                                 uint8_t *leads, size_t leads_length,
                                 uint8_t *coefficients, size_t coefficients_length,
                                 uint8_t *counts, size_t counts_length, const uint8_t *levels, size_t levels_length);

/* Draws up the basis of all points at once: m levels for each point, point after point, or none, of any
 * number. Points may repeat, in any place: the distinct ones stand in the order in which each came first,
 * and a point's count is how often it came.
 * Reads: the settings, the levels; of the tables their lengths alone.
 * Writes: the five tables, to their sizes.
 * Answers n and r (misqafur_points, misqafur_elements), and how many cancellations that took
 * (misqafur_cancellations), at most n * (n * m + 1) and so 32,832. Replicates take none. The number depends
 * on the order of the points: monomials are examined in increasing order, multiples of leading ones passed
 * over; each one's column of values meets the pivots found before, in their order, and an entry at a
 * pivot's point that is not 0 then is one cancellation.
 * Refusals: 3, 4, 5, 15, 6, 7 (levels_length is no multiple of m), 9, 8 (more than 64 distinct points), 13 (a point
 * comes more than 255 times). */
uint64_t misqafur_draw_up(uint64_t modulus, uint64_t variables, uint64_t order, uint64_t weights,
                          uint8_t *states, size_t states_length, uint8_t *standard, size_t standard_length,
                          uint8_t *leads, size_t leads_length, uint8_t *coefficients, size_t coefficients_length,
                          uint8_t *counts, size_t counts_length, const uint8_t *levels, size_t levels_length);

/* Draws up the basis of all points at once where the modulus is 2, in a fraction of the time that misqafur_draw_up takes.
 * It is handed what that call is, the modulus too, and leaves the same n and r and the same bytes in the five tables,
 * for every order and whatever the points; but it counts no cancellations, and answers none.
 * Reads: the settings, the levels (-1, 0 and 1); of the tables their lengths alone.
 * Writes: the five tables, to their sizes.
 * Answers n and r (misqafur_points, misqafur_elements).
 * Refusals: 3 (the modulus is not 2, also where it is another of the 18), 4, 5, 15, 6, 7 (levels_length is no multiple of m),
 * 9, 8 (more than 64 distinct points), 13 (a point comes more than 255 times). */
uint32_t misqafur_draw_up_packed(uint64_t modulus, uint64_t variables, uint64_t order, uint64_t weights,
                                 uint8_t *states, size_t states_length, uint8_t *standard, size_t standard_length,
                                 uint8_t *leads, size_t leads_length,
                                 uint8_t *coefficients, size_t coefficients_length,
                                 uint8_t *counts, size_t counts_length, const uint8_t *levels, size_t levels_length);

/* Says whether n, r and the tables are the basis of their points under the settings.
 * Reads: the settings, n, r, the five tables. Writes nothing.
 * Answers 0 if they are.
 * Refusals: 3, 4, 5, 15, 6, 8 (n is above 64), 10. */
uint32_t misqafur_check(uint64_t modulus, uint64_t variables, uint64_t order, uint64_t weights,
                        uint64_t n, uint64_t r,
                        const uint8_t *states, size_t states_length,
                        const uint8_t *standard, size_t standard_length,
                        const uint8_t *leads, size_t leads_length,
                        const uint8_t *coefficients, size_t coefficients_length,
                        const uint8_t *counts, size_t counts_length);

/* The combination of standard monomials that takes the given values at the points.
 * Reads: the settings, n, r, the five tables, n values in the points' order.
 * Writes: 64 bytes of out, a residue for each standard monomial in table order, then zeros.
 * Answers 0.
 * Refusals: 3, 4, 5, 15, 6 (also: out_length is below 64), 7 (values_length is not n), 8 (n is above 64), 9, 10. */
uint32_t misqafur_interpolate(uint64_t modulus, uint64_t variables, uint64_t order, uint64_t weights,
                              uint64_t n, uint64_t r,
                              const uint8_t *states, size_t states_length,
                              const uint8_t *standard, size_t standard_length,
                              const uint8_t *leads, size_t leads_length,
                              const uint8_t *coefficients, size_t coefficients_length,
                              const uint8_t *counts, size_t counts_length,
                              const uint8_t *values, size_t values_length, uint8_t *out, size_t out_length);

/* The remainder of a polynomial: the combination of standard monomials that equals it at the points.
 * The polynomial has one coefficient and 8 exponents (0 to 255, those above m being 0) for each term;
 * repeated terms add up, and no terms are the polynomial 0.
 * Reads: the settings, n, r, the five tables, the terms.
 * Writes: 64 bytes of out, a residue for each standard monomial in table order, then zeros.
 * Answers 0.
 * Refusals: 3, 4, 5, 15, 6 (also: out_length is below 64), 7 (exponents_length is not 8 times
 * term_coefficients_length), 8 (n is above 64, or more than 256 terms), 9, 10. */
uint32_t misqafur_remainder(uint64_t modulus, uint64_t variables, uint64_t order, uint64_t weights,
                            uint64_t n, uint64_t r,
                            const uint8_t *states, size_t states_length,
                            const uint8_t *standard, size_t standard_length,
                            const uint8_t *leads, size_t leads_length,
                            const uint8_t *coefficients, size_t coefficients_length,
                            const uint8_t *counts, size_t counts_length,
                            const uint8_t *term_coefficients, size_t term_coefficients_length,
                            const uint8_t *exponents, size_t exponents_length, uint8_t *out, size_t out_length);

/* The variables on which every function depends that has the values at the points: those for which two points
 * agree in all other variables, differ in this one and have different values. The order does not matter.
 * Reads: the settings, n, r, the five tables, n values in the points' order.
 * Writes: 8 bytes of out, the variables' numbers from 1, increasing, then zeros.
 * Answers how many they are (misqafur_wiring_count).
 * Refusals: 3, 4, 5, 15, 6 (also: out_length is below 8), 7 (values_length is not n), 8 (n is above 64), 9, 10. */
uint32_t misqafur_wiring(uint64_t modulus, uint64_t variables, uint64_t order, uint64_t weights,
                         uint64_t n, uint64_t r,
                         const uint8_t *states, size_t states_length,
                         const uint8_t *standard, size_t standard_length,
                         const uint8_t *leads, size_t leads_length,
                         const uint8_t *coefficients, size_t coefficients_length,
                         const uint8_t *counts, size_t counts_length,
                         const uint8_t *values, size_t values_length, uint8_t *out, size_t out_length);

/* Leaves a variable out, as where the probe of its gene is unreliable: the basis of the points without their level of it,
 * in tables of its own, under the settings with one variable and its weight fewer (modulus and order as they are, m - 1,
 * the weights of misqafur_weights_without). Points that become equal are one, at the place of the first, and their counts
 * are added; the others keep their order. Variables behind the one left out have numbers lower by 1. It is the basis that
 * misqafur_draw_up makes of the shortened points, each as often as it is counted; in lex without x1 its elements and
 * standard monomials are those in which x1 does not occur, as they were and in their order.
 * Reads: the settings, n, r, the first five tables, the variable's number from 1; of the new tables their lengths alone.
 * Writes: the five new tables, to their sizes; those that are read stay as they are.
 * Answers the new n and r (misqafur_points, misqafur_elements).
 * Refusals: 3, 4, 5, 15, 16 (variable is not 1 to m, or m is 1), 6 (any of the ten tables), 8 (n is above 64), 10 (the tables
 * that are read), 13 (counts that are added exceed 255). */
uint32_t misqafur_leave_out(uint64_t modulus, uint64_t variables, uint64_t order, uint64_t weights,
                            uint64_t n, uint64_t r,
                            const uint8_t *states, size_t states_length,
                            const uint8_t *standard, size_t standard_length,
                            const uint8_t *leads, size_t leads_length,
                            const uint8_t *coefficients, size_t coefficients_length,
                            const uint8_t *counts, size_t counts_length, uint64_t variable,
                            uint8_t *new_states, size_t new_states_length,
                            uint8_t *new_standard, size_t new_standard_length,
                            uint8_t *new_leads, size_t new_leads_length,
                            uint8_t *new_coefficients, size_t new_coefficients_length,
                            uint8_t *new_counts, size_t new_counts_length);

/* Reads settings, points and values from a text of comma-separated records (RFC 4180; LF or CRLF).
 * The header holds m names and a last field: mod, a space, one to three digits, and optionally a
 * space and lex, grlex or grevlex (without the word: grevlex), or weight and then m weights of one or two
 * digits, a space before each. Each further record has m levels and a value, each an optional minus sign and
 * one to three digits.
 * Reads: the text; of the other buffers their lengths alone.
 * Records may repeat a point, where they repeat its value: they are replicates.
 * Writes: 512 bytes of states, the distinct points' residues in the layout of that table, in the order in
 * which each came first, then zeros; 64 bytes of values, their residues in the points' order, then zeros;
 * 64 bytes of counts, how many records have each point, then zeros. Residues are levels, so the
 * values can be handed on as they are; a point has 8 bytes here and m levels in misqafur_draw_up,
 * for which misqafur_pack_levels packs them. Drawn up so, each point counts once; the counts of the text,
 * copied over those of the basis, make it the basis of all records. And 8 bytes of weights, that of xk in byte
 * k-1, then zeros, and zeros alone where the order is not 3: misqafur_pack_weights makes of all 8 what the calls
 * take, whatever the order.
 * Answers n and the settings (misqafur_read_points, _modulus, _variables, _order).
 * A refusal comes with the record at fault, the header being 1 (misqafur_read_record).
 * Refusals: 1 (record 0), 2 (the earliest such record; the header, if it has not as many weights as names), 3,
 * 4 and 15 (record 1), 6 (record 0; a buffer below 512, 64, 64 or 8 bytes), 9 (the earliest such record), 8
 * (the record that brings the 65th distinct point), 13 (the earliest that brings the 256th of a point), 14 (the
 * earliest with another value than the first record of its point). Each is looked for over the whole text
 * before the next. */
uint64_t misqafur_read_text(const uint8_t *text, size_t text_length, uint8_t *states, size_t states_length,
                            uint8_t *values, size_t values_length, uint8_t *counts, size_t counts_length,
                            uint8_t *weights, size_t weights_length);

/* Runs a time course forward: makes a model of the courses in a text, and runs it from the first state of the course that
 * is named. The text has the form of misqafur_read_text's, but that the last column holds, in place of a value and in its
 * form, a course number from 1 to 99: 7, 07 and 007 are course 7. Consecutive records of one number are consecutive times:
 * each but the last of its course has the next record as its successor. Courses come in any order of their numbers, and
 * none returns after another.
 * Each state that has a successor becomes a point, in the order of its first record that has one, and its count is the
 * number of its records that have one; wherever a state has a successor it has the same. A course of one record, or the
 * last record of a course, adds no point. The model is one interpolant for each variable, the combination of standard
 * monomials that takes the variable's residue in the successor at each point. It is defined at every state, also at one
 * that is no point, and takes the state of each record to that of its successor: applied k times to the first state of a
 * course, any course, it gives record k+1 of that course, if it has one, for k up to 256.
 * The run begins with the first state of the course named, as step 0, and ends with the first step, 256 at most, that gives
 * a state met before. From there it repeats for ever: the last `back` states are its cycle.
 * Reads: the text, the course's number, any 64-bit number; of the other buffers their lengths alone.
 * Writes: the five tables of the points' basis with these counts, to their sizes; 512 bytes of interpolants, that of xk from
 * byte 64(k-1) on, a residue for each standard monomial in table order, then zeros; 8 bytes of weights, as
 * misqafur_read_text does.
 * Answers n, r and the settings (misqafur_read_points, misqafur_course_elements, misqafur_read_modulus, _variables, _order),
 * the step that ended the run and the distance back to the earlier visit (misqafur_course_step, misqafur_course_back), or 0
 * and 0 where no state came again within 256 steps.
 * A refusal comes with the record at fault, the header being 1 (misqafur_read_record); for 8, 13 and 17 it is the point's
 * own, not its successor's.
 * Refusals: 1 (record 0), 2 (the earliest such record), 3, 4 and 15 (record 1), 6 (record 0; a buffer below 512, 512, 3,592,
 * 28,736, 64, 512 or 8 bytes), 9 (the earliest record with such a level; of a course number it is 2), 17 (the earliest
 * record whose state stood with another successor before), 8 (the record that brings the 65th distinct point), 13 (the
 * earliest that is the 256th of a point), 18 (record 0; no record has the number named). Each is looked for over the whole
 * text before the next. */
uint64_t misqafur_time_course(const uint8_t *text, size_t text_length, uint64_t course,
                              uint8_t *states, size_t states_length, uint8_t *standard, size_t standard_length,
                              uint8_t *leads, size_t leads_length, uint8_t *coefficients, size_t coefficients_length,
                              uint8_t *counts, size_t counts_length, uint8_t *interpolants, size_t interpolants_length,
                              uint8_t *weights, size_t weights_length);

/* Writes a basis as JSON, the one text that it has: members in this order, whole numbers, no blanks, no line break at the end,
 * as RFC 8785 has it. With p = 2, m = 1, lex and the one point 1 it is
 *   {"coefficients":[[1]],"counts":[1],"leads":[[1]],"modulus":2,"order":0,"points":[[1]],"standard":[[0]],"variables":1,"weights":[]}
 * coefficients and leads have a list for each of the r elements, counts a number and points and standard a list for each of the
 * n points; a list in leads, points or standard has m numbers, in coefficients n; weights has m numbers with order 3, else none.
 * The points stand in order of arrival. Two texts are equal only where the settings, n, r and every byte of the five sizes are,
 * so that files can be compared byte for byte; and misqafur_read_json takes back what is written here, and nothing else.
 * Reads: the settings, n, r, the five tables.
 * Writes: the text to the front of out, at most 103,534 bytes; those behind it stay as they are.
 * Answers the text's length (misqafur_json_length).
 * Refusals: 3, 4, 5, 15, 6 (also: out_length is below 131,072, whatever the text's length), 8 (n is above 64), 10. */
uint32_t misqafur_write_json(uint64_t modulus, uint64_t variables, uint64_t order, uint64_t weights,
                             uint64_t n, uint64_t r,
                             const uint8_t *states, size_t states_length,
                             const uint8_t *standard, size_t standard_length,
                             const uint8_t *leads, size_t leads_length,
                             const uint8_t *coefficients, size_t coefficients_length,
                             const uint8_t *counts, size_t counts_length, uint8_t *out, size_t out_length);

/* Reads a basis from its text as JSON, as misqafur_write_json writes it: written again it is the same text, byte for byte. A text
 * of that form has its members in that order, numbers from 0 to 255 without a sign or a leading zero, no byte besides, as many
 * counts and standard monomials as points, as many leads as lists of coefficients, in each of these lists as many numbers as there
 * are points, in each of the others as many as variables says, and as many weights where the order is 3, else none. Any other
 * text is refused with 19, also one that says the same in other words. The numbers of such a text are then judged as
 * misqafur_check judges them.
 * Reads: the text; of the other buffers their lengths alone.
 * Writes: the five tables, to their sizes, and 8 bytes of weights, as misqafur_read_text does.
 * Answers n, r and the settings (misqafur_read_points, misqafur_json_elements, misqafur_read_modulus, _variables, _order).
 * Refusals, without a record: 1 (more than 131,072 bytes), 19, 3, 4, 5, 15, 6 (a buffer below 512, 512, 3,592, 28,736, 64 or 8
 * bytes), 8 (more than 64 points), 10. */
uint64_t misqafur_read_json(const uint8_t *text, size_t text_length,
                            uint8_t *states, size_t states_length, uint8_t *standard, size_t standard_length,
                            uint8_t *leads, size_t leads_length, uint8_t *coefficients, size_t coefficients_length,
                            uint8_t *counts, size_t counts_length, uint8_t *weights, size_t weights_length);

/* What compilers that know how are told of the calls above: the answer is to be looked at, and a call reads or
 * writes as many bytes of a buffer as its length says, at most. The numbers are the arguments' places. */
#if defined(__GNUC__)
#if defined(__has_attribute)
#if __has_attribute(access)
#define MISQAFUR_LENT(mode, at) , access(mode, at, at + 1)
#endif
#endif
#ifndef MISQAFUR_LENT
#define MISQAFUR_LENT(mode, at)
#endif
#define MISQAFUR_LENT_TABLES(mode, at) \
    MISQAFUR_LENT(mode, at) MISQAFUR_LENT(mode, at + 2) MISQAFUR_LENT(mode, at + 4) MISQAFUR_LENT(mode, at + 6) \
        MISQAFUR_LENT(mode, at + 8)
#define MISQAFUR_TOLD(call, lent) __typeof__(call) call __attribute__((warn_unused_result lent))
#pragma GCC diagnostic push
#pragma GCC diagnostic ignored "-Wredundant-decls"
MISQAFUR_TOLD(MISQAFUR_ABI_CALL(MISQAFUR_ABI), );
MISQAFUR_TOLD(misqafur_add_point, MISQAFUR_LENT_TABLES(read_write, 7) MISQAFUR_LENT(read_only, 17));
MISQAFUR_TOLD(misqafur_withdraw_point, MISQAFUR_LENT_TABLES(read_write, 7) MISQAFUR_LENT(read_only, 17));
MISQAFUR_TOLD(misqafur_draw_up, MISQAFUR_LENT_TABLES(write_only, 5) MISQAFUR_LENT(read_only, 15));
MISQAFUR_TOLD(misqafur_draw_up_packed, MISQAFUR_LENT_TABLES(write_only, 5) MISQAFUR_LENT(read_only, 15));
MISQAFUR_TOLD(misqafur_check, MISQAFUR_LENT_TABLES(read_only, 7));
MISQAFUR_TOLD(misqafur_interpolate,
              MISQAFUR_LENT_TABLES(read_only, 7) MISQAFUR_LENT(read_only, 17) MISQAFUR_LENT(write_only, 19));
MISQAFUR_TOLD(misqafur_remainder, MISQAFUR_LENT_TABLES(read_only, 7) MISQAFUR_LENT(read_only, 17)
                                      MISQAFUR_LENT(read_only, 19) MISQAFUR_LENT(write_only, 21));
MISQAFUR_TOLD(misqafur_wiring,
              MISQAFUR_LENT_TABLES(read_only, 7) MISQAFUR_LENT(read_only, 17) MISQAFUR_LENT(write_only, 19));
MISQAFUR_TOLD(misqafur_leave_out, MISQAFUR_LENT_TABLES(read_only, 7) MISQAFUR_LENT_TABLES(write_only, 18));
MISQAFUR_TOLD(misqafur_read_text,
              MISQAFUR_LENT(read_only, 1) MISQAFUR_LENT(write_only, 3) MISQAFUR_LENT(write_only, 5)
                  MISQAFUR_LENT(write_only, 7) MISQAFUR_LENT(write_only, 9));
MISQAFUR_TOLD(misqafur_time_course, MISQAFUR_LENT(read_only, 1) MISQAFUR_LENT_TABLES(write_only, 4)
                                        MISQAFUR_LENT(write_only, 14) MISQAFUR_LENT(write_only, 16));
MISQAFUR_TOLD(misqafur_write_json, MISQAFUR_LENT_TABLES(read_only, 7) MISQAFUR_LENT(write_only, 17));
MISQAFUR_TOLD(misqafur_read_json,
              MISQAFUR_LENT(read_only, 1) MISQAFUR_LENT_TABLES(write_only, 3) MISQAFUR_LENT(write_only, 13));
#undef MISQAFUR_TOLD
#undef MISQAFUR_LENT_TABLES
#undef MISQAFUR_LENT

/* Refers to misqafur_abi_3 wherever this header is included, whatever of it is used: an object compiled with the header of
 * another interface does not link with the library, in place of handing it tables that it does not know. A linker keeps the
 * reference where the compiler's assembler can tell it to; where it cannot, the compiler would warn, and only that is lost. */
#if defined(__has_attribute)
#if __has_attribute(retain)
#define MISQAFUR_KEPT __attribute__((used, retain))
#endif
#endif
#ifndef MISQAFUR_KEPT
#define MISQAFUR_KEPT __attribute__((used))
#endif
#pragma GCC diagnostic ignored "-Wattributes"
static uint32_t (*const misqafur_linked)(void) MISQAFUR_KEPT = MISQAFUR_ABI_CALL(MISQAFUR_ABI);
#undef MISQAFUR_KEPT
#pragma GCC diagnostic pop
#endif

/* The version of the library that the host is linked with, or has loaded: 30200 for 3.2.0. */
static inline uint32_t misqafur_version(void)
{
    return MISQAFUR_ABI_CALL(MISQAFUR_ABI)();
}

/* A level, value or coefficient as the byte that the calls take. Any number outside -127 to 127 becomes
 * 128, which is -128: with every modulus that byte is refused with 9, as the number itself is to be. */
static inline uint8_t misqafur_level(int level)
{
    if (level < -127 || level > 127)
        return 128;
    return (uint8_t)level;
}

/* Packs the points of a states table, 8 bytes each, as the levels that misqafur_draw_up and misqafur_draw_up_packed take,
 * m each, and answers their number, n * m. Adding needs no packing: point i has its m levels at states + 8 * i.
 * Reads: the first 8 * n bytes of states, which has MISQAFUR_STATES_SIZE. Writes: the first n * m bytes
 * of levels, which has MISQAFUR_LEVELS_SIZE; the two do not overlap.
 * What has n above 64 or m not 1 to 8 is not read, and what is answered misqafur_draw_up refuses: for such an n one
 * point of levels that no modulus takes, which is refused with 9; for such an m 0, and nothing is written, m
 * itself being refused with 4. */
static inline size_t misqafur_pack_levels(const uint8_t *states, uint64_t n, uint64_t variables, uint8_t *levels)
{
    size_t count = 0;
    if (variables < 1 || variables > MISQAFUR_MAX_VARIABLES)
        return 0;
    if (n > MISQAFUR_MAX_POINTS) {
        memset(levels, 128, (size_t)variables);
        return (size_t)variables;
    }
    for (size_t i = 0; i < n; i++)
        for (size_t k = 0; k < variables; k++)
            levels[count++] = states[8 * i + k];
    return count;
}

/* A weight as a byte of those that misqafur_pack_weights takes. Any number outside 0 to 99 becomes 255: with every order
 * that byte is refused with 15, as the number itself is to be. */
static inline uint8_t misqafur_weight(int weight)
{
    if (weight < 0 || weight > MISQAFUR_MAX_WEIGHT)
        return 255;
    return (uint8_t)weight;
}

/* Packs weights, one for each variable, x1's first, as the number that the calls take; of those that misqafur_read_text,
 * misqafur_time_course and misqafur_read_json leave all 8. Too few or too many are refused with 15 by the calls: a weight that is
 * missing counts as 0, one behind the m-th has to be 0, and of more than 8 none is read, every byte of the number being 255 then. */
static inline uint64_t misqafur_pack_weights(const uint8_t *weights, size_t count)
{
    uint64_t packed = 0;
    if (count > MISQAFUR_MAX_VARIABLES)
        return UINT64_MAX;
    for (size_t k = count; k > 0; k--)
        packed = 256 * packed + weights[k - 1];
    return packed;
}

/* The weights that are left with misqafur_leave_out: those of one variable go, and later ones move down a place. Where no
 * variable has this number, all of them as they are. */
static inline uint64_t misqafur_weights_without(uint64_t weights, uint64_t variable)
{
    if (variable < 1 || variable > MISQAFUR_MAX_VARIABLES)
        return weights;
    const uint64_t before = ((uint64_t)1 << 8 * (variable - 1)) - 1; /* the bytes of the variables before it */
    return (weights & before) | (weights >> 8 & ~before);
}

/* The refusal in the answer of any call but those that read a text; 0 for none. */
static inline uint32_t misqafur_refusal(uint64_t answer)
{
    return (uint32_t)(answer & 255u);
}

/* n and r in the answer of misqafur_add_point, misqafur_withdraw_point, misqafur_draw_up, misqafur_draw_up_packed and
 * misqafur_leave_out. */
static inline uint32_t misqafur_points(uint64_t answer)
{
    return (uint32_t)((answer >> 8) & 255u);
}

static inline uint32_t misqafur_elements(uint64_t answer)
{
    return (uint32_t)((answer >> 16) & 65535u);
}

/* The cancellations in the answer of misqafur_draw_up. */
static inline uint32_t misqafur_cancellations(uint64_t answer)
{
    return (uint32_t)(answer >> 32);
}

/* The length of the list in the answer of misqafur_wiring. */
static inline uint32_t misqafur_wiring_count(uint32_t answer)
{
    return answer >> 8;
}

/* The length of the text in the answer of misqafur_write_json. */
static inline uint32_t misqafur_json_length(uint32_t answer)
{
    return answer >> 8;
}

/* The refusal in the answer of misqafur_read_text, misqafur_time_course and misqafur_read_json; 0 for none. */
static inline uint32_t misqafur_read_refusal(uint64_t answer)
{
    return (uint32_t)(answer & 255u);
}

/* After a refusal of the first two: the record at fault. The third adds none, and this is 0. */
static inline uint64_t misqafur_read_record(uint64_t answer)
{
    return answer >> 8;
}

/* After a text that any of these has taken: n and the settings. */
static inline uint32_t misqafur_read_points(uint64_t answer)
{
    return (uint32_t)((answer >> 8) & 255u);
}

static inline uint32_t misqafur_read_modulus(uint64_t answer)
{
    return (uint32_t)((answer >> 16) & 255u);
}

static inline uint32_t misqafur_read_variables(uint64_t answer)
{
    return (uint32_t)((answer >> 24) & 255u);
}

static inline uint32_t misqafur_read_order(uint64_t answer)
{
    return (uint32_t)((answer >> 32) & 15u);
}

/* After a text that misqafur_time_course has taken: r, the step that ended the run and the distance back to the earlier
 * visit; 0 and 0 where no state came again within 256 steps. */
static inline uint32_t misqafur_course_elements(uint64_t answer)
{
    return (uint32_t)((answer >> 36) & 1023u);
}

static inline uint32_t misqafur_course_step(uint64_t answer)
{
    return (uint32_t)((answer >> 46) & 511u);
}

static inline uint32_t misqafur_course_back(uint64_t answer)
{
    return (uint32_t)(answer >> 55);
}

/* After a text that misqafur_read_json has taken: r. */
static inline uint32_t misqafur_json_elements(uint64_t answer)
{
    return misqafur_course_elements(answer);
}

/* What a refusal says, as a sentence for the people at the desk, to whom a point is a state and a variable a gene.
 * Any number has one. */
static inline const char *misqafur_refusal_text(uint32_t refusal)
{
    switch (refusal) {
    case MISQAFUR_TAKEN:
        return "taken: nothing was refused";
    case MISQAFUR_REFUSED_TEXT_LENGTH:
        return "the text is longer than 16,384 bytes, or as JSON than 131,072";
    case MISQAFUR_REFUSED_TEXT_FORM:
        return "the text breaks the rules, or a record's field count differs from the header's";
    case MISQAFUR_REFUSED_MODULUS:
        return "the modulus is not one of the 18 primes from 2 to 61, or not 2 where a sheet is drawn up packed";
    case MISQAFUR_REFUSED_VARIABLES:
        return "the number of genes is not 1 to 8";
    case MISQAFUR_REFUSED_ORDER:
        return "the order is not lex, grlex, grevlex or by weight (0, 1, 2 or 3)";
    case MISQAFUR_REFUSED_SIZE:
        return "a lent table or buffer is shorter than its size";
    case MISQAFUR_REFUSED_LENGTH:
        return "a length is wrong: a state needs one level for each gene, and each state one value";
    case MISQAFUR_REFUSED_COUNT:
        return "there are more than 64 different states, or a polynomial has more than 256 terms";
    case MISQAFUR_REFUSED_RANGE:
        return "a level, value or coefficient is outside -(p-1) to p-1, or an exponent belongs to no gene";
    case MISQAFUR_REFUSED_BASIS:
        return "the numbers and tables are not the sheet of their states under these settings";
    case MISQAFUR_REFUSED_REPEATED:
        return "a state equals an earlier one (no call refuses that: it is a replicate)";
    case MISQAFUR_REFUSED_ABSENT:
        return "the state to be withdrawn is not on the sheet";
    case MISQAFUR_REFUSED_REPLICATES:
        return "a state would be counted more than 255 times";
    case MISQAFUR_REFUSED_OTHER_VALUE:
        return "a replicate has another value than its state";
    case MISQAFUR_REFUSED_WEIGHT:
        return "a weight is wrong: by weight each gene has one from 1 to 99, in any other order none has";
    case MISQAFUR_REFUSED_LEFT_OUT:
        return "the gene to be left out is none of the sheet's, or the only one that it has";
    case MISQAFUR_REFUSED_SUCCESSOR:
        return "a state is followed by two different states";
    case MISQAFUR_REFUSED_COURSE:
        return "the time course to be run is not in the text";
    case MISQAFUR_REFUSED_JSON_FORM:
        return "the text is not of the form in which a sheet is written as JSON, byte for byte";
    default:
        return "no refusal has this number";
    }
}

/* ---- A whole sheet: its settings, its n and r and its tables in one place of the host's ---- */

struct misqafur_sheet {
    uint64_t modulus, variables, order, weights;
    uint64_t n, r;
    uint8_t states[MISQAFUR_STATES_SIZE], standard[MISQAFUR_STANDARD_SIZE];
    uint8_t leads[MISQAFUR_LEADS_SIZE], coefficients[MISQAFUR_COEFFICIENTS_SIZE], counts[MISQAFUR_COUNTS_SIZE];
};

/* What the calls are handed of a sheet: its settings, and its tables with their lengths. */
#define MISQAFUR_SHEET_SETTINGS(sheet) (sheet)->modulus, (sheet)->variables, (sheet)->order, (sheet)->weights
#define MISQAFUR_SHEET_TABLES(sheet)                                                                       \
    (sheet)->states, sizeof (sheet)->states, (sheet)->standard, sizeof (sheet)->standard, (sheet)->leads, \
        sizeof (sheet)->leads, (sheet)->coefficients, sizeof (sheet)->coefficients, (sheet)->counts,          \
        sizeof (sheet)->counts

/* Keeps the n and r of an answer in the sheet, where the call took what it was handed. Answers the refusal. */
static inline MISQAFUR_ANSWER uint32_t misqafur_sheet_keep(struct misqafur_sheet *sheet, uint32_t answer)
{
    if (misqafur_refusal(answer) == 0) {
        sheet->n = misqafur_points(answer);
        sheet->r = misqafur_elements(answer);
    }
    return misqafur_refusal(answer);
}

/* The helpers below answer the refusal of the call that they are named after, 0 for none; after a refusal
 * the sheet is as it was. Whatever the sheet holds, they are as safe as the calls. */

static inline MISQAFUR_ANSWER uint32_t misqafur_sheet_check(const struct misqafur_sheet *sheet)
{
    return misqafur_check(MISQAFUR_SHEET_SETTINGS(sheet), sheet->n, sheet->r, MISQAFUR_SHEET_TABLES(sheet));
}

/* Makes the sheet of no points under these settings, the weights being 0 but with MISQAFUR_WEIGHT, where
 * misqafur_pack_weights makes them. Answers 3, 4, 5 or 15 where no call takes them. These are looked for first, and tables of no
 * length are refused with 6 behind them: so the settings are judged before a byte of the sheet is written. */
static inline MISQAFUR_ANSWER uint32_t misqafur_sheet_init(struct misqafur_sheet *sheet, uint64_t modulus,
                                                           uint64_t variables, uint64_t order, uint64_t weights)
{
    const uint32_t refusal =
        misqafur_check(modulus, variables, order, weights, 0, 1, NULL, 0, NULL, 0, NULL, 0, NULL, 0, NULL, 0);
    if (refusal != MISQAFUR_REFUSED_SIZE)
        return refusal;
    memset(sheet, 0, sizeof *sheet);
    sheet->modulus = modulus;
    sheet->variables = variables;
    sheet->order = order;
    sheet->weights = weights;
    sheet->r = 1;
#if !defined(__GNUC__)
    (void)misqafur_version(); /* here the helpers refer to misqafur_abi_3 */
#endif
    return MISQAFUR_TAKEN;
}

static inline MISQAFUR_ANSWER uint32_t misqafur_sheet_add(struct misqafur_sheet *sheet,
                                                          const uint8_t *levels, size_t levels_length)
{
    return misqafur_sheet_keep(sheet, misqafur_add_point(MISQAFUR_SHEET_SETTINGS(sheet), sheet->n, sheet->r,
                                                         MISQAFUR_SHEET_TABLES(sheet), levels, levels_length));
}

static inline MISQAFUR_ANSWER uint32_t misqafur_sheet_withdraw(struct misqafur_sheet *sheet,
                                                               const uint8_t *levels, size_t levels_length)
{
    return misqafur_sheet_keep(sheet, misqafur_withdraw_point(MISQAFUR_SHEET_SETTINGS(sheet), sheet->n, sheet->r,
                                                              MISQAFUR_SHEET_TABLES(sheet), levels, levels_length));
}

/* Draws up all points at once, replicates as they come, in place of those that the sheet has. A host that wants to
 * know the cancellations calls misqafur_draw_up itself. */
static inline MISQAFUR_ANSWER uint32_t misqafur_sheet_draw_up(struct misqafur_sheet *sheet,
                                                              const uint8_t *levels, size_t levels_length)
{
    return misqafur_sheet_keep(sheet, (uint32_t)misqafur_draw_up(MISQAFUR_SHEET_SETTINGS(sheet),
                                                                 MISQAFUR_SHEET_TABLES(sheet), levels, levels_length));
}

/* The same where the modulus is 2, and sooner; with any other modulus 3 is answered. */
static inline MISQAFUR_ANSWER uint32_t misqafur_sheet_draw_up_packed(struct misqafur_sheet *sheet,
                                                                     const uint8_t *levels, size_t levels_length)
{
    return misqafur_sheet_keep(sheet, misqafur_draw_up_packed(MISQAFUR_SHEET_SETTINGS(sheet),
                                                              MISQAFUR_SHEET_TABLES(sheet), levels, levels_length));
}

static inline MISQAFUR_ANSWER uint32_t misqafur_sheet_interpolate(const struct misqafur_sheet *sheet,
                                                                  const uint8_t *values, size_t values_length,
                                                                  uint8_t *out, size_t out_length)
{
    return misqafur_interpolate(MISQAFUR_SHEET_SETTINGS(sheet), sheet->n, sheet->r, MISQAFUR_SHEET_TABLES(sheet),
                                values, values_length, out, out_length);
}

static inline MISQAFUR_ANSWER uint32_t misqafur_sheet_remainder(const struct misqafur_sheet *sheet,
                                                                const uint8_t *term_coefficients,
                                                                size_t term_coefficients_length,
                                                                const uint8_t *exponents, size_t exponents_length,
                                                                uint8_t *out, size_t out_length)
{
    return misqafur_remainder(MISQAFUR_SHEET_SETTINGS(sheet), sheet->n, sheet->r, MISQAFUR_SHEET_TABLES(sheet),
                              term_coefficients, term_coefficients_length, exponents, exponents_length,
                              out, out_length);
}

/* Writes the length of the list to count, where it is not refused. */
static inline MISQAFUR_ANSWER uint32_t misqafur_sheet_wiring(const struct misqafur_sheet *sheet,
                                                             const uint8_t *values, size_t values_length,
                                                             uint8_t *out, size_t out_length, uint32_t *count)
{
    uint32_t answer = misqafur_wiring(MISQAFUR_SHEET_SETTINGS(sheet), sheet->n, sheet->r,
                                      MISQAFUR_SHEET_TABLES(sheet), values, values_length, out, out_length);
    if (misqafur_refusal(answer) == 0)
        *count = misqafur_wiring_count(answer);
    return misqafur_refusal(answer);
}

/* Leaves a variable out: from a sheet that stays as it is, to another, which becomes the sheet of the shortened points under
 * the settings with one variable and its weight fewer, whatever it was before. After a refusal it is as it was. A sheet has no
 * room for the result beside itself: where `to` is `from`, tables of no length are lent, which is refused with 6 (behind 3, 4, 5, 15
 * and 16), and the sheet is as it was; have the result in another, and copy that. */
static inline MISQAFUR_ANSWER uint32_t misqafur_sheet_leave_out(const struct misqafur_sheet *from, uint64_t variable,
                                                                struct misqafur_sheet *to)
{
    uint32_t answer;
    if (to == from)
        return misqafur_refusal(misqafur_leave_out(MISQAFUR_SHEET_SETTINGS(from), from->n, from->r,
                                                   MISQAFUR_SHEET_TABLES(from), variable, NULL, 0, NULL, 0, NULL, 0, NULL, 0,
                                                   NULL, 0));
    answer = misqafur_leave_out(MISQAFUR_SHEET_SETTINGS(from), from->n, from->r, MISQAFUR_SHEET_TABLES(from), variable,
                                MISQAFUR_SHEET_TABLES(to));
    if (misqafur_refusal(answer) == 0) {
        to->modulus = from->modulus;
        to->variables = from->variables - 1;
        to->order = from->order;
        to->weights = misqafur_weights_without(from->weights, variable);
    }
    return misqafur_sheet_keep(to, answer);
}

/* Writes the sheet as JSON to the front of out, and the text's length to length, where it is not refused. */
static inline MISQAFUR_ANSWER uint32_t misqafur_sheet_write_json(const struct misqafur_sheet *sheet,
                                                                 uint8_t *out, size_t out_length, size_t *length)
{
    const uint32_t answer = misqafur_write_json(MISQAFUR_SHEET_SETTINGS(sheet), sheet->n, sheet->r,
                                                MISQAFUR_SHEET_TABLES(sheet), out, out_length);
    if (misqafur_refusal(answer) == 0)
        *length = misqafur_json_length(answer);
    return misqafur_refusal(answer);
}

/* Takes settings, n and r from the answer of a call that has read a text with all of them into the sheet's tables. */
static inline void misqafur_sheet_take(struct misqafur_sheet *sheet, uint64_t answer,
                                       const uint8_t weights[MISQAFUR_WEIGHTS_SIZE])
{
    sheet->modulus = misqafur_read_modulus(answer);
    sheet->variables = misqafur_read_variables(answer);
    sheet->order = misqafur_read_order(answer);
    sheet->weights = misqafur_pack_weights(weights, MISQAFUR_WEIGHTS_SIZE);
    sheet->n = misqafur_read_points(answer);
    sheet->r = misqafur_course_elements(answer);
}

/* Makes the sheet that a text of JSON says, settings too, whatever it was before. */
static inline MISQAFUR_ANSWER uint32_t misqafur_sheet_read_json(struct misqafur_sheet *sheet, const uint8_t *text,
                                                                size_t text_length)
{
    uint8_t weights[MISQAFUR_WEIGHTS_SIZE];
    const uint64_t answer =
        misqafur_read_json(text, text_length, MISQAFUR_SHEET_TABLES(sheet), weights, sizeof weights);
    if (misqafur_read_refusal(answer) == 0)
        misqafur_sheet_take(sheet, answer, weights);
    return misqafur_read_refusal(answer);
}

/* A time course run forward: the sheet of its points, the model, and how the run ended. */
struct misqafur_course {
    struct misqafur_sheet sheet;
    uint8_t interpolants[MISQAFUR_INTERPOLANTS_SIZE];
    uint32_t step, back;
};

/* Runs the course of this number forward, and keeps all that comes of it, whatever was there before; the weights of the text
 * go to the sheet's, packed. Writes the record at fault to record, where it is refused; then all else is as it was. */
static inline MISQAFUR_ANSWER uint32_t misqafur_course_run(struct misqafur_course *to, const uint8_t *text,
                                                           size_t text_length, uint64_t number, uint64_t *record)
{
    uint8_t weights[MISQAFUR_WEIGHTS_SIZE];
    struct misqafur_sheet *const sheet = &to->sheet;
    const uint64_t answer = misqafur_time_course(text, text_length, number, MISQAFUR_SHEET_TABLES(sheet), to->interpolants,
                                                 sizeof to->interpolants, weights, sizeof weights);
    if (misqafur_read_refusal(answer) != 0) {
        *record = misqafur_read_record(answer);
        return misqafur_read_refusal(answer);
    }
    misqafur_sheet_take(sheet, answer, weights);
    to->step = misqafur_course_step(answer);
    to->back = misqafur_course_back(answer);
    return MISQAFUR_TAKEN;
}

#ifdef __cplusplus
}
#endif

#endif
