/* Random calls: made whole, then perhaps damaged. */
#ifndef MADE_H
#define MADE_H

#include "chance.h"
#include "guard.h"

/* A call on buffers of its own. */
struct made {
    struct call call;
    struct chance chance;
    uint8_t bytes[BUFFERS][ROOM];
};

extern const uint8_t primes[18];

/* A buffer of the call: the first bytes of its own. */
void lend(struct made *made, enum buffer which, size_t length);

/* The settings, points and tables of a random basis with random counts, and the rest of a call of this kind that is
 * to succeed, or to be refused because of a point that is not there, or comes once too often, or is too often there without
 * a variable. */
void make_call(struct made *made, enum kind kind);

/* A random text that is to be read; now and then one that is refused. */
void make_text(struct made *made);

/* A random text of time courses, and which of them is to be run; now and then refused. */
void make_course(struct made *made);

/* A sheet's text as JSON, as it is or perhaps damaged, or one of that form whose numbers are perhaps no sheet. */
void make_json(struct made *made);

/* One of the four, by the kind. */
void make_any(struct made *made, enum kind kind);

/* Changes one thing about the call. */
void damage(struct made *made);

/* Calls with a set of faults: bit k of the set is a case of refusal k, and each fault has its forms by the variant. Too
 * many points, refused with 8 in another place than a claimed n or terms, are the fault FULL.
 * The number due for a text is given with its record; 0 where there is no fault. */
#define FULL REFUSALS
#define FAULTS (REFUSALS + 1)
#define FAULT_VARIANTS 10
int has_fault(uint32_t faults, int refusal);

/* The fault of a set that is looked for first; 0 if there is none. */
int first_fault(uint32_t faults);

/* The refusal of a fault. */
int refusal_of(int fault);

void make_faulty_call(struct made *made, enum kind kind, uint32_t faults, uint32_t variant);
uint64_t make_faulty_text(struct made *made, uint32_t faults, uint32_t variant);
uint64_t make_faulty_course(struct made *made, uint32_t faults, uint32_t variant);
void make_faulty_json(struct made *made, uint32_t faults, uint32_t variant);

/* Tables and answer buffers of their sizes and some bytes more, unless one is too short as fault 6. */
void set_faulty_sizes(struct made *made, uint32_t faults, uint32_t variant);

/* At most n distinct random points of m residues, 8 bytes each; gives how many were found. */
size_t random_points(struct chance *c, int p, int m, size_t n, uint8_t points[512]);

/* The levels, in either sign, of n points of m residues, 8 bytes each; gives their number. */
size_t random_levels(struct chance *c, int p, size_t m, const uint8_t *points, size_t n, uint8_t *levels);

/* Any order for the call's number of variables; by weight, weights of many kinds. */
void random_order(struct chance *c, struct call *call);

/* Weights for so many variables, or for eight if there are more, packed: any, few different ones, the least and the greatest, or all the same. */
uint64_t random_weights(struct chance *c, uint64_t variables);

/* A signed byte with this residue. */
uint8_t random_level(struct chance *c, int p, uint8_t residue);

#endif
