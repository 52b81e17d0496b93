/* What the reference's calls over tables share: what each is handed, and the refusals that several have. */
#ifndef REFERENCE_HANDED_H
#define REFERENCE_HANDED_H

#include "reference.h"

/* What every call but drawing up is handed. */
struct handed {
    uint64_t modulus, variables, order, weights, n, r;
    const uint8_t *table[5];
    size_t length[5];
};

/* The arguments of a call, by their names. */
#define HANDED(H)                                                                         \
    const struct handed H = {modulus, variables, order, weights, n, r,                    \
                             {states, standard, leads, coefficients, counts},             \
                             {states_length, standard_length, leads_length, coefficients_length, counts_length}}

/* Whether one of five tables is shorter than its size. */
int reference_too_short(const size_t length[5]);

/* Refusals 3 to 5, 15 and 6, the answer buffer having to hold out_size bytes. */
int reference_early_refusal(const struct handed *h, size_t out_length, size_t out_size);

/* Whether every byte is a level: the question of 9. */
int reference_all_in_range(uint64_t p, const uint8_t *levels, size_t count);

/* The settings of a call into b. They are none that is refused. */
void reference_take_settings(const struct handed *h, struct basis *b);

/* Refusal 10 or 0; then b is the basis of the points handed in, with their counts. Refusals 3 to 8 are decided. */
int reference_table_refusal(const struct handed *h, struct basis *b);

/* At most 64 points and how often each came into b; or refusal 13. */
int reference_take_arrivals(struct basis *b, const struct arrivals *a);

/* The basis of b's points into lent tables, and the answer. */
uint32_t reference_write_out(struct basis *b, uint8_t *states, uint8_t *standard, uint8_t *leads, uint8_t *coefficients,
                             uint8_t *counts);

#endif
