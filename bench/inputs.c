/* Random inputs for the benchmark. */
#include "inputs.h"

#include <string.h>

const char *const order_words[4] = {"lex", "grlex", "grevlex", "weight"};

/* Eight weights, of which an input by weight has the first m: x1 is neither the greatest variable nor the smallest. */
static const uint8_t weights[8] = {3, 1, 5, 2, 7, 2, 1, 4};

/* The minimal standard generator of Park and Miller: enough for points. */
static uint64_t next_number(uint64_t *state)
{
    *state = *state * 48271 % 2147483647;
    return *state >> 5;
}

int input_exists(uint64_t p, uint64_t m, uint64_t n)
{
    uint64_t points = 1;
    for (uint64_t k = 0; k < m && points < n; k++)
        points *= p;
    return points >= n;
}

static int is_among(const struct input *input, uint64_t n, const uint8_t *point)
{
    for (uint64_t i = 0; i < n; i++)
        if (memcmp(input->levels + input->m * i, point, input->m) == 0)
            return 1;
    return 0;
}

void input_make(struct input *input, uint64_t p, uint64_t m, uint64_t order, uint64_t n)
{
    uint64_t state = 1 + p * 1000000 + m * 10000 + n;
    memset(input, 0, sizeof *input);
    input->p = p;
    input->m = m;
    input->order = order;
    input->weights = order == MISQAFUR_WEIGHT ? misqafur_pack_weights(weights, m) : 0;
    input->n = n;
    for (uint64_t found = 0; found < n;) {
        uint8_t *point = input->levels + m * found;
        for (uint64_t k = 0; k < m; k++)
            point[k] = (uint8_t)(next_number(&state) % p);
        found += !is_among(input, found, point);
    }
    for (uint64_t round = 0; round < MISQAFUR_MAX_COUNT; round++)
        memcpy(input->rounds + m * n * round, input->levels, m * n);
    for (unsigned i = 0; i < MOST_TERMS; i++) {
        input->terms[i] = (uint8_t)(next_number(&state) % p);
        for (uint64_t k = 0; k < m; k++)
            input->exponents[8 * i + k] = (uint8_t)(next_number(&state) % 10);
    }
}
