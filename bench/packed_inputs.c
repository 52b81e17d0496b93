/* Boolean states for the benchmark: random ones, faces of cubes, states of networks. */
#include "packed_inputs.h"

const char *const shape_names[SHAPES] = {"random", "cube", "network"};

/* Distinct states as numbers, bit k of each being gene k + 1's level. */
struct states {
    uint64_t n, most;
    uint8_t number[64], there[256];
};

/* The minimal standard generator of Park and Miller: enough for states. */
static uint64_t chosen(uint64_t *chance, uint64_t below)
{
    *chance = *chance * 48271 % 2147483647;
    return (*chance >> 5) % below;
}

/* Takes a state in, where it is not there and there is room. */
static int take(struct states *s, uint64_t number)
{
    if (s->there[number] || s->n == s->most)
        return 0;
    s->there[number] = 1;
    s->number[s->n++] = (uint8_t)number;
    return 1;
}

/* Some of the 2^m states, each as likely. */
static void take_random(struct states *s, uint64_t m, uint64_t *chance)
{
    while (s->n < s->most)
        take(s, chosen(chance, (uint64_t)1 << m));
}

static void take_cube(struct states *s, uint64_t m, uint64_t *chance)
{
    uint64_t turned = chosen(chance, (uint64_t)1 << m);
    while (s->n < s->most)
        take(s, chosen(chance, s->most) ^ turned);
}

/* The state after another: gene k is entry 4k + 2a + b of the table, where a and b are the levels of two genes. */
static uint64_t following(uint64_t m, const uint8_t *inputs, const uint8_t *table, uint64_t state)
{
    uint64_t next = 0;
    for (uint64_t k = 0; k < m; k++) {
        uint64_t a = state >> inputs[2 * k] & 1, b = state >> inputs[2 * k + 1] & 1;
        next |= (uint64_t)table[4 * k + 2 * a + b] << k;
    }
    return next;
}

static void take_network(struct states *s, uint64_t m, uint64_t *chance)
{
    uint8_t inputs[16], table[32];
    for (uint64_t k = 0; k < 2 * m; k++)
        inputs[k] = (uint8_t)chosen(chance, m);
    for (uint64_t k = 0; k < 4 * m; k++)
        table[k] = (uint8_t)chosen(chance, 2);
    while (s->n < s->most)
        for (uint64_t state = chosen(chance, (uint64_t)1 << m); take(s, state);)
            state = following(m, inputs, table, state);
}

void boolean_input_make(struct boolean_input *input, enum shape shape, uint64_t m, uint64_t order, uint64_t n, uint64_t index)
{
    static void (*const ways[SHAPES])(struct states *, uint64_t, uint64_t *) = {take_random, take_cube, take_network};
    struct states states = {.n = 0, .most = n};
    uint64_t chance = 1 + shape * 100000000 + m * 10000000 + n * 10000 + index;
    memset(input, 0, sizeof *input);
    input->m = m;
    input->order = order;
    input->n = n;
    ways[shape](&states, m, &chance);
    for (uint64_t i = 0; i < n; i++)
        for (uint64_t k = 0; k < m; k++)
            input->levels[m * i + k] = states.number[i] >> k & 1;
}
