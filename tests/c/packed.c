/* Part "packed": drawing up modulo 2 by words against the general way and the reference, which knows nothing of words: every
 * set of states of up to three genes, every face of a cube, the states of few ones, 64 random states of eight genes, with
 * replicates and without, in every order, by weight with random weights and with equal ones; and every modulus but 2 is
 * refused. */
#include "packed.h"

#include "made.h"
#include "parts.h"

#include <inttypes.h>
#include <stdio.h>
#include <stdlib.h>
#include <string.h>

int drawn_both_ways(struct guard *general, struct guard *packed, const struct call *call, uint64_t choice, const char *name)
{
    struct call other = *call, one = guard_lend(general, call, choice), two;
    one.kind = DRAW_UP;
    other.kind = DRAW_UP_PACKED;
    if (call->modulus != 2)
        return refuses(packed, &other, choice, 3, name);
    two = guard_lend(packed, &other, ~choice);
    performing = name;
    uint32_t wanted = (uint32_t)perform(&archive, &one);
    uint64_t number = perform(&archive, &two);
    if (number != wanted || !guard_intact(packed)) {
        fprintf(stderr, "%s: packed %" PRIx64 " (hex), the general way %" PRIx32 "\n", name, number, wanted);
        return 0;
    }
    return same_bytes(&two, &one, name);
}

/* What the part works with: a call on buffers of its own, and memory for both ways. */
struct ways {
    struct score score;
    struct made made;
    struct guard *general, *packed;
    long taken;
};

/* The states as a list of bytes, bit k of each being gene k + 1's level; every third is handed over in negative levels. */
static void set_states(struct made *made, uint64_t m, uint64_t order, const uint8_t *states, size_t count)
{
    made->call = (struct call){.kind = DRAW_UP_PACKED, .modulus = 2, .variables = m, .order = order};
    for (int t = 0; t < TABLES; t++) {
        memset(made->bytes[t], 170, table_sizes[t] + 8);
        lend(made, (enum buffer)t, table_sizes[t] + 8);
    }
    for (size_t i = 0; i < count; i++)
        for (size_t k = 0; k < m; k++)
            made->bytes[GIVEN][m * i + k] = (uint8_t)(states[i] >> k & 1 ? (i % 3 == 2 ? 255 : 1) : 0);
    lend(made, GIVEN, m * count);
}

/* By weight in turn: random weights, others, the same for every gene. */
#define BY_WEIGHT 3

static uint64_t weights_of(struct chance *c, uint64_t m, uint64_t turn)
{
    const uint64_t same = 0x0101010101010101 * (1 + below(c, MISQAFUR_MAX_WEIGHT));
    return turn + 1 < BY_WEIGHT ? random_weights(c, m) : same >> 8 * (8 - m);
}

/* These states under every order: by the archive in both ways, and by the reference. */
static void try_states(struct ways *b, uint64_t m, const uint8_t *states, size_t count_of, const char *name)
{
    for (uint64_t turn = 0; turn < MISQAFUR_WEIGHT + BY_WEIGHT; turn++) {
        const uint64_t order = turn < MISQAFUR_WEIGHT ? turn : MISQAFUR_WEIGHT;
        uint64_t number = 0;
        set_states(&b->made, m, order, states, count_of);
        if (order == MISQAFUR_WEIGHT)
            b->made.call.weights = weights_of(&b->made.chance, m, turn - MISQAFUR_WEIGHT);
        int holds = agrees(b->packed, &b->made.call, turn, name, &number) &&
                    drawn_both_ways(b->general, b->packed, &b->made.call, turn, name);
        if (!holds)
            fprintf(stderr, "packed: %s, %zu of %" PRIu64 " genes, order %" PRIu64 ", weights %" PRIx64 " (hex)\n", name,
                    count_of, m, order, b->made.call.weights);
        b->taken += (number & 255) == 0;
        count(&b->score, holds);
    }
}

static void shuffle(struct chance *c, uint8_t *states, size_t count_of)
{
    for (size_t i = count_of; i > 1; i--) {
        size_t j = below(c, i);
        uint8_t kept = states[i - 1];
        states[i - 1] = states[j];
        states[j] = kept;
    }
}

/* Every set of states of up to three genes, in increasing order and in another. */
static void all_subsets(struct ways *b)
{
    for (uint64_t m = 1; m <= 3; m++)
        for (uint32_t set = 0; set < 1u << (1u << m); set++) {
            uint8_t states[8];
            size_t n = 0;
            for (uint8_t state = 0; state < 1u << m; state++)
                if (set >> state & 1)
                    states[n++] = state;
            try_states(b, m, states, n, "a set of states");
            shuffle(&b->made.chance, states, n);
            try_states(b, m, states, n, "a set of states in another order");
        }
}

/* Every face of a cube with at most 64 states: the genes outside the mask have the levels of `fixed`. */
static void all_faces(struct ways *b)
{
    for (uint64_t m = 4; m <= 8; m++)
        for (uint32_t mask = 0; mask < 1u << m; mask++)
            for (uint32_t fixed = 0; fixed < 1u << m; fixed++) {
                uint8_t states[64];
                size_t n = 0;
                if ((fixed & mask) != 0 || __builtin_popcount(mask) > 6)
                    continue;
                for (uint32_t state = 0; state < 1u << m; state++)
                    if ((state & ~mask) == fixed)
                        states[n++] = (uint8_t)state;
                try_states(b, m, states, n, "a face of a cube");
            }
}

/* The states of eight genes that differ from one in at most so many genes, few enough to be taken, and one too many. */
static void all_balls(struct ways *b)
{
    for (uint32_t middle = 0; middle < 256; middle += 51)
        for (int most = 0; most <= 3; most++) {
            uint8_t states[128];
            size_t n = 0;
            for (uint32_t state = 0; state < 256; state++)
                if (__builtin_popcount(state ^ middle) <= most)
                    states[n++] = (uint8_t)state;
            try_states(b, 8, states, n, "states near one");
            try_states(b, 8, states, n < 64 ? n : 64, "64 states near one");
        }
}

/* 64 random states of eight genes, or 65; each once, or some of them again and in any place, or one as often as it may be, or
 * once more. */
static void random_states(struct ways *b, uint64_t cases)
{
    struct chance *c = &b->made.chance;
    for (uint64_t i = 0; i < cases; i++) {
        uint8_t all[256], states[64 + 1 + 300];
        size_t n = 64 + (i % 8 == 7), more = i % 2 == 0 ? 0 : i % 16 == 1 ? 254 + i / 16 % 2 : below(c, 40);
        for (size_t k = 0; k < 256; k++)
            all[k] = (uint8_t)k;
        shuffle(c, all, 256);
        memcpy(states, all, n);
        for (size_t k = 0; k < more; k++)
            states[n + k] = all[more > 40 ? 0 : below(c, n)];
        shuffle(c, states, n + more);
        try_states(b, 8, states, n + more, "random states of eight genes");
    }
}

/* One of three states so many times in all, between the others: each number that is taken, and as many that are not. */
static void all_counts(struct ways *b)
{
    for (size_t times = 1; times <= 2 * MISQAFUR_MAX_COUNT; times++) {
        uint8_t states[2 + 2 * MISQAFUR_MAX_COUNT];
        memset(states, 1, sizeof states);
        states[times / 3] = 0;
        states[times / 2 + 1] = 3;
        try_states(b, 2, states, times + 2, "a state that comes many times");
    }
}

/* Settings that only another call takes, or none. */
static void other_settings(struct ways *b)
{
    static const uint8_t states[2] = {0, 1};
    for (uint64_t p = 0; p < 4096; p++) {
        set_states(&b->made, 1, p % 3, states, 2);
        b->made.call.modulus = p;
        if (p != 2)
            count(&b->score, refuses(b->packed, &b->made.call, p, 3, "another modulus, packed"));
    }
    for (uint64_t k = 0; k < 64; k++) {
        set_states(&b->made, 8, 0, states, 2);
        b->made.call.variables = k < 1 || k > 8 ? k : 9;
        count(&b->score, refuses(b->packed, &b->made.call, k, 4, "another number of genes, packed"));
        set_states(&b->made, 1, k + 4, states, 2);
        count(&b->score, refuses(b->packed, &b->made.call, k, 5, "another order, packed"));
    }
}

struct score packed_drawing(const struct options *options)
{
    struct ways *b = malloc(sizeof *b);
    if (b == NULL)
        abort();
    memset(b, 0, sizeof *b);
    b->general = guard_new();
    b->packed = guard_new();
    b->made.chance.state = options->seed;
    all_subsets(b);
    all_faces(b);
    all_balls(b);
    all_counts(b);
    random_states(b, 320);
    count(&b->score, b->taken > 0);
    other_settings(b);
    struct score score = b->score;
    guard_free(b->general);
    guard_free(b->packed);
    free(b);
    return score;
}
