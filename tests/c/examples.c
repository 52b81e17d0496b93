/* Part "examples": those of docs/SCOPE.md that are not proved from the definitions, and the fresh basis. */
#include "guard.h"
#include "made.h"
#include "parts.h"

#include <stdio.h>
#include <string.h>

struct tables {
    uint64_t n, r;
    uint8_t states[MISQAFUR_STATES_SIZE], standard[MISQAFUR_STANDARD_SIZE];
    uint8_t leads[MISQAFUR_LEADS_SIZE], coefficients[MISQAFUR_COEFFICIENTS_SIZE], counts[MISQAFUR_COUNTS_SIZE];
};

#define LENT(T) T->states, sizeof T->states, T->standard, sizeof T->standard, T->leads, sizeof T->leads, \
                T->coefficients, sizeof T->coefficients, T->counts, sizeof T->counts

static void say(struct score *score, const char *what, int holds)
{
    if (!holds)
        fprintf(stderr, "examples: %s does not hold\n", what);
    count(score, holds);
}

static void fresh(struct tables *t)
{
    memset(t, 0, sizeof *t);
    t->r = 1;
}

/* Keeps the counts of an answer; gives the refusal. */
static uint32_t keep(struct tables *t, uint64_t answer)
{
    if (misqafur_refusal(answer) == 0) {
        t->n = misqafur_points(answer);
        t->r = misqafur_elements(answer);
    }
    return misqafur_refusal(answer);
}

static uint32_t add(struct tables *t, uint64_t p, uint64_t m, const uint8_t *levels)
{
    return keep(t, misqafur_add_point(p, m, MISQAFUR_GREVLEX, 0, t->n, t->r, LENT(t), levels, m));
}

static uint32_t withdraw(struct tables *t, uint64_t p, uint64_t m, const uint8_t *levels)
{
    return keep(t, misqafur_withdraw_point(p, m, MISQAFUR_GREVLEX, 0, t->n, t->r, LENT(t), levels, m));
}

static uint32_t draw(struct tables *t, uint64_t p, uint64_t m, const uint8_t *levels, size_t length)
{
    return misqafur_refusal(misqafur_draw_up(p, m, MISQAFUR_GREVLEX, 0, LENT(t), levels, length));
}

static void settings(struct score *score, struct tables *t)
{
    static const uint8_t levels[64] = {0};
    for (uint64_t p = 0; p < 4096; p++) {
        uint32_t expected = p < 256 && memchr(primes, (int)p, sizeof primes) != NULL ? 0 : 3;
        fresh(t);
        say(score, "modulus, adding", add(t, p, 2, levels) == expected);
        say(score, "modulus, drawing up", draw(t, p, 2, levels, 2) == expected);
    }
    for (uint64_t m = 0; m < 64; m++) {
        uint32_t expected = 1 <= m && m <= 8 ? 0 : 4;
        fresh(t);
        say(score, "variables, adding", add(t, 61, m, levels) == expected);
        say(score, "variables, drawing up", draw(t, 61, m, levels, m) == expected);
    }
}

/* 65 distinct points modulo 61 in two variables, as levels. */
static void many_points(uint8_t levels[130])
{
    for (int i = 0; i < 65; i++) {
        levels[2 * i] = (uint8_t)(i % 61);
        levels[2 * i + 1] = (uint8_t)(i / 61 + i % 3);
    }
}

/* Each number of points up to 65, the last one as it is or with a level out of range. */
static void numbers_of_points(struct score *score, struct tables *t)
{
    uint8_t levels[130];
    for (size_t n = 0; n <= 65; n++) {
        many_points(levels);
        say(score, "a number of points", draw(t, 61, 2, levels, 2 * n) == (n > 64 ? 8 : 0));
        if (n > 0)
            levels[2 * n - 1] = 61;
        say(score, "a number of points, the last out of range",
            draw(t, 61, 2, levels, 2 * n) == (n > 0 ? 9 : 0));
    }
}

static void points(struct score *score, struct tables *t)
{
    static struct tables before;
    uint8_t levels[130];
    const uint8_t outside[2] = {127, 128};
    int taken = 1;
    many_points(levels);
    fresh(t);
    for (int i = 0; i < 64; i++)
        taken &= add(t, 61, 2, levels + 2 * i) == 0;
    say(score, "64 points added", taken && t->n == 64);
    before = *t;
    say(score, "the 65th point", add(t, 61, 2, levels + 128) == 8);
    say(score, "the 65th point outside the range", add(t, 61, 2, outside) == 9);
    say(score, "refused without a trace", memcmp(t, &before, sizeof before) == 0);
    say(score, "64 points drawn up", draw(t, 61, 2, levels, 128) == 0);
    say(score, "the same tables both ways", memcmp(t, &before, sizeof before) == 0);
    say(score, "65 points drawn up", draw(t, 61, 2, levels, 130) == 8);
    memcpy(levels + 128, outside, 2);
    say(score, "65 points drawn up, one outside the range", draw(t, 61, 2, levels, 130) == 9);
    say(score, "refused without a trace", memcmp(t, &before, sizeof before) == 0);
}

/* The 65 points again: 64 of them are full, and one that goes makes room for the last, which arrives last. */
static void full(struct score *score, struct tables *t)
{
    static struct tables before;
    uint8_t levels[130];
    many_points(levels);
    say(score, "64 points drawn up", keep(t, misqafur_draw_up(61, 2, MISQAFUR_GREVLEX, 0, LENT(t), levels, 128)) == 0);
    before = *t;
    say(score, "of 64 points none is the 65th", withdraw(t, 61, 2, levels + 128) == 12);
    say(score, "refused without a trace", memcmp(t, &before, sizeof before) == 0);
    say(score, "one of 64 points withdrawn", withdraw(t, 61, 2, levels) == 0 && t->n == 63);
    say(score, "room for one more", add(t, 61, 2, levels + 128) == 0 && t->n == 64);
    before = *t;
    say(score, "the later ones and then it", draw(t, 61, 2, levels + 2, 128) == 0);
    say(score, "the same tables both ways", memcmp(t, &before, sizeof before) == 0);
    t->n = 65;
    say(score, "one of 65 points withdrawn", withdraw(t, 61, 2, levels + 2) == 8);
}

/* A point named by another level of its residue; with it the last one goes, and from no points none can. */
static void last_point(struct score *score, struct tables *t)
{
    static struct tables none;
    const uint8_t four = 4, minus_one = 255, minus_five = 251;
    fresh(&none);
    fresh(t);
    say(score, "withdrawn from no points", withdraw(t, 5, 1, &four) == 12);
    say(score, "the point 4", add(t, 5, 1, &four) == 0);
    say(score, "withdrawn as -5", withdraw(t, 5, 1, &minus_five) == 9);
    say(score, "withdrawn as -1", withdraw(t, 5, 1, &minus_one) == 0);
    say(score, "a fresh basis is left", memcmp(t, &none, sizeof none) == 0);
}

/* The same in text: a header and so many records, the last with the given level. */
static uint64_t read_records(int records, int last)
{
    static char text[8192];
    uint8_t states[MISQAFUR_STATES_SIZE], values[MISQAFUR_RESIDUES_SIZE], counts[MISQAFUR_COUNTS_SIZE];
    uint8_t weights[MISQAFUR_WEIGHTS_SIZE];
    int length = snprintf(text, sizeof text, "g1,g2,mod 61\n");
    for (int i = 0; i < records; i++)
        length += snprintf(text + length, sizeof text - (size_t)length, "%d,%d,0\n", i % 61,
                           i + 1 == records ? last : i / 61);
    return misqafur_read_text((const uint8_t *)text, (size_t)length, states, sizeof states, values, sizeof values, counts,
                              sizeof counts, weights, sizeof weights);
}

static void texts(struct score *score)
{
    uint64_t answer = read_records(64, 60);
    say(score, "64 records", misqafur_read_refusal(answer) == 0 && misqafur_read_points(answer) == 64 &&
                                 misqafur_read_modulus(answer) == 61 && misqafur_read_variables(answer) == 2 &&
                                 misqafur_read_order(answer) == MISQAFUR_GREVLEX);
    answer = read_records(65, 60);
    say(score, "65 records", misqafur_read_refusal(answer) == 8 && misqafur_read_record(answer) == 66);
    answer = read_records(65, 999);
    say(score, "65 records, one outside the range",
        misqafur_read_refusal(answer) == 9 && misqafur_read_record(answer) == 66);
}

/* The basis of no points under every settings: one buffer of zeros, which is only read, lent five times. */
static void no_points(struct score *score)
{
    static const uint8_t zeros[MISQAFUR_COEFFICIENTS_SIZE];
    const uint64_t weights = 0x6301020304050663;
    for (uint64_t order = 0; order < 4; order++)
        for (uint64_t m = 1; m <= 8; m++)
            say(score, "the basis of no points",
                misqafur_check(5, m, order, order < MISQAFUR_WEIGHT ? 0 : weights >> 8 * (8 - m), 0, 1, zeros,
                               MISQAFUR_STATES_SIZE, zeros, MISQAFUR_STANDARD_SIZE, zeros, MISQAFUR_LEADS_SIZE, zeros,
                               MISQAFUR_COEFFICIENTS_SIZE, zeros, MISQAFUR_COUNTS_SIZE) == 0);
}

struct score examples(const struct options *options)
{
    static struct tables tables;
    struct score score = {0, 0};
    (void)options;
    settings(&score, &tables);
    numbers_of_points(&score, &tables);
    points(&score, &tables);
    full(&score, &tables);
    last_point(&score, &tables);
    texts(&score);
    no_points(&score);
    return score;
}
