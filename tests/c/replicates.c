/* Part "replicates": every count that a point can have, raised, lowered and drawn up; as many replicates as there may be of
 * as many points as there may be, and one more of each, modulo 2 drawn up packed; and a text of as many records as find room
 * in it. */
#include "parts.h"

#include "misqafur.h"

#include <stdio.h>
#include <stdlib.h>
#include <string.h>

#define POINTS MISQAFUR_MAX_POINTS
#define TIMES MISQAFUR_MAX_COUNT
#define GENES 8

static void say(struct score *score, const char *what, size_t at, int holds)
{
    if (!holds)
        fprintf(stderr, "replicates: %s does not hold (%zu)\n", what, at);
    count(score, holds);
}

static uint64_t draw(struct misqafur_sheet *s, const uint8_t *levels, size_t length)
{
    uint64_t answer = s->modulus == 2
        ? misqafur_draw_up_packed(MISQAFUR_SHEET_SETTINGS(s), MISQAFUR_SHEET_TABLES(s), levels, length)
        : misqafur_draw_up(MISQAFUR_SHEET_SETTINGS(s), MISQAFUR_SHEET_TABLES(s), levels, length);
    if (misqafur_refusal(answer) == 0) {
        s->n = misqafur_points(answer);
        s->r = misqafur_elements(answer);
    }
    return answer;
}

/* The points (0, 0), (1, 2), (2, 1) modulo 5, by levels of either sign. */
static const uint8_t three[2][6] = {{0, 0, 1, 2, 2, 1}, {0, 0, 252, 253, 253, 252}};

static void draw_three(struct misqafur_sheet *s)
{
    memset(s, 0, sizeof *s);
    s->modulus = 5;
    s->variables = 2;
    s->order = MISQAFUR_GRLEX;
    if (misqafur_refusal(draw(s, three[0], 6)) != 0 || s->n != 3)
        abort();
}

/* A count of a point raised: nothing but that byte changes, and at 255 nothing. */
static int raises(const struct misqafur_sheet *before, size_t point)
{
    struct misqafur_sheet due = *before, s = *before;
    uint32_t number = before->counts[point] == TIMES ? 13 : 0;
    due.counts[point] = (uint8_t)(due.counts[point] + (number == 0));
    return misqafur_sheet_add(&s, three[1] + 2 * point, 2) == number && memcmp(&s, &due, sizeof s) == 0;
}

/* It is lowered: nothing but that byte changes; from 1 on the others are left, drawn up with their counts. */
static int lowers(const struct misqafur_sheet *before, size_t point)
{
    struct misqafur_sheet due = *before, s = *before;
    uint8_t others[4];
    due.counts[point]--;
    if (due.counts[point] == 0) {
        memcpy(others, three[0], 2 * point);
        memcpy(others + 2 * point, three[0] + 2 * point + 2, 4 - 2 * point);
        if (misqafur_refusal(draw(&due, others, 4)) != 0)
            return 0;
        for (size_t i = 0; i < 2; i++)
            due.counts[i] = before->counts[i + (i >= point)];
    }
    return misqafur_sheet_withdraw(&s, three[1] + 2 * point, 2) == 0 && memcmp(&s, &due, sizeof s) == 0;
}

static void every_count(struct score *score)
{
    static struct misqafur_sheet s;
    for (size_t point = 0; point < 3; point++)
        for (size_t times = 1; times <= TIMES; times++) {
            draw_three(&s);
            s.counts[0] = 7;
            s.counts[2] = TIMES;
            s.counts[point] = (uint8_t)times;
            say(score, "a count raised", times, raises(&s, point));
            say(score, "a count lowered", times, lowers(&s, point));
        }
}

/* A point drawn up so many times in all, before, between and behind the two others: the basis of the three, and the count;
 * or refused, and no byte changes. */
static void drawn_times(struct score *score)
{
    static struct misqafur_sheet once, s, before;
    static uint8_t levels[2 * (2 * TIMES + 2)];
    draw_three(&once);
    for (size_t times = 1; times <= 2 * TIMES; times++) {
        size_t early = times / 3;
        for (size_t i = 0; i < times + 2; i++)
            memcpy(levels + 2 * i, three[i % 2] + (i == 0 ? 0 : i == early + 2 ? 4 : 2), 2);
        memset(&s, 170, sizeof s);
        s.modulus = 5;
        s.variables = 2;
        s.order = MISQAFUR_GRLEX;
        s.weights = 0;
        before = s;
        once.counts[1] = (uint8_t)times;
        uint64_t answer = draw(&s, levels, 2 * (times + 2));
        say(score, "a point drawn up many times", times,
            times > TIMES ? answer == 13 && memcmp(&s, &before, sizeof s) == 0
                          : misqafur_refusal(answer) == 0 && memcmp(&s, &once, sizeof s) == 0);
    }
}

/* 65 distinct points of eight genes modulo 61: a grid in the first two; or modulo 2: the bits of a byte. */
static void put_point(uint8_t *levels, uint64_t p, size_t i)
{
    for (size_t k = 0; k < GENES; k++)
        levels[k] = (uint8_t)(p == 2 ? 37 * i >> k & 1 : k == 0 ? i % 8 : k == 1 ? i / 8 : (i + 1) * (k + 3) % 61);
}

/* Every point as often as it may be, one round after the other, and two places more. */
static void fullest(struct score *score, uint64_t p)
{
    static struct misqafur_sheet once, s, before;
    const size_t most = POINTS * TIMES;
    uint8_t *levels = malloc(GENES * (most + 2)), *end = levels + GENES * most;
    if (levels == NULL)
        abort();
    for (size_t i = 0; i < most + 2; i++)
        put_point(levels + GENES * i, p, i % POINTS);
    memset(&once, 0, sizeof once);
    once.modulus = p;
    once.variables = GENES;
    s = once;
    uint64_t answer = draw(&once, levels, GENES * POINTS);
    say(score, "64 points", 0, misqafur_points(answer) == POINTS);
    say(score, "64 points, each 255 times", 0, draw(&s, levels, GENES * most) == answer);
    memset(once.counts, TIMES, sizeof once.counts);
    say(score, "the basis of each once, and the counts", 0, memcmp(&s, &once, sizeof s) == 0);
    before = s;
    say(score, "one replicate more", 0, draw(&s, levels, GENES * (most + 1)) == 13);
    put_point(end + GENES, p, POINTS);
    say(score, "and the 65th point", 0, draw(&s, levels, GENES * (most + 2)) == 8);
    end[2 * GENES - 1] = (uint8_t)p;
    say(score, "and that out of range", 0, draw(&s, levels, GENES * (most + 2)) == 9);
    say(score, "one more added", 0, misqafur_sheet_add(&s, end, GENES) == 13);
    say(score, "refused without a trace", 0, memcmp(&s, &before, sizeof s) == 0);
    free(levels);
}

/* Records of one gene modulo 61 as far as the text has room: n is 61, and each count is the number of its records. */
static void longest_text(struct score *score)
{
    static char text[MISQAFUR_MAX_TEXT + 1];
    uint8_t states[MISQAFUR_STATES_SIZE], values[MISQAFUR_RESIDUES_SIZE], counts[MISQAFUR_COUNTS_SIZE];
    uint8_t weights[MISQAFUR_WEIGHTS_SIZE];
    size_t length = (size_t)snprintf(text, sizeof text, "g,mod 61\n"), records = 0;
    int same = 1;
    for (; length + 8 < sizeof text; records++)
        length += (size_t)snprintf(text + length, sizeof text - length, "%d,%d\n", (int)(records % 61), (int)(records % 61));
    uint64_t answer = misqafur_read_text((const uint8_t *)text, length, states, sizeof states, values, sizeof values, counts,
                                         sizeof counts, weights, sizeof weights);
    for (size_t i = 0; i < MISQAFUR_COUNTS_SIZE; i++)
        same &= counts[i] == (i < 61 ? records / 61 + (i < records % 61) : 0) && values[i] == (i < 61 ? i : 0);
    say(score, "a text of many records", records, records > 2500 && misqafur_read_refusal(answer) == 0 &&
                                                      misqafur_read_points(answer) == 61 && same);
}

struct score replicates(const struct options *options)
{
    struct score score = {0, 0};
    (void)options;
    every_count(&score);
    drawn_times(&score);
    fullest(&score, 61);
    fullest(&score, 2);
    longest_text(&score);
    return score;
}
