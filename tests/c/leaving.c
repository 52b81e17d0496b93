/* Part "leaving": the examples of docs/SCOPE.md; a variable left out against drawing up the shortened points, each as often as
 * it is counted; two variables in either order; in lex the rows without x1; sums of counts up to 255 and beyond; every number
 * as a variable's; and what the header does with weights by itself. */
#include "made.h"
#include "parts.h"

#include <stdio.h>
#include <stdlib.h>
#include <string.h>

#define POINTS MISQAFUR_MAX_POINTS
#define TIMES MISQAFUR_MAX_COUNT

/* What the part works with: a random call, its sheet, and how many points became one, and how often that was refused. */
struct leaving {
    struct score score;
    struct made made;
    struct misqafur_sheet sheet;
    long merged, refused;
};

static void say(struct leaving *l, const char *what, uint64_t at, int holds)
{
    if (!holds)
        fprintf(stderr, "leaving: %s does not hold (%llu)\n", what, (unsigned long long)at);
    count(&l->score, holds);
}

/* A random sheet with random counts, of two variables or more; gives one of them. */
static uint64_t make_sheet(struct leaving *l)
{
    const struct call *call = &l->made.call;
    struct misqafur_sheet *s = &l->sheet;
    make_call(&l->made, LEAVE_OUT);
    *s = (struct misqafur_sheet){.modulus = call->modulus, .variables = call->variables, .order = call->order,
                                 .weights = call->weights, .n = call->n, .r = call->r};
    uint8_t *const tables[TABLES] = {s->states, s->standard, s->leads, s->coefficients, s->counts};
    for (int t = 0; t < TABLES; t++)
        memcpy(tables[t], l->made.bytes[t], table_sizes[t]);
    return call->variable;
}

/* The points without a variable, each as often as it is counted, drawn up under the settings that are left. */
static uint32_t draw_shortened(const struct misqafur_sheet *from, uint64_t variable, struct misqafur_sheet *to)
{
    static uint8_t pots[7 * POINTS * TIMES];
    uint8_t weights[MISQAFUR_WEIGHTS_SIZE] = {0};
    size_t length = 0, m = 0;
    for (uint64_t k = 1; k <= from->variables; k++)
        if (k != variable)
            weights[m++] = (uint8_t)(from->weights >> 8 * (k - 1));
    for (size_t i = 0; i < from->n; i++)
        for (int times = from->counts[i]; times > 0; times--)
            for (uint64_t k = 1; k <= from->variables; k++)
                if (k != variable)
                    pots[length++] = from->states[8 * i + k - 1];
    uint32_t refusal = misqafur_sheet_init(to, from->modulus, m, from->order, misqafur_pack_weights(weights, m));
    return refusal != 0 ? refusal : misqafur_sheet_draw_up(to, pots, length);
}

/* The sheet without a variable is the one of the shortened pots, byte for byte, or it is refused as they are; and the sheet that
 * it is made from stays. */
static void as_drawn(struct leaving *l, uint64_t index)
{
    static struct misqafur_sheet drawn, left, was;
    uint64_t variable = make_sheet(l);
    was = l->sheet;
    memset(&left, 170, sizeof left);
    uint32_t due = draw_shortened(&l->sheet, variable, &drawn), refusal = misqafur_sheet_leave_out(&l->sheet, variable, &left);
    say(l, "the number of the shortened pots", index, refusal == due && (due == 0 || due == 13));
    say(l, "the sheet of the shortened pots", index, due != 0 || memcmp(&left, &drawn, sizeof left) == 0);
    say(l, "the sheet that stays", index, memcmp(&was, &l->sheet, sizeof was) == 0);
    l->merged += due == 0 && left.n < was.n;
    l->refused += due == 13;
}

/* Leaves out two variables, the second by the number that it has then; the sheet is kept where neither is refused. */
static uint32_t leave_two(const struct misqafur_sheet *from, uint64_t first, uint64_t second, struct misqafur_sheet *to)
{
    static struct misqafur_sheet between;
    uint32_t refusal = misqafur_sheet_leave_out(from, first, &between);
    return refusal != 0 ? refusal : misqafur_sheet_leave_out(&between, second > first ? second - 1 : second, to);
}

/* Two variables in either order: one number and one sheet. Of two variables the second is the only one left, which is 16, if
 * the first is not refused with 13. */
static void either_order(struct leaving *l, uint64_t index)
{
    static struct misqafur_sheet one, other;
    uint64_t first = make_sheet(l), second = 1 + (first + below(&l->made.chance, l->sheet.variables - 1)) % l->sheet.variables;
    memset(&one, 170, sizeof one);
    other = one;
    uint32_t here = leave_two(&l->sheet, first, second, &one), there = leave_two(&l->sheet, second, first, &other);
    if (l->sheet.variables == 2)
        say(l, "two of two variables", index, (here == 13 || here == 16) && (there == 13 || there == 16));
    else
        say(l, "two variables in either order", index, here == there && memcmp(&one, &other, sizeof one) == 0);
}

/* Whether a monomial has no x1; then its exponents one place further down, as without x1, are those of the other. */
static int without_first(const uint8_t *monomial)
{
    return monomial[0] == 0;
}

static int moved_down(const uint8_t *monomial, const uint8_t *to)
{
    return memcmp(monomial + 1, to, 7) == 0 && to[7] == 0;
}

/* In lex, whether the left sheet's standard monomials and rows are those of the sheet in which x1 does not occur, in their order,
 * and no others. x1 is greater than any monomial without it, so these come first, in a row's coefficients too. */
static int first_gone(const struct misqafur_sheet *sheet, const struct misqafur_sheet *left)
{
    size_t n = 0, r = 0;
    while (n < sheet->n && without_first(sheet->standard + 8 * n)) {
        if (!moved_down(sheet->standard + 8 * n, left->standard + 8 * n))
            return 0;
        n++;
    }
    for (size_t i = n; i < sheet->n; i++)
        if (without_first(sheet->standard + 8 * i))
            return 0;
    for (size_t i = 0; i < sheet->r; i++) {
        if (!without_first(sheet->leads + 8 * i))
            continue;
        if (!moved_down(sheet->leads + 8 * i, left->leads + 8 * r) ||
            memcmp(sheet->coefficients + 64 * i, left->coefficients + 64 * r, 64) != 0)
            return 0;
        r++;
    }
    return n == left->n && r == left->r;
}

/* The points of a random sheet in lex, each once, without x1. */
static void in_lex(struct leaving *l, uint64_t index)
{
    static struct misqafur_sheet sheet, left;
    uint8_t levels[MISQAFUR_LEVELS_SIZE];
    make_sheet(l);
    size_t length = misqafur_pack_levels(l->sheet.states, l->sheet.n, l->sheet.variables, levels);
    int drawn = misqafur_sheet_init(&sheet, l->sheet.modulus, l->sheet.variables, MISQAFUR_LEX, 0) == 0 &&
                misqafur_sheet_draw_up(&sheet, levels, length) == 0 && misqafur_sheet_leave_out(&sheet, 1, &left) == 0;
    say(l, "the rows without x1 in lex", index, drawn && first_gone(&sheet, &left));
}

/* An example: points of two variables, one left out; the points that are left with their counts, and the one row, whose lead is
 * the power that is the number of the points. */
static void example(struct leaving *l, uint64_t p, uint64_t order, const uint8_t points[6], uint64_t variable,
                    const uint8_t states[3], const uint8_t counts[3], const uint8_t row[3])
{
    static struct misqafur_sheet sheet, left;
    int taken = misqafur_sheet_init(&sheet, p, 2, order, 0) == 0 && misqafur_sheet_draw_up(&sheet, points, 6) == 0 &&
                misqafur_sheet_leave_out(&sheet, variable, &left) == 0;
    say(l, "an example's n and r", order, taken && left.n == (counts[2] > 0 ? 3u : 2u) && left.r == 1 && left.leads[0] == left.n);
    for (size_t i = 0; taken && i < left.n; i++)
        say(l, "an example's point, count or coefficient", i,
            left.states[8 * i] == states[i] && left.counts[i] == counts[i] && left.coefficients[i] == row[i] &&
                left.standard[8 * i] == i);
}

static void examples_of_scope(struct leaving *l)
{
    static const uint8_t a[6] = {0, 0, 1, 2, 2, 1}, bits[6] = {0, 1, 1, 1, 0, 0};
    static const uint8_t once[3] = {1, 1, 1}, twice[3] = {2, 1, 0}, cubic[3] = {0, 2, 2}, square[3] = {0, 1, 0};
    example(l, 5, MISQAFUR_LEX, a, 1, (const uint8_t[3]){0, 2, 1}, once, cubic);
    example(l, 5, MISQAFUR_GRLEX, a, 2, (const uint8_t[3]){0, 1, 2}, once, cubic);
    example(l, 2, MISQAFUR_GREVLEX, bits, 1, (const uint8_t[3]){1, 0, 0}, twice, square);
}

/* 2 to 61 points modulo 61 that differ in x2 alone: one is left, at the sum of their counts, up to 255. The first has the rest. */
static void sums(struct leaving *l)
{
    static struct misqafur_sheet sheet, left;
    for (uint8_t n = 2; n <= 61; n++)
        for (uint32_t sum = TIMES - 1; sum <= TIMES + 2 && sum < TIMES + (uint32_t)n; sum++) {
            uint32_t refusal = misqafur_sheet_init(&sheet, 61, 2, MISQAFUR_GREVLEX, 0);
            for (uint8_t i = 0; i < n && refusal == 0; i++)
                refusal = misqafur_sheet_add(&sheet, (const uint8_t[2]){7, i}, 2);
            sheet.counts[0] = (uint8_t)(sum - n + 1);
            memset(&left, 170, sizeof left);
            uint32_t due = sum > TIMES ? 13 : 0, number = misqafur_sheet_leave_out(&sheet, 2, &left);
            say(l, "a sum of counts", sum, refusal == 0 && number == due &&
                                               (due != 0 || (left.n == 1 && left.states[0] == 7 && left.counts[0] == sum)));
        }
}

/* Every number as a variable's, of a fresh sheet of every number of variables; and of the same sheet as the one to be left. */
static void every_number(struct leaving *l)
{
    static struct misqafur_sheet sheet, left, was;
    for (uint64_t m = 1; m <= 8; m++)
        for (uint64_t variable = 0; variable < 300; variable++) {
            uint32_t refusal = misqafur_sheet_init(&sheet, 5, m, MISQAFUR_LEX, 0);
            int none = m == 1 || variable < 1 || variable > m;
            was = sheet;
            say(l, "a variable's number", variable,
                refusal == 0 && misqafur_sheet_leave_out(&sheet, variable, &left) == (none ? 16u : 0u) &&
                    (none || (left.variables == m - 1 && left.n == 0 && left.r == 1 && misqafur_sheet_check(&left) == 0)));
            say(l, "a sheet left in itself", variable, misqafur_sheet_leave_out(&sheet, variable, &sheet) == (none ? 16u : 6u) &&
                                                           memcmp(&sheet, &was, sizeof was) == 0);
        }
}

/* Weights without one of them: those that are packed without it; by any other number they stay. */
static void weights_left(struct leaving *l)
{
    for (size_t m = 1; m <= 8; m++)
        for (uint64_t variable = 0; variable < 300; variable++) {
            uint64_t packed = random_weights(&l->made.chance, m), due = packed;
            uint8_t kept[8];
            size_t length = 0;
            for (uint64_t k = 1; k <= m; k++)
                if (k != variable)
                    kept[length++] = (uint8_t)(packed >> 8 * (k - 1));
            if (length < m)
                due = misqafur_pack_weights(kept, length);
            say(l, "weights without one", variable, misqafur_weights_without(packed, variable) == due);
        }
    say(l, "weights without a great number", 0, misqafur_weights_without(258, UINT64_MAX) == 258);
}

struct score leaving(const struct options *options)
{
    struct leaving *l = malloc(sizeof *l);
    if (l == NULL)
        abort();
    memset(l, 0, sizeof *l);
    l->made.chance.state = options->seed;
    examples_of_scope(l);
    for (uint64_t i = 0; i < 200 + options->cases / 20; i++) {
        as_drawn(l, i);
        either_order(l, i);
        in_lex(l, i);
    }
    count(&l->score, l->merged > 0 && l->refused > 0);
    sums(l);
    every_number(l);
    weights_left(l);
    struct score score = l->score;
    free(l);
    return score;
}
