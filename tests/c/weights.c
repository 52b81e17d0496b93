/* Part "weights": every byte of the weights in every call, equal weights against grlex, every pair of weights over a whole
 * grid, weights in a text, and what the header does with them by itself. */
#include "guard.h"
#include "made.h"
#include "parts.h"

#include <limits.h>
#include <stdio.h>
#include <stdlib.h>
#include <string.h>

#define EIGHT_ONES 0x0101010101010101

/* What the part works with: a call on buffers of its own, and memory for it in two ways. */
struct weighed {
    struct score score;
    struct made made;
    struct guard *one, *other;
};

static void say(struct weighed *w, const char *what, uint64_t at, int holds)
{
    if (!holds)
        fprintf(stderr, "weights: %s does not hold (%llu)\n", what, (unsigned long long)at);
    count(&w->score, holds);
}

/* A call over the basis of no points modulo 2: by these weights it is refused with 15, or as it is with any others. */
static void make_empty(struct made *made, enum kind kind, uint64_t m, uint64_t order, uint64_t weights)
{
    made->call = (struct call){.kind = kind, .modulus = 2, .variables = m, .order = order, .weights = weights, .r = 1};
    for (int t = 0; t < TABLES; t++) {
        memset(made->bytes[t], 0, table_sizes[t]);
        lend(made, (enum buffer)t, table_sizes[t]);
    }
    memset(made->bytes[GIVEN], 0, 8);
    lend(made, GIVEN, kind == ADD_POINT || kind == WITHDRAW_POINT ? m : 0);
    made->call.variable = m;
    for (int i = OUT; i < BUFFERS; i++)
        lend(made, (enum buffer)i, buffer_size(kind, (enum buffer)i));
}

/* Whether a call of this kind refuses these weights where they are wrong, and only there. */
static int judged(struct weighed *w, enum kind kind, uint64_t m, uint64_t order, uint64_t weights, int wrong)
{
    uint64_t number;
    make_empty(&w->made, kind, m, order, weights);
    return agrees(w->one, &w->made.call, weights, "a weight", &number) && ((number & 255) == 15) == wrong &&
           (wrong || (number & 255) == (kind == WITHDRAW_POINT ? 12 : kind == LEAVE_OUT && m == 1 ? 16 : 0));
}

/* Each byte with each value, the others being right, for every order and number of variables, in the calls in turn. */
static void every_byte(struct weighed *w)
{
    for (uint64_t m = 1; m <= 8; m++)
        for (uint64_t order = 0; order <= MISQAFUR_WEIGHT; order++)
            for (uint64_t k = 0; k < 8; k++)
                for (uint64_t weight = 0; weight < 256; weight++) {
                    const int weighs = order == MISQAFUR_WEIGHT;
                    const uint64_t right = weighs ? random_weights(&w->made.chance, m) : 0, byte = (uint64_t)255 << 8 * k;
                    const int wrong = weighs && k < m ? weight < 1 || weight > MISQAFUR_MAX_WEIGHT : weight != 0;
                    const enum kind kind = (enum kind)((m + order + k + weight) % READ_TEXT);
                    const uint64_t weights = (right & ~byte) | weight << 8 * k;
                    say(w, "a byte of the weights", weight, judged(w, kind, m, order, weights, wrong));
                }
}

/* A random call in grlex, and the same by equal weights: one number, cancellations too, and the same bytes. Of the kinds, writing a
 * sheet is left out, whose text tells the order. */
static void equal_weights(struct weighed *w, uint64_t weight, enum kind kind)
{
    struct made *made = &w->made;
    do
        make_call(made, kind);
    while (made->call.order != MISQAFUR_GRLEX);
    struct call one = guard_lend(w->one, &made->call, weight), other = guard_lend(w->other, &made->call, weight);
    other.order = MISQAFUR_WEIGHT;
    other.weights = weight * EIGHT_ONES >> 8 * (8 - made->call.variables);
    performing = "equal weights";
    uint64_t number = perform(&archive, &one);
    say(w, "what grlex answers", weight, perform(&archive, &other) == number);
    say(w, "what grlex leaves", weight, guard_intact(w->other) && same_bytes(&other, &one, performing));
}

#define SIDE 7

/* Whether a monomial of two variables is smaller than another by these weights: by the sum, then by lex. */
static int smaller(const uint8_t *a, const uint8_t *b, int first, int second)
{
    int left = first * a[0] + second * a[1], right = first * b[0] + second * b[1];
    return left != right ? left < right : a[0] != b[0] ? a[0] < b[0] : a[1] < b[1];
}

/* All 49 points modulo 7: every monomial with exponents below 7 is standard, and so they all stand there, increasing. */
static int grid_holds(struct made *made, int first, int second)
{
    made->call = (struct call){.kind = DRAW_UP, .modulus = SIDE, .variables = 2, .order = MISQAFUR_WEIGHT,
                               .weights = (uint64_t)(first + 256 * second)};
    for (int t = 0; t < TABLES; t++)
        lend(made, (enum buffer)t, table_sizes[t]);
    for (uint8_t i = 0; i < SIDE * SIDE; i++) {
        made->bytes[GIVEN][2 * i] = i % SIDE;
        made->bytes[GIVEN][2 * i + 1] = i / SIDE;
    }
    lend(made, GIVEN, 2 * SIDE * SIDE);
    uint64_t answer = perform(&archive, &made->call);
    if (misqafur_refusal(answer) != 0 || misqafur_points(answer) != SIDE * SIDE || misqafur_elements(answer) != 2)
        return 0;
    const uint8_t *standard = made->bytes[STANDARD], *leads = made->bytes[LEADS];
    for (int i = 0; i < SIDE * SIDE; i++)
        if (standard[8 * i] >= SIDE || standard[8 * i + 1] >= SIDE ||
            (i > 0 && !smaller(standard + 8 * (i - 1), standard + 8 * i, first, second)))
            return 0;
    return smaller(leads, leads + 8, first, second);
}

static void every_pair(struct weighed *w)
{
    for (int first = 1; first <= MISQAFUR_MAX_WEIGHT; first++)
        for (int second = 1; second <= MISQAFUR_MAX_WEIGHT; second++)
            say(w, "a pair of weights", (uint64_t)(1000 * first + second), grid_holds(&w->made, first, second));
}

/* A text whose header has so many names and then this; with no record behind it. In both calls that read one: where the reader takes
 * it, no course is in it. */
static uint64_t header_read(struct weighed *w, int names, const char *last)
{
    struct made *made = &w->made;
    uint64_t number = 0, course = 0;
    int length = 0;
    made->call = (struct call){.kind = READ_TEXT};
    for (int i = 0; i < BUFFERS; i++)
        lend(made, (enum buffer)i, buffer_size(READ_TEXT, (enum buffer)i));
    for (int k = 0; k < names; k++)
        length += sprintf((char *)made->bytes[GIVEN] + length, "g%d,", k);
    length += sprintf((char *)made->bytes[GIVEN] + length, "mod 5 weight%s", last);
    lend(made, GIVEN, (size_t)length);
    if (!agrees(w->one, &made->call, (uint64_t)length, last, &number))
        return UINT64_MAX;
    made->call.kind = TIME_COURSE;
    for (int i = 0; i < BUFFERS; i++)
        if (i != GIVEN)
            lend(made, (enum buffer)i, buffer_size(TIME_COURSE, (enum buffer)i));
    if (!agrees(w->one, &made->call, (uint64_t)length, last, &course) || course != ((number & 255) == 0 ? 18 : number))
        return UINT64_MAX;
    return number;
}

/* One weight of every number of digits up to three, and every number of weights beside every number of names. */
static void texts(struct weighed *w)
{
    char last[64];
    for (int digits = 1, most = 10; digits <= 3; digits++, most *= 10)
        for (int weight = 0; weight < most; weight++) {
            sprintf(last, " %0*d", digits, weight);
            uint64_t number = header_read(w, 1, last), due = digits > 2 ? 2 : weight == 0 ? 15 : 0;
            say(w, "a weight in a text", (uint64_t)weight,
                due != 0 ? number == due + 256 : number == ((uint64_t)MISQAFUR_WEIGHT << 32) + (1 << 24) + (5 << 16));
        }
    for (int names = 0; names <= 10; names++)
        for (int weights = 0, length = 0; weights <= 10; weights++) {
            last[length] = 0;
            uint64_t due = weights != names ? 2 : names < 1 || names > 8 ? 4 : 0;
            say(w, "a number of weights", (uint64_t)weights, (header_read(w, names, last) & 255) == due);
            length += sprintf(last + length, " %d", weights + 1);
        }
}

/* A number as a weight, in every place; and any number of weights, more than eight of which are not read. */
static void packed_weights(struct weighed *w, int number)
{
    const int good = 1 <= number && number <= MISQAFUR_MAX_WEIGHT;
    say(w, "a number as a weight", 0, misqafur_weight(number) == (good ? number : number == 0 ? 0 : 255));
    for (size_t m = 1; m <= 8; m++) {
        uint8_t weights[8] = {3, 1, 4, 1, 5, 9, 2, 6};
        weights[m - 1] = misqafur_weight(number);
        say(w, "a weight from a number", m, judged(w, CHECK, m, MISQAFUR_WEIGHT, misqafur_pack_weights(weights, m), !good));
    }
}

static void numbers_of_weights(struct weighed *w)
{
    static const uint8_t weights[8] = {99, 1, 4, 1, 5, 9, 2, 6};
    for (size_t m = 1; m <= 8; m++)
        for (size_t given = 0; given <= 20; given++) {
            uint64_t packed = misqafur_pack_weights(given > 8 ? NULL : weights, given);
            say(w, "a number of weights packed", given, judged(w, CHECK, m, MISQAFUR_WEIGHT, packed, given != m));
            for (size_t k = 0; k < 8; k++)
                say(w, "each weight in its byte", k, (packed >> 8 * k & 255) == (given > 8 ? 255u : k < given ? weights[k] : 0));
        }
}

struct score weights(const struct options *options)
{
    struct weighed *w = malloc(sizeof *w);
    if (w == NULL)
        abort();
    memset(w, 0, sizeof *w);
    w->made.chance.state = options->seed;
    w->one = guard_new();
    w->other = guard_new();
    every_byte(w);
    for (uint64_t weight = 1; weight <= MISQAFUR_MAX_WEIGHT; weight++)
        for (int i = 0; i < 10 * WRITE_JSON; i++)
            equal_weights(w, weight, (enum kind)(i % WRITE_JSON));
    every_pair(w);
    texts(w);
    for (int number = -400; number <= 400; number++)
        packed_weights(w, number);
    packed_weights(w, INT_MIN);
    packed_weights(w, INT_MAX);
    numbers_of_weights(w);
    struct score score = w->score;
    guard_free(w->one);
    guard_free(w->other);
    free(w);
    return score;
}
