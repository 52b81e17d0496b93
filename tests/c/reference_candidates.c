/* The monomial orders by docs/SCOPE.md, and all monomials that could matter, increasing in each. */
#include "reference_candidates.h"

#include <stdlib.h>
#include <string.h>
#include <threads.h>

/* Every divisor of a standard monomial is standard, and so is every proper divisor of a row's lead.
 * So with n points both have at most n + 1 divisors: the candidates. */
#define MOST_DIVISORS 65

/* For each number of variables and each order that has no weights: all candidates, increasing. */
static struct candidates all_candidates[9][3];
static once_flag candidates_made = ONCE_FLAG_INIT;

static int degree(const uint8_t *e)
{
    int sum = 0;
    for (int k = 0; k < 8; k++)
        sum += e[k];
    return sum;
}

/* The orders, over candidates: negative where a is smaller, positive where a is greater. */
static int compare_lex(const void *left, const void *right)
{
    const uint8_t *a = ((const struct candidate *)left)->exponents, *b = ((const struct candidate *)right)->exponents;
    for (int k = 0; k < 8; k++)
        if (a[k] != b[k])
            return a[k] - b[k];
    return 0;
}

static int degrees(const void *left, const void *right)
{
    return degree(((const struct candidate *)left)->exponents) - degree(((const struct candidate *)right)->exponents);
}

static int compare_grlex(const void *left, const void *right)
{
    int difference = degrees(left, right);
    return difference != 0 ? difference : compare_lex(left, right);
}

static int compare_grevlex(const void *left, const void *right)
{
    const uint8_t *a = ((const struct candidate *)left)->exponents, *b = ((const struct candidate *)right)->exponents;
    int difference = degrees(left, right);
    if (difference != 0)
        return difference;
    for (int k = 7; k >= 0; k--)
        if (a[k] != b[k])
            return b[k] - a[k];
    return 0;
}

static int compare_weight(const void *left, const void *right)
{
    int difference = ((const struct candidate *)left)->sum - ((const struct candidate *)right)->sum;
    return difference != 0 ? difference : compare_lex(left, right);
}

static void append(struct candidates *to, const struct candidate *one)
{
    if (to->count == to->room) {
        to->room = 2 * to->room + 64;
        to->list = realloc(to->list, to->room * sizeof *to->list);
        if (to->list == NULL)
            abort();
    }
    to->list[to->count++] = *one;
}

/* All candidates whose first k exponents are given, those having so many divisors. */
static void extend(struct candidates *to, int m, uint8_t exponents[8], int k, int divisors)
{
    if (k == m) {
        struct candidate one = {.divisors = (uint8_t)divisors, .sum = 0};
        memcpy(one.exponents, exponents, 8);
        append(to, &one);
        return;
    }
    for (int e = 0; divisors * (e + 1) <= MOST_DIVISORS; e++) {
        exponents[k] = (uint8_t)e;
        extend(to, m, exponents, k + 1, divisors * (e + 1));
    }
    exponents[k] = 0;
}

static void make_candidates(void)
{
    static int (*const compare[3])(const void *, const void *) = {compare_lex, compare_grlex, compare_grevlex};
    for (int m = 1; m <= 8; m++)
        for (int order = 0; order < 3; order++) {
            struct candidates *to = &all_candidates[m][order];
            uint8_t exponents[8] = {0};
            extend(to, m, exponents, 0, 1);
            qsort(to->list, to->count, sizeof *to->list, compare[order]);
        }
}

/* The candidates for so many points with their sums of weight times exponent, increasing by weight. */
static void weigh(const struct basis *b, struct candidates *to)
{
    const struct candidates *from = &all_candidates[b->m][0];
    for (size_t i = 0; i < from->count; i++) {
        struct candidate one = from->list[i];
        if (one.divisors > b->n + 1)
            continue;
        for (int k = 0; k < 8; k++)
            one.sum += b->weights[k] * one.exponents[k];
        append(to, &one);
    }
    qsort(to->list, to->count, sizeof *to->list, compare_weight);
}

const struct candidates *reference_candidates(const struct basis *b, struct candidates *weighed)
{
    call_once(&candidates_made, make_candidates);
    if (b->order < 3)
        return &all_candidates[b->m][b->order];
    weigh(b, weighed);
    return weighed;
}
