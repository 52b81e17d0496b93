/* Part "emptied": a full basis, 64 points, of which each takes a replicate and one makes room for another; then all are
 * withdrawn in random order, and as many are added again. On the way the points that are left are drawn up. */
#include "parts.h"
#include "plain_list.h"

#include <stdio.h>
#include <stdlib.h>
#include <string.h>

#define MOST MISQAFUR_MAX_POINTS

/* A full basis, and points to choose from: one more than it takes. */
struct sheet {
    struct made made, drawn;
    struct list list;
    uint8_t points[8 * (MOST + 1)];
};

/* Any number of variables with which there are enough points. */
static int random_variables(struct chance *c, int p)
{
    int least = 1;
    for (int states = p; states <= MOST; states *= p)
        least++;
    return least + (int)below(c, (uint64_t)(9 - least));
}

/* Distinct random points. */
static void choose_points(struct sheet *s)
{
    memset(s->points, 0, sizeof s->points);
    for (size_t n = 0; n <= MOST;) {
        uint8_t *point = s->points + 8 * n;
        size_t i = 0;
        for (int k = 0; k < s->list.m; k++)
            point[k] = (uint8_t)below(&s->made.chance, (uint64_t)s->list.p);
        while (memcmp(s->points + 8 * i, point, 8) != 0)
            i++;
        n += i == n;
    }
}

/* Whether adding or withdrawing this point has the answer due, and leaves the basis of the list's points. */
static int does(struct sheet *s, enum kind kind, const uint8_t *point, uint32_t due)
{
    struct made *made = &s->made;
    uint32_t answer;
    made->call.kind = kind;
    lend(made, GIVEN, random_levels(&made->chance, s->list.p, (size_t)s->list.m, point, 1, made->bytes[GIVEN]));
    return operation(made, &s->list, &answer) && answer == due && drawn_alike(made, &s->drawn, &s->list);
}

/* Adds points from this one on, until the basis is full. */
static int fill_up(struct sheet *s, size_t first)
{
    for (size_t i = first; s->list.n < MOST; i++)
        if (!does(s, ADD_POINT, s->points + 8 * i, 0))
            return 0;
    return 1;
}

/* One replicate of each point, which a full basis takes as any other. */
static int replicate(struct sheet *s)
{
    for (size_t i = 0; i < MOST; i++)
        if (!does(s, ADD_POINT, s->points + 8 * i, 0) || s->made.call.n != MOST)
            return 0;
    return 1;
}

/* One point, which is any, goes with its replicate, and the one left over comes in its stead. */
static int exchange(struct sheet *s)
{
    uint8_t point[8], *left_over = s->points + 8 * MOST;
    memcpy(point, s->list.points + 8 * below(&s->made.chance, MOST), 8);
    return does(s, WITHDRAW_POINT, point, 0) && s->made.call.n == MOST && does(s, WITHDRAW_POINT, left_over, 12) && does(s, ADD_POINT, left_over, 8) &&
           does(s, WITHDRAW_POINT, point, 0) && s->made.call.n == MOST - 1 && does(s, ADD_POINT, left_over, 0) &&
           does(s, ADD_POINT, point, 8);
}

/* Without points the basis is the fresh one, and there is nothing to withdraw. */
static int is_fresh(struct sheet *s)
{
    for (int t = 0; t < TABLES; t++)
        for (size_t i = 0; i < table_sizes[t]; i++)
            if (s->made.bytes[t][i] != 0)
                return 0;
    return s->made.call.n == 0 && s->made.call.r == 1 && does(s, WITHDRAW_POINT, s->points, 12);
}

static int empty(struct sheet *s)
{
    while (s->list.n > 0) {
        uint8_t point[8];
        memcpy(point, s->list.points + 8 * below(&s->made.chance, s->list.n), 8);
        if (!does(s, WITHDRAW_POINT, point, 0))
            return 0;
    }
    return is_fresh(s);
}

static int sheet_holds(struct sheet *s, int p, uint64_t order)
{
    list_begin(&s->list, &s->made, p, random_variables(&s->made.chance, p), order);
    choose_points(s);
    return fill_up(s, 0) && replicate(s) && exchange(s) && empty(s) && fill_up(s, 1);
}

struct score emptied(const struct options *options)
{
    struct score score = {0, 0};
    struct sheet *sheet = malloc(sizeof *sheet);
    if (sheet == NULL)
        abort();
    for (uint64_t i = 0; i < 18 * 4; i++) {
        memset(sheet, 0, sizeof *sheet);
        sheet->made.chance.state = options->seed * 1000003 + i;
        int holds = sheet_holds(sheet, primes[i % 18], i / 18);
        if (!holds)
            fprintf(stderr, "emptied: modulo %d, order %d\n", primes[i % 18], (int)(i / 18));
        count(&score, holds);
    }
    free(sheet);
    return score;
}
