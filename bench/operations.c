/* The operations that are measured. */
#define _POSIX_C_SOURCE 200809L
#include "operations.h"

#include "clock.h"
#include "plain.h"

#include <stdio.h>
#include <string.h>

const struct measured archive = {misqafur_draw_up, misqafur_add_point, misqafur_withdraw_point, misqafur_check,
                                        misqafur_remainder};
static const struct measured plain = {plain_draw_up, plain_add_point, plain_withdraw_point, plain_check,
                                      plain_remainder};
static const struct measured same_method = {.draw_up = rows_draw_up};
static const struct measured archive_drawing = {.draw_up = misqafur_draw_up};

/* Of the answer the counts of the basis: plain C makes no cancellations. */
static void draw(const struct measured *by, const struct input *in, uint64_t n, struct lent *lent, uint32_t *answer)
{
    *answer = (uint32_t)by->draw_up(UNDER(in), LENT(lent), in->levels, in->m * n);
    lent->n = misqafur_points(*answer);
    lent->r = misqafur_elements(*answer);
}

static void run_draw(const struct measured *by, const struct input *in, struct result *to)
{
    draw(by, in, in->n, &to->lent, &to->answer);
}

/* The tables are copied first, which costs both sides the same. */
static void run_add(const struct measured *by, const struct input *in, struct result *to)
{
    to->lent = in->before;
    to->answer = by->add_point(UNDER(in), to->lent.n, to->lent.r, LENT(&to->lent),
                               in->levels + in->m * (in->n - 1), in->m);
}

/* The first point goes, so that every other one moves. Who cannot withdraw draws up the points that remain. */
static void run_withdraw(const struct measured *by, const struct input *in, struct result *to)
{
    to->lent = in->whole;
    if (by->withdraw_point != NULL)
        to->answer = by->withdraw_point(UNDER(in), to->lent.n, to->lent.r, LENT(&to->lent), in->levels,
                                        in->m);
    else
        to->answer = (uint32_t)by->draw_up(UNDER(in), LENT(&to->lent), in->levels + in->m,
                                           in->m * (in->n - 1));
}

/* Every point 255 times. Who cannot withdraw draws up the points once; the counts are then put in, so that all that is left
 * can be compared. */
static void run_replicates(const struct measured *by, const struct input *in, struct result *to)
{
    uint64_t rounds = by->withdraw_point != NULL ? MISQAFUR_MAX_COUNT : 1;
    to->answer = (uint32_t)by->draw_up(UNDER(in), LENT(&to->lent), in->rounds, in->m * in->n * rounds);
    if (rounds == 1)
        memset(to->lent.counts, MISQAFUR_MAX_COUNT, in->n);
}

static void run_check(const struct measured *by, const struct input *in, struct result *to)
{
    to->answer = by->check(UNDER(in), in->whole.n, in->whole.r, LENT(&in->whole));
}

static void run_remainder(const struct measured *by, const struct input *in, struct result *to)
{
    to->answer = by->remainder(UNDER(in), in->whole.n, in->whole.r, LENT(&in->whole), in->terms,
                               MOST_TERMS, in->exponents, sizeof in->exponents, to->out, sizeof to->out);
}

const struct operation operations[OPERATIONS] = {{"draw up", run_draw, 0, &same_method, "the same method in C"},
                                              {"add", run_add, 64, NULL, NULL},
                                              {"withdraw", run_withdraw, 64, &archive_drawing, "drawing up the rest"},
                                              {"replicates", run_replicates, 64, &archive_drawing, "the points once"},
                                              {"check", run_check, 64, NULL, NULL},
                                              {"remainder", run_remainder, 64, NULL, NULL}};

double time_once(const struct operation *op, const struct measured *by, const struct input *in)
{
    static struct result result;
    double begin = seconds(), end;
    unsigned runs = 0;
    do {
        for (int i = 0; i < 8; i++)
            op->run(by, in, &result);
        runs += 8;
        end = seconds();
    } while (end - begin < 0.003);
    return 1e6 * (end - begin) / runs;
}

const struct measured *side_of(const struct operation *op, int side)
{
    return side == 0 ? &archive : side == 1 ? &plain : op->third;
}

int side_count(const struct operation *op)
{
    return op->third != NULL ? 3 : 2;
}

int same(const struct operation *op, const struct input *in)
{
    static struct result results[3];
    int agree = 1;
    memset(results, 0, sizeof results);
    for (int side = 0; side < side_count(op); side++) {
        op->run(side_of(op, side), in, &results[side]);
        agree &= memcmp(&results[side], &results[0], sizeof results[0]) == 0;
    }
    if (agree && misqafur_refusal(results[0].answer) == 0)
        return 1;
    printf("%s: results differ for p %d, m %d, order %d, n %d\n", op->name, (int)in->p, (int)in->m, (int)in->order,
           (int)in->n);
    return 0;
}

static uint32_t cancellations_by(const struct measured *by, const struct input *in)
{
    static struct lent lent;
    return misqafur_cancellations(by->draw_up(UNDER(in), LENT(&lent), in->levels, in->m * in->n));
}

uint32_t cancellations(const struct input *in)
{
    return cancellations_by(&archive, in);
}

int same_cancellations(const struct input *in)
{
    if (cancellations(in) == cancellations_by(&same_method, in))
        return 1;
    printf("cancellations differ for p %d, m %d, order %d, n %d\n", (int)in->p, (int)in->m, (int)in->order, (int)in->n);
    return 0;
}

void prepare(struct input *in)
{
    uint32_t answer;
    draw(&plain, in, in->n - 1, &in->before, &answer);
    draw(&plain, in, in->n, &in->whole, &answer);
}
