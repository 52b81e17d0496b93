/* The archive by the weights 1 beside the archive in grlex, on the same points: the same basis, and what the order costs. */
#define _POSIX_C_SOURCE 200809L
#include "weight_ratios.h"

#include "medians.h"
#include "operations.h"

#include <stdio.h>

#define EIGHT_ONES 0x0101010101010101u
#define ROUNDS 5

/* Drawing up packed, modulo 2, beside the operations of the first table. */
static void run_packed(const struct measured *by, const struct input *in, struct result *to)
{
    (void)by;
    to->answer = misqafur_draw_up_packed(UNDER(in), LENT(&to->lent), in->levels, in->m * in->n);
}

static const struct operation packed = {"packed", run_packed, 0, NULL, NULL};

#define MEASURED (OPERATIONS + 1)

static const struct operation *operation(int i)
{
    return i < OPERATIONS ? &operations[i] : &packed;
}

static int is_measured(int i, const struct input *in)
{
    return in->n >= operation(i)->least && (operation(i) != &packed || in->p == 2);
}

static struct ratios ratios[MEASURED];

/* The input by the weights 1. */
static const struct input *weighed(const struct input *in)
{
    static struct input ones;
    ones = *in;
    ones.order = MISQAFUR_WEIGHT;
    ones.weights = EIGHT_ONES >> 8 * (8 - in->m);
    return &ones;
}

static int same_result(const struct operation *op, const struct input *in, const struct input *ones)
{
    static struct result results[2];
    memset(results, 0, sizeof results);
    op->run(&archive, in, &results[0]);
    op->run(&archive, ones, &results[1]);
    if (memcmp(&results[0], &results[1], sizeof results[0]) == 0 && misqafur_refusal(results[0].answer) == 0 &&
        cancellations(in) == cancellations(ones))
        return 1;
    printf("%s: by the weights 1 results differ for p %d, m %d, n %d\n", op->name, (int)in->p, (int)in->m, (int)in->n);
    return 0;
}

int weight_compare(struct input *in)
{
    int differing = 0;
    if (in->order != MISQAFUR_GRLEX)
        return 0;
    prepare(in);
    const struct input *ones = weighed(in);
    for (int i = 0; i < MEASURED; i++)
        differing += (operation(i) != &packed || in->p == 2) && !same_result(operation(i), in, ones);
    return differing;
}

/* The best of several rounds in turns: by weight, and in grlex. */
static void time_both(const struct operation *op, const struct input *in, const struct input *ones, double best[2])
{
    best[0] = best[1] = 1e30;
    for (int round = 0; round < ROUNDS; round++)
        for (int side = 0; side < 2; side++) {
            double time = time_once(op, &archive, side == 0 ? ones : in);
            best[side] = time < best[side] ? time : best[side];
        }
}

int weight_measure(struct input *in)
{
    int differing = weight_compare(in);
    const struct input *ones = weighed(in);
    for (int i = 0; i < MEASURED && in->order == MISQAFUR_GRLEX; i++) {
        double best[2];
        if (!is_measured(i, in))
            continue;
        time_both(operation(i), in, ones, best);
        keep_ratio(&ratios[i], best[0] / best[1]);
        printf("%-10s %3d %3d %3d %10.1f %10.1f %6.2f\n", operation(i)->name, (int)in->p, (int)in->m, (int)in->n, best[0],
               best[1], best[0] / best[1]);
        fflush(stdout);
    }
    return differing;
}

void weight_medians(void)
{
    char what[64];
    for (int i = 0; i < MEASURED; i++) {
        snprintf(what, sizeof what, "%s by the weights 1", operation(i)->name);
        print_median(what, "grlex", &ratios[i]);
    }
}
