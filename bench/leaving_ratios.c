/* The archive leaving a gene out beside the archive drawing up the points with all genes: recognising them takes about as long as
 * drawing them up, and so does drawing up the shortened ones. */
#define _POSIX_C_SOURCE 200809L
#include "leaving_ratios.h"

#include "medians.h"
#include "operations.h"

#include <stdio.h>

#define ROUNDS 5

static void leave_out(const struct input *in, uint64_t variable, struct result *to)
{
    to->answer = misqafur_leave_out(UNDER(in), in->whole.n, in->whole.r, LENT(&in->whole), variable, LENT(&to->lent));
}

static void run_first(const struct measured *by, const struct input *in, struct result *to)
{
    (void)by;
    leave_out(in, 1, to);
}

static void run_last(const struct measured *by, const struct input *in, struct result *to)
{
    (void)by;
    leave_out(in, in->m, to);
}

#define GENES 2
static const struct operation leaving[GENES] = {{"first", run_first, 0, NULL, NULL}, {"last", run_last, 0, NULL, NULL}};

static struct ratios ratios[GENES];

/* Draws up the points without a variable. */
static void draw_shortened(const struct input *in, uint64_t variable, struct result *to)
{
    uint8_t levels[sizeof in->levels];
    size_t count = 0;
    for (size_t i = 0; i < in->m * in->n; i++)
        if (i % in->m + 1 != variable)
            levels[count++] = in->levels[i];
    to->answer = (uint32_t)misqafur_draw_up(in->p, in->m - 1, in->order, misqafur_weights_without(in->weights, variable),
                                            LENT(&to->lent), levels, count);
}

static int same_as_drawn(const struct input *in, int gene)
{
    static struct result results[2];
    memset(results, 0, sizeof results);
    leaving[gene].run(&archive, in, &results[0]);
    draw_shortened(in, gene == 0 ? 1 : in->m, &results[1]);
    if (memcmp(&results[0], &results[1], sizeof results[0]) == 0 && misqafur_refusal(results[0].answer) == 0)
        return 1;
    printf("leave out: results differ for p %d, m %d, order %d, n %d, the %s gene\n", (int)in->p, (int)in->m, (int)in->order,
           (int)in->n, leaving[gene].name);
    return 0;
}

int leaving_compare(struct input *in)
{
    int differing = 0;
    prepare(in);
    for (int gene = 0; gene < GENES; gene++)
        differing += !same_as_drawn(in, gene);
    return differing;
}

/* The best of several rounds in turns: each gene left out, and last the points drawn up. */
static void time_all(const struct input *in, double best[GENES + 1])
{
    for (int side = 0; side <= GENES; side++)
        best[side] = 1e30;
    for (int round = 0; round < ROUNDS; round++)
        for (int side = 0; side <= GENES; side++) {
            double time = time_once(side < GENES ? &leaving[side] : &operations[DRAWING_UP], &archive, in);
            best[side] = time < best[side] ? time : best[side];
        }
}

int leaving_measure(struct input *in)
{
    int differing = leaving_compare(in);
    double best[GENES + 1];
    time_all(in, best);
    printf("%-10s %3d %3d  %-8s %3d %10.1f", "leave out", (int)in->p, (int)in->m, order_words[in->order], (int)in->n, best[GENES]);
    for (int gene = 0; gene < GENES; gene++) {
        double ratio = best[gene] / best[GENES];
        keep_ratio(&ratios[gene], ratio);
        printf(" %10.1f %6.2f", best[gene], ratio);
    }
    printf("\n");
    fflush(stdout);
    return differing;
}

void leaving_medians(void)
{
    char what[64];
    for (int gene = 0; gene < GENES; gene++) {
        snprintf(what, sizeof what, "the %s gene left out", leaving[gene].name);
        print_median(what, "drawing up", &ratios[gene]);
    }
}
