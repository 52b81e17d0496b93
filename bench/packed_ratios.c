/* The packed call's times beside the general call's and those of plain packed C, in one run and in turns. */
#define _POSIX_C_SOURCE 200809L
#include "packed_ratios.h"

#include "clock.h"
#include "inputs.h"
#include "medians.h"
#include "packed_inputs.h"
#include "plain_packed.h"

#include <stdio.h>
#include <stdlib.h>

enum side { PACKED, GENERAL, PLAIN, SIDES };

/* One input is drawn up over and over, as everywhere in this benchmark, so that a processor may learn it by heart; and as
 * many of one kind in turn, of which it learns none. */
#define INPUTS 16
#define AT_ONCE 64 /* drawings up between two looks at the clock, which are system calls */
#define ROUNDS 5

static uint32_t draw(enum side side, const struct boolean_input *in, struct lent *to)
{
    if (side == GENERAL)
        return (uint32_t)misqafur_draw_up(2, in->m, in->order, 0, LENT(to), in->levels, in->m * in->n);
    return (side == PACKED ? misqafur_draw_up_packed : plain_draw_up_packed)(2, in->m, in->order, 0, LENT(to),
                                                                            in->levels, in->m * in->n);
}

/* Whether all sides leave the same for an input. */
static int same(const struct boolean_input *in, const char *shape)
{
    static struct lent lent[SIDES];
    uint32_t answers[SIDES];
    int agree = 1;
    memset(lent, 0, sizeof lent);
    for (int side = 0; side < SIDES; side++) {
        answers[side] = draw((enum side)side, in, &lent[side]);
        agree &= answers[side] == answers[0] && memcmp(&lent[side], &lent[0], sizeof lent[0]) == 0;
    }
    if (agree && misqafur_refusal(answers[0]) == 0 && misqafur_points(answers[0]) == in->n)
        return 1;
    printf("packed: results differ for %s, m %d, order %d, n %d\n", shape, (int)in->m, (int)in->order, (int)in->n);
    return 0;
}

/* Microseconds for one drawing up, of the first so many inputs in turn: the mean over some milliseconds. */
static double time_once(enum side side, const struct boolean_input inputs[INPUTS], int count)
{
    static struct lent lent;
    double begin = seconds(), end;
    unsigned runs = 0;
    do {
        for (int i = 0; i < AT_ONCE; i++)
            draw(side, &inputs[i % count], &lent);
        runs += AT_ONCE;
        end = seconds();
    } while (end - begin < 0.003);
    return 1e6 * (end - begin) / runs;
}

/* The ratios that are asked for, general over packed and packed over plain C; and the same with inputs in turn. */
enum ratio { FASTER, SLOWER, FASTER_IN_TURN, SLOWER_IN_TURN, RATIOS };
static const char *const ratio_names[RATIOS] = {"general / packed", "packed / plain packed C", "general / packed in turn",
                                                "packed / plain packed C in turn"};

static struct ratios by_size[RATIOS][SHAPES][65], all[RATIOS];

static void print_list(enum ratio ratio, const char *what, struct ratios *list)
{
    if (list->count == 0)
        return;
    qsort(list->of, list->count, sizeof *list->of, increasing);
    printf("%s, %s: median %.2f, %.2f to %.2f (%zu)\n", ratio_names[ratio], what, list->of[list->count / 2], list->of[0],
           list->of[list->count - 1], list->count);
}

/* The best of several rounds in which the sides take turns. */
static void time_all(const struct boolean_input inputs[INPUTS], int count, double best[SIDES])
{
    for (int side = 0; side < SIDES; side++)
        best[side] = 1e30;
    for (int round = 0; round < ROUNDS; round++)
        for (int side = 0; side < SIDES; side++) {
            double time = time_once((enum side)side, inputs, count);
            best[side] = time < best[side] ? time : best[side];
        }
}

static int compare(struct boolean_input inputs[INPUTS], enum shape shape)
{
    int differing = 0;
    for (int i = 0; i < INPUTS; i++)
        differing += !same(&inputs[i], shape_names[shape]);
    return differing;
}

/* One line. */
static int measure(struct boolean_input inputs[INPUTS], enum shape shape)
{
    const struct boolean_input *in = &inputs[0];
    double one[SIDES], many[SIDES];
    int differing = compare(inputs, shape);
    time_all(inputs, 1, one);
    time_all(inputs, INPUTS, many);
    const double ratios[RATIOS] = {one[GENERAL] / one[PACKED], one[PACKED] / one[PLAIN], many[GENERAL] / many[PACKED],
                                   many[PACKED] / many[PLAIN]};
    printf("%-8s %3d  %-8s %3d %10.2f %10.2f %6.2f %10.2f %6.2f %8.2f %6.2f\n", shape_names[shape], (int)in->m,
           order_words[in->order], (int)in->n, one[PACKED], one[GENERAL], ratios[FASTER], one[PLAIN], ratios[SLOWER],
           ratios[FASTER_IN_TURN], ratios[SLOWER_IN_TURN]);
    fflush(stdout);
    for (int k = 0; k < RATIOS; k++) {
        keep_ratio(&by_size[k][shape][in->n], ratios[k]);
        keep_ratio(&all[k], ratios[k]);
    }
    return differing;
}

/* Makes the inputs of every kind with these numbers of states and hands them on; gives the sum of what comes back. */
static int for_all(const uint64_t *counts, size_t count, int (*take)(struct boolean_input[INPUTS], enum shape))
{
    static const uint64_t genes[] = {3, 4, 6, 7, 8};
    static struct boolean_input inputs[INPUTS];
    int sum = 0;
    for (int shape = 0; shape < SHAPES; shape++)
        for (size_t m = 0; m < sizeof genes / sizeof *genes; m++)
            for (size_t n = 0; n < count; n++)
                for (uint64_t order = 0; order < 3 && counts[n] <= (uint64_t)1 << genes[m]; order++) {
                    for (uint64_t i = 0; i < INPUTS; i++)
                        boolean_input_make(&inputs[i], (enum shape)shape, genes[m], order, counts[n], i);
                    sum += take(inputs, (enum shape)shape);
                }
    return sum;
}

int packed_compare(void)
{
    static const uint64_t counts[] = {0, 1, 2, 3, 7, 8, 33, 63, 64};
    return for_all(counts, sizeof counts / sizeof *counts, compare);
}

int packed_measure(void)
{
    static const uint64_t counts[] = {8, 16, 32, 48, 64};
    char what[32];
    printf("\n%-8s %3s  %-8s %3s %10s %10s %6s %10s %6s %8s %6s\n", "packed", "m", "order", "n", "packed us", "general us",
           "ratio", "plain us", "ratio", "in turn", "ratio");
    int differing = for_all(counts, sizeof counts / sizeof *counts, measure);
    for (int k = 0; k < RATIOS; k++) {
        for (int shape = 0; shape < SHAPES; shape++)
            for (int n = 0; n <= MISQAFUR_MAX_POINTS; n++) {
                snprintf(what, sizeof what, "%s, %d states", shape_names[shape], n);
                print_list((enum ratio)k, what, &by_size[k][shape][n]);
            }
        print_list((enum ratio)k, "all inputs", &all[k]);
    }
    return differing;
}
