/* The benchmark: the archive against plain C on the same inputs, in one process. With --smoke it
 * only compares results, on fewer inputs; it fails where results differ, never on a time. */
#include "course_ratios.h"
#include "json_ratios.h"
#include "leaving_ratios.h"
#include "medians.h"
#include "operations.h"
#include "packed_ratios.h"
#include "scripts.h"
#include "weight_ratios.h"

#include <stdio.h>
#include <string.h>

static struct ratios ratios[OPERATIONS][3];

/* Drawing up: cancellations against time, summed up for a straight line through the inputs of a modulus. */
static struct {
    double count, x, y, xx, xy;
} lines[62];

static void keep_point(uint64_t p, double x, double y)
{
    lines[p].count += 1;
    lines[p].x += x;
    lines[p].y += y;
    lines[p].xx += x * x;
    lines[p].xy += x * y;
}

static void print_lines(void)
{
    for (int p = 2; p < 62; p++) {
        double n = lines[p].count, x = lines[p].x, y = lines[p].y;
        double slope = (n * lines[p].xy - x * y) / (n * lines[p].xx - x * x);
        if (n > 0)
            printf("drawing up modulo %d: %.1f us and %.1f us for 1,000 cancellations (least squares, %.0f inputs)\n", p,
                   (y - slope * x) / n, 1000 * slope, n);
    }
}

/* The best of several rounds in which the sides take turns. */
static void time_all(const struct operation *op, const struct input *in, double best[3])
{
    for (int side = 0; side < 3; side++)
        best[side] = 1e30;
    for (int round = 0; round < 5; round++)
        for (int side = 0; side < side_count(op); side++) {
            double time = time_once(op, side_of(op, side), in);
            best[side] = time < best[side] ? time : best[side];
        }
}

/* One input, every operation: how many results differ. */
static int compare(struct input *in)
{
    prepare(in);
    int differing = !same_cancellations(in);
    for (size_t i = 0; i < OPERATIONS; i++)
        differing += !same(&operations[i], in);
    return differing;
}

/* One input, every operation that is measured with so many points: a line each. Gives how many results differ. */
static int measure(struct input *in)
{
    int differing = 0;
    prepare(in);
    for (size_t i = 0; i < OPERATIONS; i++) {
        const struct operation *op = &operations[i];
        double best[3];
        if (in->n < op->least)
            continue;
        differing += !same(op, in);
        time_all(op, in, best);
        printf("%-10s %3d %3d  %-8s %3d %4d %7u %10.1f", op->name, (int)in->p, (int)in->m, order_words[in->order], (int)in->n,
               (int)in->whole.r, cancellations(in), best[0]);
        if (op == &operations[DRAWING_UP])
            keep_point(in->p, cancellations(in), best[0]);
        for (int side = 1; side < side_count(op); side++) {
            double ratio = best[0] / best[side];
            keep_ratio(&ratios[i][side], ratio);
            printf(" %10.1f %6.2f", best[side], ratio);
        }
        printf("\n");
        fflush(stdout);
    }
    return differing;
}

static void print_medians(void)
{
    for (size_t i = 0; i < OPERATIONS; i++)
        print_median(operations[i].name, "plain C", &ratios[i][1]);
    for (size_t i = 0; i < OPERATIONS; i++)
        if (operations[i].third != NULL)
            print_median(operations[i].name, operations[i].third_is, &ratios[i][2]);
}

/* Makes every input in turn and hands it on; gives the sum of what comes back. */
static int for_all_inputs(const uint64_t *counts, size_t count, int (*take)(struct input *))
{
    static const uint64_t moduli[] = {2, 5, 61}, variables[] = {2, 4, 8};
    static struct input in;
    int sum = 0;
    for (int p = 0; p < 3; p++)
        for (int m = 0; m < 3; m++)
            for (size_t i = 0; i < count; i++)
                for (uint64_t order = 0; order <= MISQAFUR_WEIGHT; order++) {
                    if (!input_exists(moduli[p], variables[m], counts[i]))
                        continue;
                    input_make(&in, moduli[p], variables[m], order, counts[i]);
                    sum += take(&in);
                }
    return sum;
}

static int singular(struct input *in)
{
    singular_input(in);
    return 0;
}

static int macaulay2(struct input *in)
{
    macaulay2_input(in);
    return 0;
}

static int report(int differing)
{
    printf("benchmark: %d results differ\n", differing);
    return differing == 0 ? 0 : 1;
}

/* Results alone, also for small and odd numbers of points. */
static int smoke_run(void)
{
    static const uint64_t odd[] = {1, 2, 3, 7, 8, 33, 63, 64};
    const size_t count = sizeof odd / sizeof *odd;
    return report(for_all_inputs(odd, count, compare) + packed_compare() + for_all_inputs(odd, count, weight_compare) +
                  for_all_inputs(odd, count, leaving_compare) + for_all_inputs(odd, count, course_compare) +
                  for_all_inputs(odd, count, json_compare));
}

/* The numbers of points that are measured. */
static const uint64_t points[] = {8, 16, 32, 48, 64};
#define POINTS (sizeof points / sizeof *points)

static int weight_run(void)
{
    printf("\n%-10s %3s %3s %3s %10s %10s %6s\n", "by weight", "p", "m", "n", "weight us", "grlex us", "ratio");
    int differing = for_all_inputs(points, POINTS, weight_measure);
    weight_medians();
    return differing;
}

static int leaving_run(void)
{
    printf("\n%-10s %3s %3s  %-8s %3s %10s %10s %6s %10s %6s\n", "leave out", "p", "m", "order", "n", "draw us", "first us", "ratio",
           "last us", "ratio");
    int differing = for_all_inputs(points, POINTS, leaving_measure);
    leaving_medians();
    return differing;
}

static int course_run(void)
{
    printf("\n%-11s %3s %3s  %-8s %3s %10s %10s %6s %5s %10s %10s %6s\n", "time course", "p", "m", "order", "n", "course us",
           "parts us", "ratio", "steps", "step us", "plain us", "ratio");
    int differing = for_all_inputs(points, POINTS, course_measure);
    course_medians();
    return differing;
}

static int json_run(void)
{
    printf("\n%-4s %3s %3s  %-8s %3s %4s %6s %10s %10s %10s %6s %10s %10s %6s\n", "json", "p", "m", "order", "n", "r", "bytes",
           "check us", "write us", "plain us", "ratio", "read us", "plain us", "ratio");
    int differing = for_all_inputs(points, POINTS, json_measure);
    json_medians();
    return differing;
}

static int full_run(void)
{
    printf("%-10s %3s %3s  %-8s %3s %4s %7s %10s %10s %6s %10s %6s\n", "operation", "p", "m", "order", "n", "r", "cancels",
           "archive us", "plain us", "ratio", "third us", "ratio");
    int differing = for_all_inputs(points, POINTS, measure);
    print_medians();
    print_lines();
    differing += packed_measure();
    differing += weight_run();
    differing += leaving_run();
    differing += course_run();
    return report(differing + json_run());
}

int main(int count, char **words)
{
    static const uint64_t most[] = {64};
    const char *mode = count > 1 ? words[1] : "";
    if (strcmp(mode, "--smoke") == 0)
        return smoke_run();
    if (strcmp(mode, "--packed") == 0)
        return report(packed_measure());
    if (strcmp(mode, "--weights") == 0)
        return report(weight_run());
    if (strcmp(mode, "--leaving") == 0)
        return report(leaving_run());
    if (strcmp(mode, "--courses") == 0)
        return report(course_run());
    if (strcmp(mode, "--json") == 0)
        return report(json_run());
    if (strcmp(mode, "--singular") == 0) {
        singular_begin();
        return for_all_inputs(most, 1, singular);
    }
    if (strcmp(mode, "--macaulay2") == 0) {
        macaulay2_begin();
        return for_all_inputs(most, 1, macaulay2);
    }
    return full_run();
}
