/* A time course through the points of an input, each to the next and the last to itself, beside the archive reading, drawing up and
 * interpolating the same points, and the run in plain C. Two courses of one record are starts besides: one of a long run, and the last
 * point, whose run ends with its first step; what lies between their times are the steps. */
#define _POSIX_C_SOURCE 200809L
#include "course_ratios.h"

#include "clock.h"
#include "medians.h"
#include "plain_course.h"

#include <stdio.h>
#include <string.h>

#define ROUNDS 5
#define STARTS 64      /* states that are tried for a long run */
#define LONG_ENOUGH 64 /* steps of a run by which a step is measured */

enum { THROUGH = 1, LONG = 2, SHORT = 3 };

/* The text of the courses, the same records as states with values, and what is measured with them. */
static struct {
    struct input *in;
    char courses[MISQAFUR_MAX_TEXT], values[MISQAFUR_MAX_TEXT];
    size_t courses_length, values_length;
    uint8_t start[8];
    struct course_left left;
} made;

static struct ratios whole_ratios, step_ratios;

static size_t put_header(char *text, const struct input *in)
{
    size_t length = 0;
    for (uint64_t k = 0; k < in->m; k++)
        length += (size_t)sprintf(text + length, "g,");
    length += (size_t)sprintf(text + length, "mod %d %s", (int)in->p, order_words[in->order]);
    for (uint64_t k = 0; in->order == MISQAFUR_WEIGHT && k < in->m; k++)
        length += (size_t)sprintf(text + length, " %d", (int)(in->weights >> 8 * k & 255));
    return length + (size_t)sprintf(text + length, "\n");
}

static size_t put_record(char *text, const struct input *in, const uint8_t *levels, int last)
{
    size_t length = 0;
    for (uint64_t k = 0; k < in->m; k++)
        length += (size_t)sprintf(text + length, "%d,", levels[k]);
    return length + (size_t)sprintf(text + length, "%d\n", last);
}

/* The points and the last once more; then the two starts, which as states with values have no room. */
static void put_texts(void)
{
    const struct input *in = made.in;
    size_t c = put_header(made.courses, in), v = put_header(made.values, in);
    for (uint64_t i = 0; i <= in->n; i++) {
        const uint8_t *levels = in->levels + in->m * (i < in->n ? i : in->n - 1);
        c += put_record(made.courses + c, in, levels, THROUGH);
        v += put_record(made.values + v, in, levels, 0);
    }
    c += put_record(made.courses + c, in, made.start, LONG);
    made.courses_length = c + put_record(made.courses + c, in, in->levels + in->m * (in->n - 1), SHORT);
    made.values_length = v;
}

static void run_course(uint64_t course)
{
    struct course_left *to = &made.left;
    to->number = misqafur_time_course((const uint8_t *)made.courses, made.courses_length, course, LENT(&to->lent), to->interpolants,
                                      sizeof to->interpolants, to->weights, sizeof to->weights);
}

/* The first gene's level times anything moves through many states: of some that are tried, the start of the longest run. */
static void find_start(void)
{
    const struct input *in = made.in;
    unsigned longest = 0;
    uint64_t number = 1;
    memset(made.start, 0, sizeof made.start);
    put_texts();
    run_course(THROUGH);
    for (int i = 0; i < STARTS && longest < MISQAFUR_MAX_STEPS; i++) {
        uint8_t state[8] = {0};
        for (uint64_t k = 0; k < in->m; k++)
            state[k] = (uint8_t)((number = number * 48271 % 2147483647) % in->p);
        struct run_end end = plain_run((unsigned)in->p, (unsigned)in->m, (unsigned)in->n, &made.left, state);
        if (end.made > longest) {
            longest = end.made;
            memcpy(made.start, state, 8);
        }
    }
    put_texts();
}

static void read_values(void)
{
    static uint8_t states[512], values[64], counts[64], weights[8];
    made.left.number = misqafur_read_text((const uint8_t *)made.values, made.values_length, states, sizeof states, values,
                                          sizeof values, counts, sizeof counts, weights, sizeof weights);
}

static void draw_up(struct lent *to)
{
    const uint64_t answer = misqafur_draw_up(UNDER(made.in), LENT(to), made.in->levels, made.in->m * made.in->n);
    to->n = misqafur_points(answer);
    to->r = misqafur_elements(answer);
}

/* The interpolant of each gene's successors, over a sheet. */
static uint32_t interpolate(const struct lent *lent, uint8_t interpolants[MISQAFUR_INTERPOLANTS_SIZE])
{
    const struct input *in = made.in;
    uint32_t refused = 0;
    for (uint64_t g = 0; g < in->m; g++) {
        uint8_t values[64];
        for (uint64_t i = 0; i < in->n; i++)
            values[i] = in->levels[in->m * (i + 1 < in->n ? i + 1 : i) + g];
        refused |= misqafur_interpolate(UNDER(in), lent->n, lent->r, LENT(lent), values, in->n, interpolants + 64 * g, 64);
    }
    return refused;
}

static struct run_end run_from(const uint8_t *levels)
{
    uint8_t state[8] = {0};
    memcpy(state, levels, made.in->m);
    return plain_run((unsigned)made.in->p, (unsigned)made.in->m, (unsigned)made.in->n, &made.left, state);
}

/* Whether a course left these tables and interpolants, and ended its run as plain C says. */
static int left_alike(uint64_t course, const struct lent *lent, const uint8_t *interpolants, const uint8_t *start)
{
    const struct course_left *to = &made.left;
    run_course(course);
    const struct run_end end = run_from(start);
    return misqafur_read_refusal(to->number) == 0 && misqafur_read_points(to->number) == lent->n &&
           misqafur_course_elements(to->number) == lent->r && misqafur_course_step(to->number) == end.step &&
           misqafur_course_back(to->number) == end.back && memcmp(to->lent.states, lent->states, 512) == 0 &&
           memcmp(to->lent.standard, lent->standard, 512) == 0 && memcmp(to->lent.leads, lent->leads, sizeof lent->leads) == 0 &&
           memcmp(to->lent.coefficients, lent->coefficients, sizeof lent->coefficients) == 0 &&
           memcmp(to->lent.counts, lent->counts, 64) == 0 && memcmp(to->interpolants, interpolants, 512) == 0;
}

int course_compare(struct input *in)
{
    static struct lent lent;
    uint8_t interpolants[MISQAFUR_INTERPOLANTS_SIZE] = {0};
    made.in = in;
    find_start();
    draw_up(&lent);
    const uint32_t refused = interpolate(&lent, interpolants);
    const uint8_t *last = in->levels + in->m * (in->n - 1);
    if (refused == 0 && left_alike(THROUGH, &lent, interpolants, in->levels) && left_alike(LONG, &lent, interpolants, made.start) &&
        left_alike(SHORT, &lent, interpolants, last))
        return 0;
    printf("time course: results differ for p %d, m %d, order %d, n %d\n", (int)in->p, (int)in->m, (int)in->order, (int)in->n);
    return 1;
}

/* What is measured: the three courses; then the parts of the first, and the run in plain C of the second and the third. */
enum part { COURSE, LONG_COURSE, SHORT_COURSE, PARTS, LONG_RUN, SHORT_RUN, MEASURED };

static void perform(enum part part)
{
    static struct lent lent;
    static uint8_t interpolants[MISQAFUR_INTERPOLANTS_SIZE];
    switch (part) {
    case COURSE: run_course(THROUGH); return;
    case LONG_COURSE: run_course(LONG); return;
    case SHORT_COURSE: run_course(SHORT); return;
    case PARTS:
        read_values();
        draw_up(&lent);
        interpolate(&lent, interpolants);
        run_from(made.in->levels);
        return;
    case LONG_RUN: run_from(made.start); return;
    default: run_from(made.in->levels + made.in->m * (made.in->n - 1)); return;
    }
}

/* Microseconds for one: the mean over some milliseconds. */
static double time_part(enum part part)
{
    double begin = seconds(), end;
    unsigned runs = 0;
    do {
        for (int i = 0; i < 8; i++)
            perform(part);
        runs += 8;
        end = seconds();
    } while (end - begin < 0.003);
    return 1e6 * (end - begin) / runs;
}

int course_measure(struct input *in)
{
    int differing = course_compare(in);
    double best[MEASURED];
    for (int part = 0; part < MEASURED; part++)
        best[part] = 1e30;
    for (int round = 0; round < ROUNDS; round++)
        for (int part = 0; part < MEASURED; part++) {
            double time = time_part((enum part)part);
            best[part] = time < best[part] ? time : best[part];
        }
    printf("%-11s %3d %3d  %-8s %3d %10.1f %10.1f %6.2f", "time course", (int)in->p, (int)in->m, order_words[in->order], (int)in->n,
           best[COURSE], best[PARTS], best[COURSE] / best[PARTS]);
    keep_ratio(&whole_ratios, best[COURSE] / best[PARTS]);
    const unsigned steps = run_from(made.start).made - 1;
    if (steps >= LONG_ENOUGH) {
        const double ours = (best[LONG_COURSE] - best[SHORT_COURSE]) / steps, plain = (best[LONG_RUN] - best[SHORT_RUN]) / steps;
        keep_ratio(&step_ratios, ours / plain);
        printf(" %5u %10.3f %10.3f %6.2f", steps, ours, plain, ours / plain);
    }
    printf("\n");
    fflush(stdout);
    return differing;
}

void course_medians(void)
{
    print_median("a time course", "its parts", &whole_ratios);
    print_median("a step", "plain C by the same rule", &step_ratios);
}
