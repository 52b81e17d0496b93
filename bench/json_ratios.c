/* The archive writing and reading a sheet as JSON beside the archive checking it and plain C that writes and reads without that. A text
 * that is written, and one that is read, has to be a sheet's, so recognising the sheet is part of both; what lies between their times
 * and that of checking is writing and reading. */
#define _POSIX_C_SOURCE 200809L
#include "json_ratios.h"

#include "clock.h"
#include "medians.h"
#include "operations.h"
#include "plain_json.h"

#include <string.h>

#define ROUNDS 9

/* The text, and what comes of it by the archive and by plain C. */
static struct {
    const struct input *in;
    uint8_t text[MISQAFUR_JSON_SIZE], plain[MISQAFUR_JSON_SIZE];
    size_t length;
    struct json_read ours, theirs;
} made;

static struct ratios write_ratios, read_ratios, whole_write_ratios, whole_read_ratios;

static uint32_t write_json(void)
{
    const struct input *in = made.in;
    return misqafur_write_json(UNDER(in), in->whole.n, in->whole.r, LENT(&in->whole), made.text, sizeof made.text);
}

static uint64_t read_json(void)
{
    struct json_read *to = &made.ours;
    return misqafur_read_json(made.text, made.length, LENT(&to->lent), to->weights, sizeof to->weights);
}

int json_compare(struct input *in)
{
    prepare(in);
    made.in = in;
    memset(&made.ours, 0, sizeof made.ours);
    const uint32_t answer = write_json();
    made.length = misqafur_json_length(answer);
    const uint64_t number = read_json();
    made.ours.p = misqafur_read_modulus(number);
    made.ours.m = misqafur_read_variables(number);
    made.ours.order = misqafur_read_order(number);
    made.ours.lent.n = misqafur_read_points(number);
    made.ours.lent.r = misqafur_json_elements(number);
    if (misqafur_refusal(answer) == 0 && misqafur_read_refusal(number) == 0 && plain_write_json(in, made.plain) == made.length &&
        memcmp(made.text, made.plain, made.length) == 0 && plain_read_json(made.text, made.length, &made.theirs) == 0 &&
        memcmp(&made.ours, &made.theirs, sizeof made.ours) == 0 && memcmp(made.ours.lent.coefficients, in->whole.coefficients, 28736) == 0)
        return 0;
    printf("json: results differ for p %d, m %d, order %d, n %d\n", (int)in->p, (int)in->m, (int)in->order, (int)in->n);
    return 1;
}

/* What is measured. */
enum part { CHECK, WRITE, PLAIN_WRITE, READ, PLAIN_READ, MEASURED };

static uint64_t perform(enum part part)
{
    const struct input *in = made.in;
    switch (part) {
    case CHECK: return misqafur_check(UNDER(in), in->whole.n, in->whole.r, LENT(&in->whole));
    case WRITE: return write_json();
    case PLAIN_WRITE: return plain_write_json(in, made.plain);
    case READ: return read_json();
    default: return (uint64_t)plain_read_json(made.text, made.length, &made.theirs);
    }
}

/* Microseconds for one: the mean over some milliseconds. */
static double time_part(enum part part)
{
    static volatile uint64_t kept;
    double begin = seconds(), end;
    unsigned runs = 0;
    do {
        for (int i = 0; i < 8; i++)
            kept = kept + perform(part);
        runs += 8;
        end = seconds();
    } while (end - begin < 0.003);
    return 1e6 * (end - begin) / runs;
}

int json_measure(struct input *in)
{
    const int differing = json_compare(in);
    double best[MEASURED];
    for (int part = 0; part < MEASURED; part++)
        best[part] = 1e30;
    for (int round = 0; round < ROUNDS; round++)
        for (int part = 0; part < MEASURED; part++) {
            const double time = time_part((enum part)part);
            best[part] = time < best[part] ? time : best[part];
        }
    const double writing = (best[WRITE] - best[CHECK]) / best[PLAIN_WRITE], reading = (best[READ] - best[CHECK]) / best[PLAIN_READ];
    keep_ratio(&write_ratios, writing);
    keep_ratio(&read_ratios, reading);
    keep_ratio(&whole_write_ratios, best[WRITE] / (best[CHECK] + best[PLAIN_WRITE]));
    keep_ratio(&whole_read_ratios, best[READ] / (best[CHECK] + best[PLAIN_READ]));
    printf("%-4s %3d %3d  %-8s %3d %4d %6d %10.1f %10.1f %10.1f %6.2f %10.1f %10.1f %6.2f\n", "json", (int)in->p, (int)in->m,
           order_words[in->order], (int)in->n, (int)in->whole.r, (int)made.length, best[CHECK], best[WRITE], best[PLAIN_WRITE], writing,
           best[READ], best[PLAIN_READ], reading);
    fflush(stdout);
    return differing;
}

void json_medians(void)
{
    print_median("writing without checking", "plain C", &write_ratios);
    print_median("reading without checking", "plain C", &read_ratios);
    print_median("writing", "checking and plain C", &whole_write_ratios);
    print_median("reading", "checking and plain C", &whole_read_ratios);
}
