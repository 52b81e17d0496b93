/* Running a time course forward, by docs/SCOPE.md: the records and their form, the refusals in their order, the sheet of the
 * states that have a successor, an interpolant for each gene, and the run with every state met kept. */
#include "reference_handed.h"
#include "reference_records.h"

#include <stdlib.h>
#include <string.h>

#define MOST_STEPS 256

/* The records behind the header: the residues of each one's state, and its course. */
struct timed {
    uint8_t state[8];
    int course;
};

struct courses {
    size_t count;
    struct timed at[MOST_TEXT];
};

/* The number in a record's last field. */
static int course_of(const struct records *from, size_t record)
{
    int number;
    reference_read_level(from, from->first_field[record + 1] - 1, &number);
    return number;
}

/* A course number is 1 to 99, and does not return after another. */
static int course_is_good(const struct records *from, size_t record)
{
    int number = course_of(from, record);
    if (number < 1 || number > 99)
        return 0;
    if (record == 1 || course_of(from, record - 1) == number)
        return 1;
    for (size_t earlier = 1; earlier < record; earlier++)
        if (course_of(from, earlier) == number)
            return 0;
    return 1;
}

/* All records; or refusal 9 with its own. */
static uint64_t take_records(const struct records *from, int p, int m, struct courses *to)
{
    to->count = from->count - 1;
    for (size_t i = 0; i < to->count; i++) {
        to->at[i].course = course_of(from, i + 1);
        if (!reference_read_point(from, i + 1, p, m, to->at[i].state))
            return reference_refused(9, i + 2);
    }
    return 0;
}

static int has_successor(const struct courses *c, size_t i)
{
    return i + 1 < c->count && c->at[i + 1].course == c->at[i].course;
}

static int same(const struct courses *c, size_t i, size_t j)
{
    return memcmp(c->at[i].state, c->at[j].state, 8) == 0;
}

/* Whether the state of record i, which has a successor, stood with another one before. */
static int stands_otherwise(const struct courses *c, size_t i)
{
    for (size_t j = 0; j < i; j++)
        if (has_successor(c, j) && same(c, j, i) && !same(c, j + 1, i + 1))
            return 1;
    return 0;
}

/* Refusal 17 with its record, or 0. */
static uint64_t find_branch(const struct courses *c)
{
    for (size_t i = 0; i < c->count; i++)
        if (has_successor(c, i) && stands_otherwise(c, i))
            return reference_refused(17, i + 2);
    return 0;
}

/* The states that have a successor, with how many of their records have one, and of each the first such record; or refusal 8 or
 * 13 with its record. */
static uint64_t gather(const struct courses *c, struct arrivals *a, size_t first[64])
{
    uint64_t too_often = 0;
    for (size_t i = 0; i < c->count; i++) {
        if (!has_successor(c, i))
            continue;
        int place = reference_arrive(a, c->at[i].state, 1);
        if (place == 64)
            return reference_refused(8, i + 2);
        if (a->times[place] == 1)
            first[place] = i;
        if (a->times[place] == 256 && too_often == 0)
            too_often = reference_refused(13, i + 2);
    }
    return too_often;
}

/* The first record of a course, or c->count if it has none. */
static size_t first_of(const struct courses *c, uint64_t course)
{
    size_t i = 0;
    while (i < c->count && (uint64_t)c->at[i].course != course)
        i++;
    return i;
}

/* The interpolant of each gene: at each point the gene's residue in the successor. */
static void find_model(const struct basis *b, const struct courses *c, const size_t first[64], uint8_t interpolants[512])
{
    memset(interpolants, 0, 512);
    for (int g = 0; g < b->m; g++) {
        int values[64] = {0};
        for (int q = 0; q < b->n; q++)
            values[q] = c->at[first[q] + 1].state[g];
        reference_solve(b, values, interpolants + 64 * g);
    }
}

/* The values of the interpolants at a state. */
static void step(const struct basis *b, const uint8_t interpolants[512], const uint8_t state[8], uint8_t next[8])
{
    memset(next, 0, 8);
    for (int g = 0; g < b->m; g++) {
        int sum = 0;
        for (int t = 0; t < b->n; t++)
            sum += interpolants[64 * g + t] * reference_value(b->p, b->standard + 8 * t, state);
        next[g] = (uint8_t)(sum % b->p);
    }
}

/* The bits of the answer for the step that ends the run, and its distance back; 0 for none within 256. */
static uint64_t run(const struct basis *b, const uint8_t interpolants[512], const uint8_t start[8])
{
    uint8_t met[MOST_STEPS + 1][8];
    memcpy(met[0], start, 8);
    for (int k = 1; k <= MOST_STEPS; k++) {
        step(b, interpolants, met[k - 1], met[k]);
        int earlier = reference_place(met[0], k, met[k]);
        if (earlier < k)
            return ((uint64_t)k << 46) + ((uint64_t)(k - earlier) << 55);
    }
    return 0;
}

/* The lent buffers. */
struct lent {
    uint8_t *table[5], *interpolants, *weights;
    int sized; /* whether none is shorter than its size */
};

/* What is left to do with settings that are none to be refused. */
static uint64_t run_forward(const struct records *from, const struct header *header, uint64_t course, struct courses *c,
                            const struct lent *to)
{
    struct arrivals found = {.n = 0};
    struct handed settings = {.modulus = (uint64_t)header->modulus, .variables = header->names, .order = header->order,
                              .weights = header->packed};
    struct basis b;
    size_t first[64] = {0};
    uint64_t refused = take_records(from, header->modulus, (int)header->names, c);
    if (refused == 0)
        refused = find_branch(c);
    if (refused == 0)
        refused = gather(c, &found, first);
    if (refused != 0)
        return refused;
    if (first_of(c, course) == c->count)
        return reference_refused(18, 0);
    reference_take_settings(&settings, &b);
    reference_take_arrivals(&b, &found);
    reference_write_out(&b, to->table[0], to->table[1], to->table[2], to->table[3], to->table[4]);
    find_model(&b, c, first, to->interpolants);
    for (int k = 0; k < 8; k++)
        to->weights[k] = (uint8_t)(header->packed >> 8 * k & 255);
    return 256 * (uint64_t)b.n + 65536 * (uint64_t)b.p + ((uint64_t)b.m << 24) + (header->order << 32) + ((uint64_t)b.r << 36) +
           run(&b, to->interpolants, c->at[first_of(c, course)].state);
}

static uint64_t read_whole(const struct records *from, uint64_t course, const struct lent *to)
{
    struct header header = {.modulus = 0};
    size_t fault = reference_fault_of_form(from, &header, course_is_good);
    if (fault != 0)
        return reference_refused(2, fault);
    int refusal = reference_settings_refusal((uint64_t)header.modulus, header.names, header.order, header.packed);
    if (refusal != 0)
        return reference_refused((uint64_t)refusal, 1);
    if (!to->sized)
        return reference_refused(6, 0);
    struct courses *c = malloc(sizeof *c);
    if (c == NULL)
        abort();
    uint64_t answer = run_forward(from, &header, course, c, to);
    free(c);
    return answer;
}

uint64_t reference_time_course(const uint8_t *text, size_t text_length, uint64_t course,
                               uint8_t *states, size_t states_length, uint8_t *standard, size_t standard_length,
                               uint8_t *leads, size_t leads_length, uint8_t *coefficients, size_t coefficients_length,
                               uint8_t *counts, size_t counts_length, uint8_t *interpolants, size_t interpolants_length,
                               uint8_t *weights, size_t weights_length)
{
    const size_t length[5] = {states_length, standard_length, leads_length, coefficients_length, counts_length};
    const struct lent to = {{states, standard, leads, coefficients, counts}, interpolants, weights,
                            !reference_too_short(length) && interpolants_length >= 512 && weights_length >= 8};
    if (text_length > MOST_TEXT)
        return reference_refused(1, 0);
    struct records *records = reference_records(text, text_length);
    uint64_t answer = read_whole(records, course, &to);
    free(records);
    return answer;
}
