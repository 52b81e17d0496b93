/* The text reader by docs/SCOPE.md: first the records and their form, then the remaining refusals in order. */
#include "reference_records.h"

#include <stdlib.h>
#include <string.h>

/* The residues of a record's point and of its value; says whether all are in range. */
static int read_residues(const struct records *from, size_t record, int p, int m, uint8_t point[8], uint8_t *value)
{
    int level;
    reference_read_level(from, from->first_field[record] + (size_t)m, &level);
    *value = reference_residue(p, level);
    return reference_in_range(p, level) & reference_read_point(from, record, p, m, point);
}

/* Refusal 9 with its record, or 0. */
static uint64_t find_outside(const struct records *from, int p, int m)
{
    uint8_t point[8], value;
    for (size_t record = 1; record < from->count; record++)
        if (!read_residues(from, record, p, m, point, &value))
            return reference_refused(9, record + 1);
    return 0;
}

/* The distinct points with how often each came, and the values of their first records; or refusal 8, 13 or 14 with its
 * record, each looked for over the whole text before the next. */
static uint64_t gather(const struct records *from, int p, int m, struct arrivals *a, uint8_t values[64])
{
    size_t too_often = 0, other_value = 0;
    for (size_t record = 1; record < from->count; record++) {
        uint8_t point[8], value = 0;
        read_residues(from, record, p, m, point, &value);
        int place = reference_arrive(a, point, 1);
        if (place == 64)
            return reference_refused(8, record + 1);
        if (a->times[place] == 1)
            values[place] = value;
        if (a->times[place] == 256 && too_often == 0)
            too_often = record + 1;
        if (values[place] != value && other_value == 0)
            other_value = record + 1;
    }
    if (too_often != 0)
        return reference_refused(13, too_often);
    return other_value != 0 ? reference_refused(14, other_value) : 0;
}

/* The lent buffers. */
struct read {
    uint8_t *states, *values, *counts, *weights;
    int sized; /* whether none is shorter than its size */
};

static uint64_t read_whole(struct records *from, const struct read *to)
{
    struct arrivals found = {.n = 0};
    struct header header = {.modulus = 0};
    uint8_t residues[64] = {0};
    size_t fault = reference_fault_of_form(from, &header, NULL);
    if (fault != 0)
        return reference_refused(2, fault);
    int p = header.modulus, m = (int)header.names;
    int refusal = reference_settings_refusal((uint64_t)p, header.names, header.order, header.packed);
    if (refusal != 0)
        return reference_refused((uint64_t)refusal, 1);
    if (!to->sized)
        return reference_refused(6, 0);
    uint64_t late = find_outside(from, p, m);
    if (late == 0)
        late = gather(from, p, m, &found, residues);
    if (late != 0)
        return late;
    memset(to->states, 0, 512);
    memcpy(to->states, found.points, 8 * (size_t)found.n);
    memcpy(to->values, residues, 64);
    for (int i = 0; i < 64; i++)
        to->counts[i] = (uint8_t)(i < found.n ? found.times[i] : 0);
    for (int k = 0; k < 8; k++)
        to->weights[k] = (uint8_t)(header.packed >> 8 * k & 255);
    return 256 * (uint64_t)found.n + 65536 * (uint64_t)p + ((uint64_t)m << 24) + (header.order << 32);
}

uint64_t reference_read_text(const uint8_t *text, size_t text_length, uint8_t *states, size_t states_length,
                             uint8_t *values, size_t values_length, uint8_t *counts, size_t counts_length,
                             uint8_t *weights, size_t weights_length)
{
    const int sized = states_length >= 512 && values_length >= 64 && counts_length >= 64 && weights_length >= 8;
    const struct read to = {states, values, counts, weights, sized};
    if (text_length > MOST_TEXT)
        return reference_refused(1, 0);
    struct records *records = reference_records(text, text_length);
    uint64_t answer = read_whole(records, &to);
    free(records);
    return answer;
}
