/* A sheet as JSON, by docs/SCOPE.md: the refusals in their order, then the nine members of the tables, or the tables of the
 * members. */
#include "reference_json.h"

#include "reference_handed.h"

#include <stdlib.h>
#include <string.h>

#define JSON_SIZE 131072

static void add_row(struct member *m, const uint8_t *numbers, size_t count)
{
    for (size_t i = 0; i < count; i++)
        m->numbers[m->count++] = numbers[i];
    m->ends[m->rows++] = m->count;
}

static void add_rows(struct member *m, const uint8_t *table, size_t width, int rows, int columns)
{
    for (int i = 0; i < rows; i++)
        add_row(m, table + width * (size_t)i, (size_t)columns);
}

static void document_of(const struct basis *b, struct document *d)
{
    const uint8_t numbers[3] = {(uint8_t)b->p, (uint8_t)b->order, (uint8_t)b->m};
    uint8_t weights[8];
    for (int k = 0; k < 8; k++)
        weights[k] = (uint8_t)b->weights[k];
    add_rows(&d->member[COEFFICIENTS_MEMBER], b->coefficients, 64, b->r, b->n);
    add_row(&d->member[COUNTS_MEMBER], b->counts, (size_t)b->n);
    add_rows(&d->member[LEADS_MEMBER], b->leads, 8, b->r, b->m);
    add_row(&d->member[MODULUS_MEMBER], numbers, 1);
    add_row(&d->member[ORDER_MEMBER], numbers + 1, 1);
    add_rows(&d->member[POINTS_MEMBER], b->states, 8, b->n, b->m);
    add_rows(&d->member[STANDARD_MEMBER], b->standard, 8, b->n, b->m);
    add_row(&d->member[VARIABLES_MEMBER], numbers + 2, 1);
    add_row(&d->member[WEIGHTS_MEMBER], weights, b->order == 3 ? (size_t)b->m : 0);
}

uint32_t reference_write_json(uint64_t modulus, uint64_t variables, uint64_t order, uint64_t weights,
                              uint64_t n, uint64_t r,
                              const uint8_t *states, size_t states_length,
                              const uint8_t *standard, size_t standard_length,
                              const uint8_t *leads, size_t leads_length,
                              const uint8_t *coefficients, size_t coefficients_length,
                              const uint8_t *counts, size_t counts_length, uint8_t *out, size_t out_length)
{
    HANDED(h);
    struct basis b;
    int refusal = reference_early_refusal(&h, out_length, JSON_SIZE);
    if (refusal != 0)
        return (uint32_t)refusal;
    if (n > 64)
        return 8;
    if (reference_table_refusal(&h, &b) != 0)
        return 10;
    struct document *d = reference_new_document(64 * 449);
    document_of(&b, d);
    const size_t length = reference_written(d, (char *)out, JSON_SIZE);
    free(d);
    return 256 * (uint32_t)length;
}

static void take_rows(const struct member *m, uint8_t *table, size_t width)
{
    for (size_t row = 0, at = 0; row < m->rows; row++)
        for (size_t k = 0; at < m->ends[row]; k++, at++)
            table[width * row + k] = (uint8_t)m->numbers[at];
}

/* What the later refusals are looked for in: the settings, n and r, and the tables where there is room for them. */
static struct handed handed_of(const struct document *d, uint8_t weights[8], struct basis *b)
{
    const struct member *m = d->member;
    struct handed h = {.modulus = (uint64_t)m[MODULUS_MEMBER].numbers[0], .variables = (uint64_t)m[VARIABLES_MEMBER].numbers[0],
                       .order = (uint64_t)m[ORDER_MEMBER].numbers[0], .n = m[COUNTS_MEMBER].count, .r = m[LEADS_MEMBER].rows,
                       .table = {b->states, b->standard, b->leads, b->coefficients, b->counts}};
    memset(b, 0, sizeof *b);
    memset(weights, 0, 8);
    for (size_t k = 0; k < m[WEIGHTS_MEMBER].count && k < 8; k++) {
        weights[k] = (uint8_t)m[WEIGHTS_MEMBER].numbers[k];
        h.weights |= (uint64_t)weights[k] << 8 * k;
    }
    if (h.variables > 8 || h.n > 64 || h.r > 449)
        return h;
    take_rows(&m[POINTS_MEMBER], b->states, 8);
    take_rows(&m[STANDARD_MEMBER], b->standard, 8);
    take_rows(&m[LEADS_MEMBER], b->leads, 8);
    take_rows(&m[COEFFICIENTS_MEMBER], b->coefficients, 64);
    take_rows(&m[COUNTS_MEMBER], b->counts, 64); /* one row */
    return h;
}

/* The refusals behind 19, in their order; without one, b is the sheet. */
static int sheet_refusal(const struct handed *h, const size_t lengths[5], size_t weights_length, struct basis *b)
{
    int refusal = reference_settings_refusal(h->modulus, h->variables, h->order, h->weights);
    if (refusal != 0)
        return refusal;
    if (reference_too_short(lengths) || weights_length < 8)
        return 6;
    if (h->n > 64)
        return 8;
    return h->r > 449 ? 10 : reference_table_refusal(h, b);
}

uint64_t reference_read_json(const uint8_t *text, size_t text_length,
                             uint8_t *states, size_t states_length, uint8_t *standard, size_t standard_length,
                             uint8_t *leads, size_t leads_length, uint8_t *coefficients, size_t coefficients_length,
                             uint8_t *counts, size_t counts_length, uint8_t *weights, size_t weights_length)
{
    const size_t lengths[5] = {states_length, standard_length, leads_length, coefficients_length, counts_length};
    uint8_t read_weights[8];
    struct basis read, b;
    if (text_length > JSON_SIZE)
        return 1;
    struct document *d = reference_new_document(text_length + 1);
    int refusal = reference_document(text, text_length, d);
    if (refusal == 0) {
        const struct handed h = handed_of(d, read_weights, &read);
        refusal = sheet_refusal(&h, lengths, weights_length, &b);
    }
    free(d);
    if (refusal != 0)
        return (uint64_t)refusal;
    const uint64_t answer = reference_write_out(&b, states, standard, leads, coefficients, counts);
    memcpy(weights, read_weights, 8);
    return (answer & 65535) | (uint64_t)b.p << 16 | (uint64_t)b.m << 24 | (uint64_t)b.order << 32 | (answer >> 16) << 36;
}
