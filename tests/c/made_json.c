/* Random texts of sheets as JSON: as they are written, damaged byte by byte, or of that form with other numbers. */
#include "made_json.h"

#include "made_text.h"

#include <stdlib.h>
#include <string.h>

void put_document(struct made *made, const struct document *d)
{
    lend(made, GIVEN, reference_written(d, (char *)made->bytes[GIVEN], ROOM));
    if (made->call.buffer[GIVEN].length > ROOM)
        abort();
}

static void put_row(struct member *m, struct chance *c, size_t columns, uint64_t limit)
{
    for (; columns > 0; columns--)
        m->numbers[m->count++] = (int)below(c, limit);
    m->ends[m->rows++] = m->count;
}

static void put_rows(struct member *m, struct chance *c, size_t rows, size_t columns, uint64_t limit)
{
    m->rows = m->count = 0;
    for (; rows > 0; rows--)
        put_row(m, c, columns, limit);
}

void put_shape(struct document *d, struct chance *c, const struct shape *s)
{
    struct member *m = d->member;
    put_rows(&m[COEFFICIENTS_MEMBER], c, s->r, s->n, s->limit);
    put_rows(&m[COUNTS_MEMBER], c, 1, s->n, s->limit);
    put_rows(&m[LEADS_MEMBER], c, s->r, s->variables, s->limit);
    put_rows(&m[MODULUS_MEMBER], c, 1, 1, 1);
    put_rows(&m[ORDER_MEMBER], c, 1, 1, 1);
    put_rows(&m[POINTS_MEMBER], c, s->n, s->variables, s->limit);
    put_rows(&m[STANDARD_MEMBER], c, s->n, s->variables, s->limit);
    put_rows(&m[VARIABLES_MEMBER], c, 1, 1, 1);
    put_rows(&m[WEIGHTS_MEMBER], c, 1, s->order == MISQAFUR_WEIGHT ? s->variables : 0, MISQAFUR_MAX_WEIGHT);
    for (size_t k = 0; k < m[WEIGHTS_MEMBER].count; k++)
        m[WEIGHTS_MEMBER].numbers[k]++;
    m[MODULUS_MEMBER].numbers[0] = s->modulus;
    m[ORDER_MEMBER].numbers[0] = s->order;
    m[VARIABLES_MEMBER].numbers[0] = (int)s->variables;
}

/* The form of a sheet with random numbers: mostly few points and elements, now and then more than there is room for, or variables
 * and orders that no sheet has. */
static void random_shape(struct made *made, struct document *d)
{
    struct chance *c = &made->chance;
    const int many_points = once_in(c, 4), many_elements = !many_points && once_in(c, 4);
    const struct shape s = {.modulus = once_in(c, 6) ? (int)below(c, 256) : primes[below(c, 18)],
                            .order = once_in(c, 6) ? (int)below(c, 256) : (int)below(c, 4),
                            .variables = once_in(c, 6) ? below(c, 20) : 1 + below(c, 8),
                            .n = many_points ? 60 + below(c, 20) : below(c, 6),
                            .r = many_elements ? 440 + below(c, 20) : once_in(c, 12) ? below(c, 2) : below(c, 12),
                            .limit = once_in(c, 2) ? 2 : 256};
    put_shape(d, c, &s);
}

/* One of a document's numbers, or its order with weights to it, is another. */
static void random_number(struct made *made, struct document *d)
{
    struct chance *c = &made->chance;
    struct member *m = &d->member[below(c, JSON_MEMBERS)], *weights = &d->member[WEIGHTS_MEMBER];
    const int order = (int)below(c, once_in(c, 2) ? 4 : 6), variables = d->member[VARIABLES_MEMBER].numbers[0];
    if (m == &d->member[ORDER_MEMBER] && once_in(c, 2)) {
        m->numbers[0] = order;
        put_rows(weights, c, 1, order == MISQAFUR_WEIGHT ? (size_t)variables : 0, once_in(c, 2) ? 101 : 4);
    } else if (m->count > 0) {
        int *number = &m->numbers[below(c, m->count)];
        const int choices[4] = {*number + 1, *number == 0 ? 0 : *number - 1, d->member[MODULUS_MEMBER].numbers[0], (int)below(c, 256)};
        *number = choices[below(c, 4)];
    }
}

/* A row of a list of lists goes, or comes twice; now and then in the list that has as many, too. */
static void random_row(struct made *made, struct document *d)
{
    static const int pairs[4][2] = {{COEFFICIENTS_MEMBER, LEADS_MEMBER}, {LEADS_MEMBER, COEFFICIENTS_MEMBER},
                                    {POINTS_MEMBER, STANDARD_MEMBER}, {STANDARD_MEMBER, POINTS_MEMBER}};
    struct chance *c = &made->chance;
    const int *pair = pairs[below(c, 4)], both = once_in(c, 2) ? 2 : 1, goes = once_in(c, 2);
    for (int i = 0; i < both; i++) {
        struct member *m = &d->member[pair[i]];
        if (m->rows == 0)
            continue;
        const size_t columns = m->count / m->rows;
        if (goes) {
            m->rows--;
            m->count -= columns;
        } else {
            for (size_t k = 0; k < columns; k++, m->count++)
                m->numbers[m->count] = m->numbers[m->count - columns];
            m->ends[m->rows++] = m->count;
        }
    }
}

/* Bytes of JSON, and some of none. */
void mistype_json(struct made *made)
{
    static const char bytes[] = "[]{},:\"0123456789 \t\r\n-+.eEntfcdlmoprsuvw\\/\xef\xff\x01";
    mistype_by(made, bytes, sizeof bytes);
}

/* The text is so long as may be, or a byte longer, by what stands behind it or in front. */
static void lengthen(struct made *made)
{
    struct chance *c = &made->chance;
    struct bytes *text = &made->call.buffer[GIVEN];
    const size_t length = MISQAFUR_JSON_SIZE - 1 + below(c, 3);
    if (text->length >= length)
        return;
    memset(text->at + text->length, once_in(c, 2) ? ' ' : '0' + (int)below(c, 10), length - text->length);
    text->length = length;
}

void put_sheet_text(struct made *made)
{
    make_call(made, WRITE_JSON);
    const size_t length = misqafur_json_length((uint32_t)perform(&reference, &made->call));
    memcpy(made->bytes[GIVEN], made->bytes[OUT], length);
    lend_for_text(made, READ_JSON);
    lend(made, GIVEN, length);
}

void make_json(struct made *made)
{
    struct chance *c = &made->chance;
    put_sheet_text(made);
    if (once_in(c, 3)) {
        const int style = (int)below(c, 4);
        struct document *d = reference_new_document(MISQAFUR_JSON_SIZE);
        if (reference_document(made->bytes[GIVEN], made->call.buffer[GIVEN].length, d) != 0)
            abort();
        if (style == 0)
            random_shape(made, d);
        else if (style == 1)
            random_row(made, d);
        else
            random_number(made, d);
        put_document(made, d);
        free(d);
    }
    while (once_in(c, 4))
        mistype_json(made);
    if (once_in(c, 40))
        lengthen(made);
}
