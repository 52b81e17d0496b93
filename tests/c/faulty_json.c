/* Texts of sheets as JSON with a set of faults: three points modulo 11 in two variables, and whatever is wrong beside. */
#include "faulty_text.h"
#include "made_json.h"

#include <stdlib.h>
#include <string.h>

/* The form of a sheet with another number of variables, as fault 4, or of points, as fault 8, and any numbers. */
static void set_shape(struct made *made, struct document *d, uint32_t faults, uint32_t variant)
{
    static const size_t variables[5] = {9, 0, 10, 100, 255}, fewer[5] = {9, 0, 10, 20, 40}, points[5] = {65, 66, 128, 200, 256 + 3};
    const struct member *m = d->member;
    const struct shape s = {.modulus = m[MODULUS_MEMBER].numbers[0],
                            .order = m[ORDER_MEMBER].numbers[0],
                            .variables = !has_fault(faults, 4) ? 2 : has_fault(faults, 8) ? fewer[variant % 5] : variables[variant % 5],
                            .n = has_fault(faults, 8) ? points[variant / 2 % 5] : 3,
                            .r = has_fault(faults, 10) ? variant % 3 : 3,
                            .limit = 11};
    made->chance.state = variant;
    put_shape(d, &made->chance, &s);
}

/* As fault 10 a number of a list is another; a point or an element goes, or comes twice; a point has no count; there are no
 * elements, or more than there is room for. The form stays. */
static void set_no_sheet(struct document *d, uint32_t variant)
{
    static const int lists[4] = {COEFFICIENTS_MEMBER, LEADS_MEMBER, POINTS_MEMBER, STANDARD_MEMBER};
    struct member *m = d->member, *elements[2] = {&m[COEFFICIENTS_MEMBER], &m[LEADS_MEMBER]};
    const size_t rows[4] = {0, m[LEADS_MEMBER].rows - 1, m[LEADS_MEMBER].rows + 1, 450};
    if (variant < 4)
        m[lists[variant]].numbers[variant % 3] = variant == 2 ? 11 : 10;
    else if (variant == 4)
        m[COUNTS_MEMBER].numbers[1] = 0;
    else if (variant == 5)
        memcpy(m[POINTS_MEMBER].numbers, m[POINTS_MEMBER].numbers + 2, 2 * sizeof(int));
    for (int i = 0; variant > 5 && i < 2; i++) {
        const size_t columns = elements[i]->ends[0];
        for (; elements[i]->rows < rows[variant - 6]; elements[i]->count += columns, elements[i]->rows++) {
            memcpy(elements[i]->numbers + elements[i]->count, elements[i]->numbers, columns * sizeof(int));
            elements[i]->ends[elements[i]->rows] = elements[i]->count + columns;
        }
        elements[i]->rows = rows[variant - 6];
        elements[i]->count = rows[variant - 6] * columns;
    }
}

static void set_settings(struct document *d, uint32_t faults, uint32_t variant)
{
    static const int moduli[8] = {67, 1, 0, 9, 255, 62, 100, 4}, orders[8] = {4, 5, 6, 100, 128, 254, 255, 10}, weights[4] = {0, 100, 255, 128};
    struct member *m = d->member;
    if (has_fault(faults, 3))
        m[MODULUS_MEMBER].numbers[0] = moduli[variant % 8];
    if (has_fault(faults, 5)) {
        m[ORDER_MEMBER].numbers[0] = orders[variant % 8];
        m[WEIGHTS_MEMBER].count = m[WEIGHTS_MEMBER].ends[0] = 0;
    }
    if (!has_fault(faults, 15))
        return;
    m[ORDER_MEMBER].numbers[0] = MISQAFUR_WEIGHT;
    m[WEIGHTS_MEMBER].count = m[WEIGHTS_MEMBER].ends[0] = (size_t)m[VARIABLES_MEMBER].numbers[0];
    for (size_t k = 0; k < m[WEIGHTS_MEMBER].count; k++)
        m[WEIGHTS_MEMBER].numbers[k] = k == variant % 2 ? weights[variant / 2 % 4] : 1;
}

/* As fault 19: a byte in front or behind, a blank, a name in capitals, a number too many, two members exchanged, a leading zero, a
 * sign, a number above 255, an end that is missing. */
static void set_no_form(struct made *made, uint32_t variant)
{
    static const char *const found[10] = {"{\"coefficients\"", "\"weights\":", "\"order\":", "\"modulus\":", "\"counts\":[", "\"order\":",
                                          "\"modulus\":", "\"modulus\":", "\"modulus\":", "}"};
    static const char *const instead[10] = {" {\"coefficients\"", "\"weights\": ", "\"Order\":", "\"modulus\":2,", "\"counts\":[,", "\"points\":",
                                            "\"modulus\":0", "\"modulus\":-", "\"modulus\":25600", ""};
    struct bytes *text = &made->call.buffer[GIVEN];
    const size_t old = strlen(found[variant]), new = strlen(instead[variant]);
    size_t at = 0;
    while (memcmp(text->at + at, found[variant], old) != 0)
        at++;
    memmove(text->at + at + new, text->at + at + old, text->length - at - old);
    memcpy(text->at + at, instead[variant], new);
    text->length = text->length + new - old;
}

void make_faulty_json(struct made *made, uint32_t faults, uint32_t variant)
{
    struct document *d = reference_new_document(20000);
    make_faulty_call(made, WRITE_JSON, 0, variant);
    const size_t length = misqafur_json_length((uint32_t)perform(&reference, &made->call));
    if (reference_document(made->bytes[OUT], length, d) != 0)
        abort();
    if (has_fault(faults, 4) || has_fault(faults, 8))
        set_shape(made, d, faults, variant);
    else if (has_fault(faults, 10))
        set_no_sheet(d, variant);
    set_settings(d, faults, variant);
    lend_faulty(made, READ_JSON, faults, variant);
    put_document(made, d);
    free(d);
    if (has_fault(faults, 19))
        set_no_form(made, variant);
    while (has_fault(faults, 1) && made->call.buffer[GIVEN].length <= MISQAFUR_JSON_SIZE + variant)
        put_word(made, " ");
}
