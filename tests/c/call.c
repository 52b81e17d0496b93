/* Performing a call by the archive or by the reference. */
#include "call.h"

#include "reference.h"

const char *const kind_names[KINDS] = {"add_point", "withdraw_point", "draw_up", "draw_up_packed", "check",
                                       "interpolate", "remainder", "wiring", "leave_out", "write_json",
                                       "read_text", "time_course", "read_json"};

/* Those that every call over tables can answer, and those of one that is handed levels, values or terms beside. */
#define EARLY (1 << 3 | 1 << 4 | 1 << 5 | 1 << 15 | 1 << 6)
#define ANSWERING (EARLY | 1 << 7 | 1 << 8 | 1 << 9 | 1 << 10)
#define DRAWING (EARLY | 1 << 7 | 1 << 8 | 1 << 9 | 1 << 13)

/* Those of a call that is handed a text. */
#define READING (1 << 1 | 1 << 2 | 1 << 3 | 1 << 4 | 1 << 15 | 1 << 6 | 1 << 8 | 1 << 9 | 1 << 13)

const uint32_t possible_refusals[KINDS] = {[ADD_POINT] = ANSWERING | 1 << 13,
                                           [WITHDRAW_POINT] = ANSWERING | 1 << 12,
                                           [DRAW_UP] = DRAWING,
                                           [DRAW_UP_PACKED] = DRAWING,
                                           [CHECK] = EARLY | 1 << 8 | 1 << 10,
                                           [INTERPOLATE] = ANSWERING,
                                           [REMAINDER] = ANSWERING,
                                           [WIRING] = ANSWERING,
                                           [LEAVE_OUT] = EARLY | 1 << 8 | 1 << 10 | 1 << 13 | 1 << 16,
                                           [WRITE_JSON] = EARLY | 1 << 8 | 1 << 10,
                                           [READ_TEXT] = READING | 1 << 14,
                                           [TIME_COURSE] = READING | 1 << 17 | 1 << 18,
                                           [READ_JSON] = EARLY | 1 << 8 | 1 << 10 | 1 << 1 | 1 << 19};

const size_t table_sizes[TABLES] = {MISQAFUR_STATES_SIZE, MISQAFUR_STANDARD_SIZE, MISQAFUR_LEADS_SIZE,
                                    MISQAFUR_COEFFICIENTS_SIZE, MISQAFUR_COUNTS_SIZE};

const struct calls archive = {misqafur_add_point,      misqafur_withdraw_point, misqafur_draw_up,
                              misqafur_draw_up_packed, misqafur_check,          misqafur_interpolate,
                              misqafur_remainder,      misqafur_wiring,         misqafur_leave_out,
                              misqafur_write_json,     misqafur_read_text,      misqafur_time_course,
                              misqafur_read_json};

const struct calls reference = {reference_add_point,      reference_withdraw_point, reference_draw_up,
                                reference_draw_up_packed, reference_check,          reference_interpolate,
                                reference_remainder,      reference_wiring,         reference_leave_out,
                                reference_write_json,     reference_read_text,      reference_time_course,
                                reference_read_json};

size_t buffer_size(enum kind kind, enum buffer which)
{
    if (which == STATES || which == COUNTS || (which < TABLES && kind != READ_TEXT))
        return table_sizes[which];
    if (which >= NEW_STATES)
        return kind == LEAVE_OUT ? table_sizes[which - NEW_STATES] : 0;
    if (which == WEIGHTS && is_handed_text(kind))
        return MISQAFUR_WEIGHTS_SIZE;
    if (which != OUT)
        return 0;
    if (kind == WIRING)
        return MISQAFUR_WIRING_SIZE;
    if (kind == TIME_COURSE)
        return MISQAFUR_INTERPOLANTS_SIZE;
    if (kind == WRITE_JSON)
        return MISQAFUR_JSON_SIZE;
    return kind == INTERPOLATE || kind == REMAINDER || kind == READ_TEXT ? MISQAFUR_RESIDUES_SIZE : 0;
}

#define LENT(I) b[I].at, b[I].length
#define ALL_TABLES LENT(STATES), LENT(STANDARD), LENT(LEADS), LENT(COEFFICIENTS), LENT(COUNTS)
#define ALL_NEW LENT(NEW_STATES), LENT(NEW_STANDARD), LENT(NEW_LEADS), LENT(NEW_COEFFICIENTS), LENT(NEW_COUNTS)
#define SETTINGS c->modulus, c->variables, c->order, c->weights

uint64_t perform(const struct calls *by, const struct call *c)
{
    const struct bytes *b = c->buffer;
    switch (c->kind) {
    case ADD_POINT:
        return by->add_point(SETTINGS, c->n, c->r, ALL_TABLES, LENT(GIVEN));
    case WITHDRAW_POINT:
        return by->withdraw_point(SETTINGS, c->n, c->r, ALL_TABLES, LENT(GIVEN));
    case DRAW_UP:
        return by->draw_up(SETTINGS, ALL_TABLES, LENT(GIVEN));
    case DRAW_UP_PACKED:
        return by->draw_up_packed(SETTINGS, ALL_TABLES, LENT(GIVEN));
    case CHECK:
        return by->check(SETTINGS, c->n, c->r, ALL_TABLES);
    case INTERPOLATE:
        return by->interpolate(SETTINGS, c->n, c->r, ALL_TABLES, LENT(GIVEN), LENT(OUT));
    case REMAINDER:
        return by->remainder(SETTINGS, c->n, c->r, ALL_TABLES, LENT(GIVEN), LENT(EXPONENTS), LENT(OUT));
    case WIRING:
        return by->wiring(SETTINGS, c->n, c->r, ALL_TABLES, LENT(GIVEN), LENT(OUT));
    case LEAVE_OUT:
        return by->leave_out(SETTINGS, c->n, c->r, ALL_TABLES, c->variable, ALL_NEW);
    case TIME_COURSE:
        return by->time_course(LENT(GIVEN), c->course, ALL_TABLES, LENT(OUT), LENT(WEIGHTS));
    case WRITE_JSON:
        return by->write_json(SETTINGS, c->n, c->r, ALL_TABLES, LENT(OUT));
    case READ_JSON:
        return by->read_json(LENT(GIVEN), ALL_TABLES, LENT(WEIGHTS));
    default:
        return by->read_text(LENT(GIVEN), LENT(STATES), LENT(OUT), LENT(COUNTS), LENT(WEIGHTS));
    }
}
