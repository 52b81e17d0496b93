/* One call with everything that it is handed, and the two implementations that can perform it. */
#ifndef CALL_H
#define CALL_H

#include "misqafur.h"

enum kind {
    ADD_POINT,
    WITHDRAW_POINT,
    DRAW_UP,
    DRAW_UP_PACKED,
    CHECK,
    INTERPOLATE,
    REMAINDER,
    WIRING,
    LEAVE_OUT,
    WRITE_JSON, /* the last of those that are handed settings */
    READ_TEXT,
    TIME_COURSE,
    READ_JSON,
    KINDS
};

extern const char *const kind_names[KINDS];

/* The thirteen calls of one implementation. */
struct calls {
    __typeof__(misqafur_add_point) *add_point;
    __typeof__(misqafur_withdraw_point) *withdraw_point;
    __typeof__(misqafur_draw_up) *draw_up;
    __typeof__(misqafur_draw_up_packed) *draw_up_packed;
    __typeof__(misqafur_check) *check;
    __typeof__(misqafur_interpolate) *interpolate;
    __typeof__(misqafur_remainder) *remainder;
    __typeof__(misqafur_wiring) *wiring;
    __typeof__(misqafur_leave_out) *leave_out;
    __typeof__(misqafur_write_json) *write_json;
    __typeof__(misqafur_read_text) *read_text;
    __typeof__(misqafur_time_course) *time_course;
    __typeof__(misqafur_read_json) *read_json;
};

extern const struct calls archive, reference;

/* The buffers of a call. A call has no use for those that its kind does not name. */
enum buffer {
    STATES,
    STANDARD,
    LEADS,
    COEFFICIENTS,
    COUNTS,    /* also those that are read from a text */
    GIVEN,     /* levels, values, coefficients of terms, or text */
    EXPONENTS, /* of terms */
    OUT,       /* interpolant, remainder, wiring list, the values read, a course's interpolants, or a sheet's text */
    WEIGHTS,   /* those that are read from a text */
    NEW_STATES, /* the tables without a variable, in the order of the others */
    NEW_STANDARD,
    NEW_LEADS,
    NEW_COEFFICIENTS,
    NEW_COUNTS,
    BUFFERS
};

/* The tables of a basis are the first of the buffers. */
#define TABLES 5

/* The refusals are numbered from 1 on and below this. */
#define REFUSALS 20

/* Bit k of a kind's entry: the call can answer refusal k. */
extern const uint32_t possible_refusals[KINDS];

/* The size that a table must have. */
extern const size_t table_sizes[TABLES];

struct bytes {
    uint8_t *at;
    size_t length;
};

struct call {
    enum kind kind;
    uint64_t modulus, variables, order, weights, n, r;
    uint64_t variable; /* that is to be left out */
    uint64_t course;   /* that is to be run forward */
    struct bytes buffer[BUFFERS];
};

/* Whether a call of this kind is handed all points at once. */
static inline int draws_up(enum kind kind)
{
    return kind == DRAW_UP || kind == DRAW_UP_PACKED;
}

/* Whether a call of this kind is handed a text of records, and answers with its settings or the record at fault. */
static inline int reads_text(enum kind kind)
{
    return kind == READ_TEXT || kind == TIME_COURSE;
}

/* Whether a call of this kind is handed levels, values or terms. */
static inline int is_handed_levels(enum kind kind)
{
    return kind < READ_TEXT && kind != CHECK && kind != LEAVE_OUT && kind != WRITE_JSON;
}

/* Whether a call of this kind is handed any text: of records, or a sheet's. */
static inline int is_handed_text(enum kind kind)
{
    return reads_text(kind) || kind == READ_JSON;
}

/* Has the call performed on its buffers, and gives the number returned. */
uint64_t perform(const struct calls *by, const struct call *call);

/* The size that a table or answer buffer must have in calls of this kind; 0 for any other buffer. */
size_t buffer_size(enum kind kind, enum buffer which);

#endif
