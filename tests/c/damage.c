/* Damages to a call: each changes one thing that it is handed. */
#include "made.h"

#include <string.h>

/* Numbers at the edges of what a call may be handed. */
static uint64_t odd_number(struct chance *c, uint64_t old)
{
    static const uint64_t edges[] = {0,  1,   2,   3,   4,   8,   9,     63,    64,          65,         67,
                                     70, 127, 128, 255, 256, 449, 450,   65535, 65536,       0xffffffff, 0x100000000,
                                     UINT64_MAX, UINT64_MAX - 1, (uint64_t)1 << 63};
    static const uint64_t steps[] = {1, UINT64_MAX, 8, 64, 256, 65536, 0x100000000, (uint64_t)1 << 63};
    if (once_in(c, 2))
        return edges[below(c, sizeof edges / sizeof *edges)];
    return old + steps[below(c, sizeof steps / sizeof *steps)];
}

static void settings(struct made *made)
{
    uint64_t *const numbers[4] = {&made->call.modulus, &made->call.variables, &made->call.order, &made->call.weights};
    uint64_t *number = numbers[below(&made->chance, 4)];
    *number = odd_number(&made->chance, *number);
}

/* Another weight of some variable, at the edges of what it may be, or of one that is not there. */
static void one_weight(struct made *made)
{
    static const uint64_t edges[] = {0, 1, 2, 98, 99, 100, 127, 128, 227, 255};
    struct chance *c = &made->chance;
    uint64_t shift = 8 * below(c, once_in(c, 2) ? 8 : made->call.variables % 9 + 1) % 64;
    uint64_t weight = once_in(c, 2) ? below(c, 256) : edges[below(c, sizeof edges / sizeof *edges)];
    made->call.weights = (made->call.weights & ~((uint64_t)255 << shift)) | weight << shift;
}

/* Settings that are taken, but perhaps not the tables' own. */
static void other_settings(struct made *made)
{
    struct chance *c = &made->chance;
    switch (below(c, 3)) {
    case 0:
        made->call.modulus = primes[below(c, 18)];
        break;
    case 1:
        made->call.variables = 1 + below(c, 8);
        break;
    default:
        random_order(c, &made->call);
    }
}

/* Another n or r. */
static void numbers(struct made *made)
{
    uint64_t *number = once_in(&made->chance, 2) ? &made->call.n : &made->call.r;
    *number = odd_number(&made->chance, *number);
}

/* n and as many values, whatever the tables hold. */
static void count_and_values(struct made *made)
{
    uint64_t n = once_in(&made->chance, 4) ? 60 + below(&made->chance, 20) : below(&made->chance, 66);
    made->call.n = n;
    made->call.buffer[GIVEN] = (struct bytes){made->bytes[GIVEN], n};
}

/* Any wrong length of a table or of the answer buffer. */
static void short_buffer(struct made *made)
{
    struct bytes *b = &made->call.buffer[once_in(&made->chance, 5) ? OUT : below(&made->chance, TABLES)];
    if (b->length > 0)
        b->length = once_in(&made->chance, 4) ? b->length - 1 : below(&made->chance, b->length);
}

/* How many bytes a table has for each of its points, monomials or rows, and how many of these are claimed. */
static size_t width_of(enum buffer table)
{
    return table == COEFFICIENTS ? 64 : table == COUNTS ? 1 : 8;
}

static size_t rows_of(const struct made *made, enum buffer table)
{
    return table == LEADS || table == COEFFICIENTS ? made->call.r : made->call.n;
}

/* A byte of a table: mostly one that means something, now and then a zero, the last, or one past the size. */
static uint8_t *table_byte(struct made *made, enum buffer table)
{
    struct chance *c = &made->chance;
    size_t rows = rows_of(made, table), wide = width_of(table);
    size_t used = rows <= table_sizes[table] / wide ? rows * wide : 0;
    if (once_in(c, 8))
        return made->bytes[table] + table_sizes[table] - 1 + below(c, 2);
    if (used == 0 || once_in(c, 3))
        return made->bytes[table] + below(c, table_sizes[table] + 8);
    size_t columns = 1 + (table == COEFFICIENTS ? made->call.n % 65 : made->call.variables % 9);
    return made->bytes[table] + wide * below(c, rows) + below(c, columns) % wide;
}

/* A count that no point has, or a count without a point; now and then another count. */
static void count_change(struct made *made)
{
    struct chance *c = &made->chance;
    size_t i = below(c, MISQAFUR_COUNTS_SIZE);
    if (made->call.n <= MISQAFUR_COUNTS_SIZE && made->call.n > 0 && !once_in(c, 3))
        i = below(c, made->call.n);
    made->bytes[COUNTS][i] = once_in(c, 2) ? 0 : (uint8_t)any_number(c);
}

static void table_change(struct made *made)
{
    struct chance *c = &made->chance;
    uint8_t *byte = table_byte(made, (enum buffer)below(c, TABLES)), p = (uint8_t)made->call.modulus;
    switch (below(c, 4)) {
    case 0:
        *byte = (uint8_t)any_number(c);
        break;
    case 1:
        *byte = (uint8_t)(*byte + p);
        break;
    case 2:
        *byte = (uint8_t)(*byte ^ 1u << below(c, 8));
        break;
    default:
        *byte = (uint8_t)((*byte + 1) % (p == 0 ? 1 : p));
    }
}

/* Two rows of a table change places, or one is written over the other. The points may stand in any order, and have any
 * counts. */
static void table_rows(struct made *made)
{
    struct chance *c = &made->chance;
    enum buffer table = (enum buffer)below(c, TABLES);
    size_t wide = width_of(table), rows = rows_of(made, table);
    if (rows == 0 || rows > table_sizes[table] / wide)
        return;
    uint8_t *a = made->bytes[table] + wide * below(c, rows), *b = made->bytes[table] + wide * below(c, rows), kept[64];
    memcpy(kept, a, wide);
    memmove(a, b, wide);
    if (!once_in(c, 4))
        memcpy(b, kept, wide);
}

static void given_length(struct made *made)
{
    struct chance *c = &made->chance;
    struct bytes *b = &made->call.buffer[GIVEN];
    size_t old = b->length;
    switch (below(c, 4)) {
    case 0:
        b->length = old + 1;
        break;
    case 1:
        b->length = old > 0 ? old - 1 : 0;
        break;
    case 2:
        b->length = below(c, 5000);
        break;
    default:
        b->length = (60 + below(c, 10)) * (1 + below(c, 8));
    }
    b->at = made->bytes[GIVEN];
}

/* A level that may be out of range, mostly near its ends. */
static void given_byte(struct made *made)
{
    struct chance *c = &made->chance;
    size_t length = made->call.buffer[GIVEN].length;
    uint8_t p = (uint8_t)made->call.modulus, *byte = made->bytes[GIVEN] + below(c, length + 1);
    const uint8_t choices[4] = {p, (uint8_t)-p, (uint8_t)(1 - p), 128};
    *byte = once_in(c, 3) ? (uint8_t)any_number(c) : choices[below(c, 4)];
}

/* A point that is there already, perhaps by other levels. */
static void repeat_point(struct made *made)
{
    struct chance *c = &made->chance;
    size_t n = made->call.n, m = made->call.variables;
    int p = (int)made->call.modulus;
    uint8_t *given = made->bytes[GIVEN];
    if (m == 0 || m > 8)
        return;
    if ((made->call.kind == ADD_POINT || made->call.kind == WITHDRAW_POINT) && 0 < n && n <= 64) {
        random_levels(c, p, m, made->bytes[STATES] + 8 * below(c, n), 1, given);
    } else if (draws_up(made->call.kind) && made->call.buffer[GIVEN].length >= 2 * m) {
        size_t points = made->call.buffer[GIVEN].length / m, from = below(c, points), to = below(c, points);
        for (size_t k = 0; k < m; k++) {
            int level = (int8_t)given[m * from + k];
            given[m * to + k] = random_level(c, p, (uint8_t)(level < 0 ? level + p : level));
        }
    }
}

/* Another variable to be left out, or a table for the result that is too short. */
static void leaving(struct made *made)
{
    struct chance *c = &made->chance;
    struct bytes *b = &made->call.buffer[NEW_STATES + below(c, TABLES)];
    if (once_in(c, 2))
        made->call.variable = once_in(c, 2) ? odd_number(c, made->call.variable) : below(c, 11);
    else if (b->length > 0)
        b->length = once_in(c, 4) ? b->length - 1 : below(c, b->length);
}

static void terms(struct made *made)
{
    struct chance *c = &made->chance;
    struct bytes *coefficients = &made->call.buffer[GIVEN], *exponents = &made->call.buffer[EXPONENTS];
    switch (below(c, 4)) {
    case 0:
        exponents->length = below(c, exponents->length + 10);
        break;
    case 1:
        coefficients->length = 250 + below(c, 14);
        exponents->length = 8 * coefficients->length;
        break;
    case 2:
        exponents->length = 8 * (coefficients->length % 300) + below(c, 17);
        break;
    default:
        made->bytes[EXPONENTS][below(c, exponents->length + 1)] = (uint8_t)below(c, 4);
    }
    exponents->at = made->bytes[EXPONENTS];
    coefficients->at = made->bytes[GIVEN];
}

void damage(struct made *made)
{
    static void (*const any[])(struct made *) = {settings,     other_settings, one_weight, numbers,
                                                 short_buffer, table_change,   table_change, count_change,
                                                 table_rows,   given_length,   given_byte,   repeat_point};
    enum kind kind = made->call.kind;
    if (kind == REMAINDER && once_in(&made->chance, 4))
        terms(made);
    else if (kind == LEAVE_OUT && once_in(&made->chance, 4))
        leaving(made);
    else if ((kind == INTERPOLATE || kind == WIRING) && once_in(&made->chance, 8))
        count_and_values(made);
    else
        any[below(&made->chance, sizeof any / sizeof *any)](made);
}
