/* Random calls over tables that are to succeed. */
#include "made.h"

#include "reference.h"

#include <string.h>

const uint8_t primes[18] = {2, 3, 5, 7, 11, 13, 17, 19, 23, 29, 31, 37, 41, 43, 47, 53, 59, 61};

/* Mostly few points, now and then many, or as many as there may be; packed more often, since modulo 2 there are few others. */
static size_t random_count(struct chance *c, enum kind kind)
{
    if (once_in(c, kind == DRAW_UP_PACKED ? 12 : 50))
        return once_in(c, 3) ? MISQAFUR_MAX_POINTS : 33 + below(c, 32);
    return once_in(c, 10) ? 11 + below(c, 22) : below(c, 11);
}

/* Residues below a bound for each variable: small bounds make grids, a bound of 1 a fixed residue. */
static void random_bounds(struct chance *c, int p, int bounds[8])
{
    int style = (int)below(c, 4);
    for (int k = 0; k < 8; k++) {
        int small = 1 + (int)below(c, 4);
        bounds[k] = style == 0 || p < small ? p : style == 1 ? 1 + (int)below(c, (uint64_t)p) : small;
    }
}

static int is_among(const uint8_t *points, size_t n, const uint8_t *point)
{
    for (size_t i = 0; i < n; i++)
        if (memcmp(points + 8 * i, point, 8) == 0)
            return 1;
    return 0;
}

size_t random_points(struct chance *c, int p, int m, size_t n, uint8_t points[512])
{
    int bounds[8];
    size_t found = 0;
    random_bounds(c, p, bounds);
    memset(points, 0, 512);
    for (size_t tries = 0; tries < 4 * n && found < n; tries++) {
        uint8_t point[8] = {0};
        for (int k = 0; k < m; k++)
            point[k] = (uint8_t)below(c, (uint64_t)bounds[k]);
        if (!is_among(points, found, point))
            memcpy(points + 8 * found++, point, 8);
    }
    return found;
}

uint8_t random_level(struct chance *c, int p, uint8_t residue)
{
    return residue != 0 && once_in(c, 2) ? (uint8_t)(residue - p) : residue;
}

uint64_t random_weights(struct chance *c, uint64_t variables)
{
    uint64_t packed = 0, style = below(c, 4), same = 1 + below(c, MISQAFUR_MAX_WEIGHT);
    for (uint64_t k = 0; k < variables && k < MISQAFUR_MAX_VARIABLES; k++) {
        const uint64_t any = 1 + below(c, MISQAFUR_MAX_WEIGHT), few = 1 + below(c, 3);
        const uint64_t edge = once_in(c, 2) ? 1 : MISQAFUR_MAX_WEIGHT;
        packed |= (style == 0 ? any : style == 1 ? few : style == 2 ? edge : same) << 8 * k;
    }
    return packed;
}

void random_order(struct chance *c, struct call *call)
{
    call->order = below(c, 4);
    call->weights = call->order == MISQAFUR_WEIGHT ? random_weights(c, call->variables) : 0;
}

static void random_settings(struct made *made)
{
    struct chance *c = &made->chance;
    made->call.modulus = made->call.kind == DRAW_UP_PACKED ? 2 : primes[once_in(c, 2) ? below(c, 4) : below(c, 18)];
    made->call.variables = made->call.kind == LEAVE_OUT ? 2 + below(c, 7) : 1 + below(c, 8);
    random_order(c, &made->call);
}

void make_any(struct made *made, enum kind kind)
{
    if (kind == READ_TEXT)
        make_text(made);
    else if (kind == TIME_COURSE)
        make_course(made);
    else if (kind == READ_JSON)
        make_json(made);
    else
        make_call(made, kind);
}

void lend(struct made *made, enum buffer which, size_t length)
{
    made->call.buffer[which] = (struct bytes){made->bytes[which], length};
}

/* Random bytes over the first bytes of a buffer, more than any call may touch. */
static void fill(struct made *made, enum buffer which, size_t length)
{
    for (size_t i = 0; i < length; i += 8) {
        uint64_t bits = any_number(&made->chance);
        memcpy(made->bytes[which] + i, &bits, 8);
    }
}

/* Bytes past a size: none, or some. */
static size_t surplus(struct chance *c)
{
    return once_in(c, 2) ? 0 : below(c, 300);
}

/* How often a point was taken: mostly once, now and then any count, or one that is nearly the most or the most. */
static uint8_t random_times(struct chance *c)
{
    if (once_in(c, 2))
        return 1;
    return (uint8_t)(once_in(c, 2) ? 1 + below(c, MISQAFUR_MAX_COUNT) : MISQAFUR_MAX_COUNT - below(c, 2));
}

/* Five tables from this buffer on, with nothing in them yet and random bytes past the sizes. */
static void lend_tables(struct made *made, enum buffer first)
{
    for (int t = 0; t < TABLES; t++) {
        enum buffer which = (enum buffer)((int)first + t);
        fill(made, which, 304);
        memmove(made->bytes[which] + table_sizes[t], made->bytes[which], 304);
        memset(made->bytes[which], 170, table_sizes[t]);
        lend(made, which, table_sizes[t] + surplus(&made->chance));
    }
}

/* The tables: the basis of the points, or nothing yet. */
static void set_tables(struct made *made, const uint8_t *levels, size_t count)
{
    struct call *call = &made->call;
    lend_tables(made, STATES);
    if (draws_up(call->kind))
        return;
    struct call draw = *call;
    draw.kind = DRAW_UP;
    draw.buffer[GIVEN] = (struct bytes){(uint8_t *)levels, count};
    uint32_t answer = (uint32_t)perform(&reference, &draw);
    call->n = misqafur_points(answer);
    call->r = misqafur_elements(answer);
    for (size_t i = 0; i < call->n && !once_in(&made->chance, 4); i++)
        made->bytes[COUNTS][i] = random_times(&made->chance);
}

size_t random_levels(struct chance *c, int p, size_t m, const uint8_t *points, size_t n, uint8_t *levels)
{
    for (size_t i = 0; i < n; i++)
        for (size_t k = 0; k < m; k++)
            levels[m * i + k] = random_level(c, p, points[8 * i + k]);
    return m * n;
}

static void set_levels_in_range(struct made *made, size_t count)
{
    uint64_t p = made->call.modulus;
    for (size_t i = 0; i < count; i++)
        made->bytes[GIVEN][i] = random_level(&made->chance, (int)p, (uint8_t)below(&made->chance, p));
    lend(made, GIVEN, count);
}

/* Mostly few terms of small degree, now and then many or great ones. */
static void set_terms(struct made *made)
{
    struct chance *c = &made->chance;
    size_t count = once_in(c, 20) ? below(c, 257) : below(c, 12);
    uint64_t limit = once_in(c, 4) ? 256 : 1 + below(c, 8);
    set_levels_in_range(made, count);
    for (size_t i = 0; i < 8 * count; i++)
        made->bytes[EXPONENTS][i] = i % 8 < made->call.variables ? (uint8_t)below(c, limit) : 0;
    lend(made, EXPONENTS, 8 * count);
}

/* The levels of one of the points. */
static void name_point(struct made *made)
{
    const uint8_t *point = made->bytes[STATES] + 8 * below(&made->chance, made->call.n);
    random_levels(&made->chance, (int)made->call.modulus, made->call.variables, point, 1, made->bytes[GIVEN]);
}

/* What a call is handed beside settings, counts and tables. */
static void set_given(struct made *made)
{
    enum kind kind = made->call.kind;
    if (kind == INTERPOLATE || kind == WIRING)
        set_levels_in_range(made, made->call.n);
    if (kind == REMAINDER)
        set_terms(made);
    if (kind == ADD_POINT || kind == WITHDRAW_POINT)
        set_levels_in_range(made, made->call.variables);
    if (made->call.n > 0 && ((kind == WITHDRAW_POINT && !once_in(&made->chance, 4)) ||
                             (kind == ADD_POINT && once_in(&made->chance, 3))))
        name_point(made);
    if (kind == LEAVE_OUT) {
        made->call.variable = 1 + below(&made->chance, made->call.variables);
        lend_tables(made, NEW_STATES);
    }
    size_t size = buffer_size(kind, OUT);
    if (size > 0) {
        memset(made->bytes[OUT], 170, size + 400);
        fill(made, OUT, 400);
        lend(made, OUT, size + surplus(&made->chance));
    }
}

/* The points as levels, and replicates of them in any place between: some, or of one so many that it is at the most
 * or beyond; now and then a full list has some more that are perhaps new. */
static size_t with_replicates(struct made *made, const uint8_t *points, size_t n, uint8_t *levels)
{
    struct chance *c = &made->chance;
    int p = (int)made->call.modulus;
    size_t m = made->call.variables, count = random_levels(c, p, m, points, n, levels) / m;
    size_t more = n == 0 || once_in(c, 2) ? 0 : once_in(c, 8) ? 250 + below(c, 10) : below(c, 12);
    int of_one = once_in(c, 2);
    for (size_t first = n == 0 ? 0 : below(c, n); more > 0; more--, count++) {
        const uint8_t *again = points + 8 * (of_one || more > 12 ? first : below(c, n));
        uint8_t *place = levels + m * below(c, count + 1);
        memmove(place + m, place, (size_t)(levels + m * count - place));
        random_levels(c, p, m, again, 1, place);
    }
    for (size_t news = n > 60 ? below(c, 6) : 0; news > 0; news--, count++)
        for (size_t k = 0; k < m; k++)
            levels[m * count + k] = random_level(c, p, (uint8_t)below(c, (uint64_t)p));
    return m * count;
}

void make_call(struct made *made, enum kind kind)
{
    uint8_t points[512], levels[512];
    made->call = (struct call){.kind = kind};
    random_settings(made);
    int p = (int)made->call.modulus, m = (int)made->call.variables;
    size_t n = random_points(&made->chance, p, m, random_count(&made->chance, kind), points);
    size_t count = random_levels(&made->chance, p, (size_t)m, points, n, levels);
    if (draws_up(kind))
        lend(made, GIVEN, with_replicates(made, points, n, made->bytes[GIVEN]));
    set_tables(made, levels, count);
    set_given(made);
}
