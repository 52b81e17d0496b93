/* Calls over tables with a set of faults: three points modulo 11 in two variables, or 64 where there is to be no room or a
 * variable is left out, and whatever is wrong beside. What is drawn up packed is modulo 2, in eight variables. */
#include "made.h"

#include <string.h>

/* Every second call is by weight, the others in turn in the orders without weights. */
static uint64_t order_of(uint32_t variant)
{
    return variant % 2 == 0 ? MISQAFUR_WEIGHT : variant / 2 % 3;
}

/* x1 is the smallest of two variables; eight have any weights. */
#define TWO_WEIGHTS 0x0201
#define EIGHT_WEIGHTS 0x6301020203056301

/* The weights of a good call, or as fault 15 others: by weight none or too great a one, one behind the last variable, none at
 * all; else some, also only above 32 bits. */
static uint64_t weights_of(uint64_t order, int packed, uint32_t faults, uint32_t variant)
{
    static const uint64_t wrong[3][5] = {{0x0200, 0x6401, 0x010201, 0, UINT64_MAX},
                                         {0x6301020203056300, 0x6401020203056301, 0x63010202ff056301, 0, UINT64_MAX},
                                         {1, (uint64_t)1 << 56, 0x0101010101010101, 0x100000000, UINT64_MAX}};
    const int by_weight = order_of(variant) == MISQAFUR_WEIGHT;
    if (has_fault(faults, 15))
        return wrong[!by_weight ? 2 : packed][variant / 2 % 5];
    return order != MISQAFUR_WEIGHT ? 0 : packed ? EIGHT_WEIGHTS : TWO_WEIGHTS;
}

/* Numbers that are not in range, some of which would be if they were cut to fewer bits. */
static void set_settings(struct call *call, uint32_t faults, uint32_t variant)
{
    static const uint64_t moduli[8] = {67, 1, 0, 9, 256 + 11, 65536 + 11, 0x100000000 + 11, UINT64_MAX};
    static const uint64_t variables[8] = {9, 0, 10, 255, 256 + 2, 65536 + 2, 0x100000000 + 2, UINT64_MAX};
    static const uint64_t orders[8] = {4, 5, 100, 255, 256 + 3, 65536 + 1, 0x100000000 + 3, UINT64_MAX};
    static const uint64_t no_twos[10] = {3, 61, 0, 1, 256 + 2, 65536 + 2, 0x100000000 + 2, UINT64_MAX, 5, 4};
    const int packed = call->kind == DRAW_UP_PACKED;
    call->modulus = packed ? 2 : 11;
    if (has_fault(faults, 3))
        call->modulus = packed ? no_twos[variant % 10] : moduli[variant % 8];
    call->variables = has_fault(faults, 4) ? variables[variant % 8] : packed ? 8 : 2;
    call->order = has_fault(faults, 5) ? orders[variant % 8] : order_of(variant);
    call->weights = weights_of(call->order, packed, faults, variant);
}

/* A point of a grid; (1, 2) is point 23. */
static void put_grid_point(uint8_t *levels, int i, int negative)
{
    int x1 = i % 11, x2 = i / 11;
    levels[0] = (uint8_t)(negative && x1 > 0 ? x1 - 11 : x1);
    levels[1] = (uint8_t)(negative && x2 > 0 ? x2 - 11 : x2);
}

/* A basis as it is drawn up by the reference, once for each order and number of points: of (0, 0), (1, 2), (2, 1), or of
 * the first 64 points of the grid. */
static const struct made *basis_of(int full, uint64_t order)
{
    static struct made kept[2][4];
    static uint8_t three[6] = {0, 0, 1, 2, 2, 1}, many[2 * MISQAFUR_MAX_POINTS];
    struct made *made = &kept[full][order];
    if (made->call.r != 0)
        return made;
    for (int i = 0; i < MISQAFUR_MAX_POINTS; i++)
        put_grid_point(many + 2 * i, i, 0);
    made->call = (struct call){.kind = DRAW_UP, .modulus = 11, .variables = 2, .order = order};
    made->call.weights = weights_of(order, 0, 0, 0);
    for (int t = 0; t < TABLES; t++) {
        memset(made->bytes[t], 170, table_sizes[t] + 8);
        lend(made, (enum buffer)t, table_sizes[t]);
    }
    made->call.buffer[GIVEN] = full ? (struct bytes){many, sizeof many} : (struct bytes){three, sizeof three};
    uint32_t answer = (uint32_t)perform(&reference, &made->call);
    made->call.n = misqafur_points(answer);
    made->call.r = misqafur_elements(answer);
    return made;
}

/* The variable that is left out in a good call, in turn the first and the second; of the 64 points of the grid so many have
 * the level of (1, 2) in the other one. */
static uint64_t left_out(uint32_t variant)
{
    return 1 + variant % 2;
}

static int alike(uint32_t variant)
{
    return left_out(variant) == 1 ? 11 : 6;
}

/* The count of the point (1, 2): as fault 13 the greatest. Without a variable it is added to the others of its level, 1 each:
 * to 255, or as fault 13 to 256 or to more. */
static uint8_t count_of(enum kind kind, uint32_t faults, uint32_t variant)
{
    if (kind == LEAVE_OUT && (!has_fault(faults, 13) || variant < 5))
        return (uint8_t)(MISQAFUR_MAX_COUNT - alike(variant) + 1 + has_fault(faults, 13));
    return (uint8_t)(has_fault(faults, 13) ? MISQAFUR_MAX_COUNT : 1 + 28 * variant);
}

/* The tables of a basis. As fault 10 a byte of a table is changed, or a point has no count, or r is wrong. */
static void set_tables(struct made *made, uint32_t faults, uint32_t variant)
{
    int full = has_fault(faults, FULL) || made->call.kind == LEAVE_OUT;
    const struct made *basis = basis_of(full, order_of(variant));
    for (int t = 0; t < TABLES; t++)
        if (draws_up(made->call.kind))
            memset(made->bytes[t], 170, table_sizes[t] + 8);
        else
            memcpy(made->bytes[t], basis->bytes[t], table_sizes[t] + 8);
    if (draws_up(made->call.kind))
        return;
    made->call.n = basis->call.n;
    made->call.r = basis->call.r;
    made->bytes[COUNTS][full ? 23 : 1] = count_of(made->call.kind, faults, variant);
    if (has_fault(faults, 10) && variant < TABLES)
        made->bytes[variant][3] ^= 1;
    else if (has_fault(faults, 10) && variant == TABLES)
        made->bytes[COUNTS][0] = 0;
    else if (has_fault(faults, 10))
        made->call.r += variant;
}

void set_faulty_sizes(struct made *made, uint32_t faults, uint32_t variant)
{
    enum buffer sized[BUFFERS];
    uint32_t count = 0;
    for (int i = 0; i < BUFFERS; i++) {
        size_t size = buffer_size(made->call.kind, (enum buffer)i);
        if (size == 0)
            continue;
        sized[count++] = (enum buffer)i;
        made->call.buffer[i] = (struct bytes){made->bytes[i], size + variant % 8};
    }
    struct bytes *shortened = &made->call.buffer[sized[variant % count]];
    if (has_fault(faults, 6))
        shortened->length = variant / count % 2 == 0 ? shortened->length - variant % 8 - 1 : 0;
}

/* Bytes of GIVEN or EXPONENTS: this many, or as fault 7 one less or one more. */
static void set_length(struct made *made, enum buffer which, size_t right, uint32_t faults, uint32_t variant)
{
    size_t wrong = variant % 2 == 0 ? right - 1 : right + 1;
    made->call.buffer[which] = (struct bytes){made->bytes[which], has_fault(faults, 7) ? wrong : right};
}

static uint8_t bad_level(int p, uint32_t variant)
{
    const int levels[4] = {p, -p, 127, -128};
    return (uint8_t)levels[variant % 4];
}

/* Counts that are too great for any basis, some of which would not be if they were cut to fewer bits. */
static const uint64_t many[8] = {65, 66, 128, 255, 256 + 3, 65536 + 3, 0x100000000 + 3, UINT64_MAX};

/* The point (3, 7), which is not there, or (1, 2), which is: to be withdrawn, or to be counted once more. */
static void set_point(struct made *made, uint32_t faults, uint32_t variant)
{
    int withdrawn = made->call.kind == WITHDRAW_POINT;
    int there = withdrawn ? !has_fault(faults, 12) : has_fault(faults, 13) || (!has_fault(faults, FULL) && variant % 2 == 0);
    made->bytes[GIVEN][0] = there ? (uint8_t)-10 : 3;
    made->bytes[GIVEN][1] = there ? 2 : 7;
    if (has_fault(faults, 9))
        made->bytes[GIVEN][variant % 2] = bad_level(11, variant);
    if (has_fault(faults, 8))
        made->call.n = many[variant % 8];
    set_length(made, GIVEN, 2, faults, variant);
}

/* One of 256 points of eight variables modulo 2. */
static void put_byte_point(uint8_t *levels, int i, int negative)
{
    for (int k = 0; k < 8; k++)
        levels[k] = (uint8_t)(37 * i >> k & 1 ? (negative ? -1 : 1) : 0);
}

/* 64 points of a grid, or more, every third in negative levels; and one of them again, so often that it is there 255
 * times, or as fault 13 once more. In turn these stand in front, between and behind the others. */
static void set_all_points(struct made *made, uint32_t faults, uint32_t variant)
{
    uint8_t *levels = made->bytes[GIVEN];
    int points = has_fault(faults, FULL) ? 65 + (int)variant % 8 : 64, chosen = (int)variant * 7;
    int again = MISQAFUR_MAX_COUNT - 1 + has_fault(faults, 13), from = (int)(variant % 3) * points / 2;
    const int packed = made->call.kind == DRAW_UP_PACKED, m = packed ? 8 : 2;
    for (int i = 0; i < points + again; i++) {
        int replicate = from <= i && i < from + again, point = replicate ? chosen : i < from ? i : i - again;
        (packed ? put_byte_point : put_grid_point)(levels + m * i, point, i % 3 == 0);
    }
    if (has_fault(faults, 9))
        levels[variant % 8 * 18] = bad_level(packed ? 2 : 11, variant);
    set_length(made, GIVEN, (size_t)(m * (points + again)), faults, variant);
}

/* The variable to be left out, as fault 16 none that is there, or the only one; and tables for the result. */
static void set_left_out(struct made *made, uint32_t faults, uint32_t variant)
{
    static const uint64_t none[8] = {0, 3, 9, 255, 256 + 1, 65536 + 2, 0x100000000 + 1, UINT64_MAX};
    struct call *call = &made->call;
    call->variable = left_out(variant);
    if (has_fault(faults, 16) && variant < 8)
        call->variable = none[variant];
    if (has_fault(faults, 16) && variant >= 8 && !has_fault(faults, 4)) {
        call->variables = call->variable = 1;
        call->weights &= has_fault(faults, 15) ? UINT64_MAX : 255;
    }
    if (has_fault(faults, 8))
        call->n = many[variant % 8];
    for (int t = 0; t < TABLES; t++)
        memset(made->bytes[NEW_STATES + t], 170, table_sizes[t] + 8);
}

static void set_values(struct made *made, uint32_t faults, uint32_t variant)
{
    if (has_fault(faults, 8))
        made->call.n = 65 + variant;
    if (has_fault(faults, 9))
        made->bytes[GIVEN][variant % 3] = bad_level(11, variant);
    set_length(made, GIVEN, made->call.n, faults, variant);
}

/* Three terms; as fault 8 in turn too many of them, or too many points claimed. As fault 9 in turn a coefficient
 * out of range, or a power of a variable above the second. */
static void set_terms(struct made *made, uint32_t faults, uint32_t variant)
{
    size_t terms = 3;
    if (has_fault(faults, 8)) {
        terms = variant % 2 == 0 ? MISQAFUR_MAX_TERMS + 1 : MISQAFUR_MAX_TERMS;
        made->call.n = variant % 2 == 0 ? 3 : UINT64_MAX;
    }
    if (has_fault(faults, 9) && variant % 2 == 1)
        made->bytes[EXPONENTS][2 + variant % 6] = 1;
    else if (has_fault(faults, 9))
        made->bytes[GIVEN][variant % 3] = bad_level(11, variant);
    made->call.buffer[GIVEN] = (struct bytes){made->bytes[GIVEN], terms};
    set_length(made, EXPONENTS, 8 * terms, faults, variant / 2);
    if (has_fault(faults, 7) && variant > 7)
        made->call.buffer[EXPONENTS].length = 8 * terms + 8;
}

void make_faulty_call(struct made *made, enum kind kind, uint32_t faults, uint32_t variant)
{
    made->call = (struct call){.kind = kind};
    memset(made->bytes[GIVEN], 0, 3000);
    memset(made->bytes[EXPONENTS], 0, 8 * 300);
    memset(made->bytes[OUT], 170, buffer_size(kind, OUT) + 8);
    set_settings(&made->call, faults, variant);
    set_tables(made, faults, variant);
    set_faulty_sizes(made, faults, variant);
    if (kind == ADD_POINT || kind == WITHDRAW_POINT)
        set_point(made, faults, variant);
    else if (draws_up(kind))
        set_all_points(made, faults, variant);
    else if (kind == REMAINDER)
        set_terms(made, faults, variant);
    else if (kind == LEAVE_OUT)
        set_left_out(made, faults, variant);
    else if (is_handed_levels(kind))
        set_values(made, faults, variant);
    else if (has_fault(faults, 8))
        made->call.n = many[variant % 8];
}
