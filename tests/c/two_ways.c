/* Tables that a list of calls has left, and those of the same points drawn up in another order, with the same counts and
 * with others. */
#include "plain_list.h"

#include <string.h>

/* The list's points in another order, as levels, each as often as it is counted here. */
static size_t shuffled(struct chance *c, const struct list *list, const uint8_t counts[64], uint8_t *levels)
{
    uint8_t order[MOST_ARRIVALS];
    size_t m = (size_t)list->m, sum = 0;
    for (size_t i = 0; i < list->n; i++)
        for (uint8_t times = counts[i]; times > 0; times--, sum++) {
            size_t j = below(c, sum + 1);
            order[sum] = order[j];
            order[j] = (uint8_t)i;
        }
    for (size_t i = 0; i < sum; i++)
        random_levels(c, list->p, m, list->points + 8 * order[i], 1, levels + m * i);
    return m * sum;
}

/* Whether each point of the list has its count in these tables, in whatever place it stands there. */
static int counted_alike(const uint8_t *states, const uint8_t *counts, const struct list *list)
{
    for (size_t i = 0; i < list->n; i++) {
        size_t place = 0;
        while (place < list->n && memcmp(states + 8 * place, list->points + 8 * i, 8) != 0)
            place++;
        if (place == list->n || counts[place] != list->counts[i])
            return 0;
    }
    return 1;
}

/* Whether the standard monomials, leads and coefficients are the same, in tables of which the first is this buffer. */
static int three_alike(const struct made *made, const struct made *drawn, int first)
{
    for (int t = STANDARD; t <= COEFFICIENTS; t++)
        if (memcmp(made->bytes[first + t], drawn->bytes[first + t], table_sizes[t]) != 0)
            return 0;
    return 1;
}

/* Draws up the list's points with these counts, modulo 2 in either way: whether that gives n, r and three tables of the call. */
static int drawn_with(struct made *made, struct made *drawn, const struct list *list, const uint8_t counts[64])
{
    memset(drawn->bytes, 170, sizeof drawn->bytes);
    drawn->call = made->call;
    drawn->call.kind = made->call.modulus == 2 && once_in(&made->chance, 2) ? DRAW_UP_PACKED : DRAW_UP;
    for (int t = 0; t < TABLES; t++)
        lend(drawn, (enum buffer)t, table_sizes[t]);
    lend(drawn, GIVEN, shuffled(&made->chance, list, counts, drawn->bytes[GIVEN]));
    uint32_t answer = (uint32_t)perform(&archive, &drawn->call);
    if (misqafur_refusal(answer) != 0 || misqafur_points(answer) != made->call.n ||
        misqafur_elements(answer) != made->call.r)
        return 0;
    return three_alike(made, drawn, STATES);
}

int drawn_alike(struct made *made, struct made *drawn, const struct list *list)
{
    uint8_t once_or_twice[64];
    for (size_t i = 0; i < 64; i++)
        once_or_twice[i] = (uint8_t)(1 + below(&made->chance, 2));
    return drawn_with(made, drawn, list, once_or_twice) && drawn_with(made, drawn, list, list->counts) &&
           counted_alike(drawn->bytes[STATES], drawn->bytes[COUNTS], list);
}

/* Has the archive leave out a variable, to tables that are filled with one byte before. */
static uint64_t leave_out(struct made *made, uint64_t variable)
{
    made->call.kind = LEAVE_OUT;
    made->call.variable = variable;
    for (int t = 0; t < TABLES; t++) {
        memset(made->bytes[NEW_STATES + t], 170, table_sizes[t]);
        lend(made, (enum buffer)(NEW_STATES + t), table_sizes[t]);
    }
    return perform(&archive, &made->call);
}

int left_alike(struct made *made, struct made *drawn, const struct list *list, uint32_t *due)
{
    uint64_t variable = 1 + below(&made->chance, (uint64_t)list->m);
    struct list left;
    *due = list_without(list, variable, &left);
    uint64_t first = leave_out(made, variable), second = leave_out(drawn, variable);
    if (*due != 0)
        return first == *due && second == *due && made->bytes[NEW_STATES][0] == 170;
    if (first != second || misqafur_points(first) != left.n || memcmp(made->bytes[NEW_STATES], left.points, 512) != 0 ||
        memcmp(made->bytes[NEW_COUNTS], left.counts, 64) != 0 || !three_alike(made, drawn, NEW_STATES) ||
        !counted_alike(drawn->bytes[NEW_STATES], drawn->bytes[NEW_COUNTS], &left))
        return 0;
    memset(drawn->bytes[COUNTS], 1, list->n);
    return leave_out(drawn, variable) == first && three_alike(made, drawn, NEW_STATES);
}

/* Terms for a remainder, and the number due: now and then a coefficient is out of range or an exponent missing. */
static uint32_t set_terms(struct made *made)
{
    struct chance *c = &made->chance;
    uint64_t p = made->call.modulus, fault = below(c, 8);
    size_t terms = 1 + below(c, 16);
    for (size_t i = 0; i < terms; i++)
        made->bytes[GIVEN][i] = random_level(c, (int)p, (uint8_t)below(c, p));
    for (size_t i = 0; i < 8 * terms; i++)
        made->bytes[EXPONENTS][i] = i % 8 < made->call.variables ? (uint8_t)any_number(c) : 0;
    if (fault == 0)
        made->bytes[GIVEN][below(c, terms)] = once_in(c, 2) ? (uint8_t)p : 128;
    lend(made, GIVEN, terms);
    lend(made, EXPONENTS, 8 * terms - (fault == 1));
    lend(made, OUT, MISQAFUR_RESIDUES_SIZE + below(c, 4));
    return fault == 0 ? 9 : fault == 1 ? 7 : 0;
}

int remainders_alike(struct made *made, struct made *drawn, uint32_t *due)
{
    *due = set_terms(made);
    made->call.kind = drawn->call.kind = REMAINDER;
    drawn->call.n = made->call.n;
    drawn->call.r = made->call.r;
    for (int i = GIVEN; i < BUFFERS; i++)
        drawn->call.buffer[i] = made->call.buffer[i];
    lend(drawn, OUT, made->call.buffer[OUT].length);
    memset(made->bytes[OUT], 170, ROOM);
    memset(drawn->bytes[OUT], 170, ROOM);
    uint64_t first = perform(&archive, &made->call), second = perform(&archive, &drawn->call);
    return first == *due && second == *due && memcmp(made->bytes[OUT], drawn->bytes[OUT], ROOM) == 0;
}

/* The value of a residue below p, or for p itself one that is out of range. */
static uint8_t value_of(struct chance *c, int p, int residue)
{
    if (residue < p)
        return random_level(c, p, (uint8_t)residue);
    return (uint8_t)(once_in(c, 2) ? p : -p);
}

int wirings_alike(struct guard *guard, struct made *made, struct made *drawn, const struct list *list)
{
    struct chance *c = &made->chance;
    uint64_t number;
    int residues[64], outside = once_in(c, 4);
    size_t count = once_in(c, 8) ? below(c, 65) : list->n, length = MISQAFUR_WIRING_SIZE + below(c, 4);
    for (size_t i = 0; i < list->n; i++)
        residues[i] = outside && once_in(c, 8) ? list->p : (int)below(c, once_in(c, 2) ? 1 : (uint64_t)list->p);
    for (size_t i = 0; i < 64; i++)
        made->bytes[GIVEN][i] = drawn->bytes[GIVEN][i] = 0;
    for (size_t i = 0; i < list->n; i++) {
        made->bytes[GIVEN][i] = value_of(c, list->p, residues[i]);
        for (size_t j = 0; j < list->n; j++)
            if (memcmp(drawn->bytes[STATES] + 8 * j, list->points + 8 * i, 8) == 0)
                drawn->bytes[GIVEN][j] = value_of(c, list->p, residues[i]);
    }
    struct made *both[2] = {made, drawn};
    for (int k = 0; k < 2; k++) {
        both[k]->call.kind = WIRING;
        lend(both[k], GIVEN, count);
        lend(both[k], OUT, length);
        memset(both[k]->bytes[OUT], 170, length);
        if (!agrees(guard, &both[k]->call, 0, "wiring list in a list", &number))
            return 0;
    }
    return perform(&archive, &made->call) == perform(&archive, &drawn->call) &&
           memcmp(made->bytes[OUT], drawn->bytes[OUT], length) == 0;
}
