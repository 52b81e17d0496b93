/* Part "levels": what the header does by itself. Numbers as levels, near the range and far from it, through
 * every call that takes some; and points that a text gives, packed as levels. */
#include "guard.h"
#include "made.h"
#include "parts.h"
#include "reference.h"

#include <limits.h>
#include <stdio.h>
#include <stdlib.h>
#include <string.h>

/* The residue of a number in range, 0 for any other. */
static int residue_of(int p, int number)
{
    return -p < number && number < p ? (number + p) % p : 0;
}

/* A call with one number, over the basis of no points where a point is to be added, else over that of the point 0 or of
 * the one to be withdrawn. */
static void make_single(struct made *made, enum kind kind, int p, int number)
{
    int on_point = kind != ADD_POINT && !draws_up(kind), point = kind == WITHDRAW_POINT ? residue_of(p, number) : 0;
    made->call = (struct call){.kind = kind, .modulus = (uint64_t)p, .variables = 1, .n = (uint64_t)on_point, .r = 1};
    for (int i = 0; i < BUFFERS; i++)
        lend(made, (enum buffer)i, buffer_size(kind, (enum buffer)i));
    for (int t = 0; t < TABLES; t++)
        memset(made->bytes[t], 0, table_sizes[t]);
    made->bytes[STATES][0] = (uint8_t)point;
    made->bytes[LEADS][0] = made->bytes[COUNTS][0] = (uint8_t)on_point;
    made->bytes[COEFFICIENTS][0] = (uint8_t)((p - point) % p);
    made->bytes[GIVEN][0] = misqafur_level(number);
    memset(made->bytes[EXPONENTS], 0, 8);
    lend(made, GIVEN, 1);
    lend(made, EXPONENTS, 8);
}

/* Whether the call refuses a number that is out of range, and else finds its residue. */
static int level_holds(struct made *made, enum kind kind, int p, int number)
{
    int in_range = -p < number && number < p, fits = -127 <= number && number <= 127;
    int on_states = kind == ADD_POINT || draws_up(kind);
    make_single(made, kind, p, number);
    if (made->bytes[GIVEN][0] != (fits ? (number + 256) % 256 : 128))
        return 0;
    uint32_t answer = (uint32_t)perform(&archive, &made->call);
    if (kind == DRAW_UP_PACKED && p != 2)
        return answer == 3;
    if (misqafur_refusal(answer) != (in_range ? 0 : 9))
        return 0;
    if (!in_range || kind == WIRING)
        return 1;
    if (kind == WITHDRAW_POINT)
        return answer == 65536 && made->bytes[STATES][0] == 0 && made->bytes[LEADS][0] == 0 &&
               made->bytes[COUNTS][0] == 0;
    return made->bytes[on_states ? STATES : OUT][0] == residue_of(p, number);
}

/* One number with every modulus, through every call that takes levels, values or coefficients. */
static void try_level(struct score *score, struct made *made, int number)
{
    static const enum kind kinds[] = {ADD_POINT,   WITHDRAW_POINT, DRAW_UP, DRAW_UP_PACKED,
                                      INTERPOLATE, REMAINDER,      WIRING};
    for (size_t k = 0; k < sizeof kinds / sizeof *kinds; k++)
        for (int i = 0; i < 18; i++) {
            int holds = level_holds(made, kinds[k], primes[i], number);
            if (!holds)
                fprintf(stderr, "levels: %d modulo %d in %s\n", number, primes[i], kind_names[kinds[k]]);
            count(score, holds);
        }
}

/* Whether the interpolant has these values at the points. */
static int takes_values(const struct made *made, int p, size_t n, const uint8_t *values)
{
    for (size_t q = 0; q < n; q++) {
        int sum = 0;
        for (size_t t = 0; t < n; t++)
            sum += made->bytes[OUT][t] * reference_value(p, made->bytes[STANDARD] + 8 * t, made->bytes[STATES] + 8 * q);
        if (sum % p != values[q])
            return 0;
    }
    return 1;
}

/* From the text of a call on: the points and the weights packed and drawn up, the counts of the text in the place of theirs, and the
 * interpolant of the values. */
static int text_leads_on(struct made *made, uint64_t answer)
{
    static uint8_t points[MISQAFUR_STATES_SIZE], values[MISQAFUR_RESIDUES_SIZE], levels[MISQAFUR_LEVELS_SIZE];
    static uint8_t counts[MISQAFUR_COUNTS_SIZE];
    uint64_t weights = misqafur_pack_weights(made->bytes[WEIGHTS], MISQAFUR_WEIGHTS_SIZE);
    uint32_t n = misqafur_read_points(answer), p = misqafur_read_modulus(answer), m = misqafur_read_variables(answer);
    memcpy(points, made->bytes[STATES], sizeof points);
    memcpy(values, made->bytes[OUT], sizeof values);
    memcpy(counts, made->bytes[COUNTS], sizeof counts);
    size_t length = misqafur_pack_levels(points, n, m, levels);
    made->call = (struct call){.kind = DRAW_UP, .modulus = p, .variables = m, .order = misqafur_read_order(answer),
                               .weights = weights};
    for (int i = 0; i < BUFFERS; i++)
        lend(made, (enum buffer)i, buffer_size(INTERPOLATE, (enum buffer)i));
    made->call.buffer[GIVEN] = (struct bytes){levels, length};
    uint32_t drawn = (uint32_t)perform(&archive, &made->call);
    if (length != n * m || misqafur_refusal(drawn) != 0 || misqafur_points(drawn) != n ||
        memcmp(made->bytes[STATES], points, sizeof points) != 0)
        return 0;
    memcpy(made->bytes[COUNTS], counts, sizeof counts);
    made->call.kind = INTERPOLATE;
    made->call.n = n;
    made->call.r = misqafur_elements(drawn);
    made->call.buffer[GIVEN] = (struct bytes){values, n};
    return perform(&archive, &made->call) == 0 && takes_values(made, (int)p, n, values);
}

/* So many texts that are taken. About half of those made are. */
static void try_texts(struct score *score, struct made *made, uint64_t wanted)
{
    uint64_t most = 10 * wanted;
    for (uint64_t i = 0; i < most && wanted > 0; i++) {
        made->chance.state = i;
        make_text(made);
        for (int k = 0; k < BUFFERS; k++)
            if (k != GIVEN)
                lend(made, (enum buffer)k, buffer_size(READ_TEXT, (enum buffer)k));
        uint64_t answer = perform(&archive, &made->call);
        if (misqafur_read_refusal(answer) != 0)
            continue;
        int holds = text_leads_on(made, answer);
        if (!holds)
            fprintf(stderr, "levels: text %llu, packed and drawn up\n", (unsigned long long)i);
        count(score, holds);
        wanted--;
    }
    count(score, wanted == 0);
}

/* Points or variables out of range: no point is read, and drawing up refuses what is answered. */
static void try_unpackable(struct score *score, struct made *made)
{
    static const uint64_t many[] = {65, 256, 0x100000000, UINT64_MAX}, odd[] = {0, 9, 256 + 8, UINT64_MAX};
    for (uint64_t m = 1; m <= 8; m++)
        for (int i = 0; i < 4; i++) {
            make_single(made, DRAW_UP, 5, 0);
            made->call.variables = m;
            lend(made, GIVEN, misqafur_pack_levels(NULL, many[i], m, made->bytes[GIVEN]));
            count(score, made->call.buffer[GIVEN].length <= MISQAFUR_LEVELS_SIZE &&
                             perform(&archive, &made->call) == 9);
        }
    for (int i = 0; i < 4; i++) {
        make_single(made, DRAW_UP, 5, 0);
        made->call.variables = odd[i];
        memset(made->bytes[GIVEN], 77, 8);
        lend(made, GIVEN, misqafur_pack_levels(NULL, i % 2 == 0 ? 3 : UINT64_MAX, odd[i], made->bytes[GIVEN]));
        count(score, made->call.buffer[GIVEN].length == 0 && made->bytes[GIVEN][0] == 77 &&
                         perform(&archive, &made->call) == 4);
    }
}

struct score levels(const struct options *options)
{
    struct score score = {0, 0};
    struct made *made = malloc(sizeof *made);
    (void)options;
    if (made == NULL)
        abort();
    for (int number = -400; number <= 400; number++)
        try_level(&score, made, number);
    try_level(&score, made, INT_MIN);
    try_level(&score, made, INT_MAX);
    try_texts(&score, made, 500);
    try_unpackable(&score, made);
    free(made);
    return score;
}
