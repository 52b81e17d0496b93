/* Parts "bytes" and "numbers": tables with one byte changed, and an n or r that is not theirs. Every call that reads
 * tables refuses them with 10, but for a point's count that becomes another; and a byte past a size changes nothing. */
#include "guard.h"
#include "made.h"
#include "parts.h"

#include <stdio.h>
#include <stdlib.h>
#include <string.h>

/* The calls that read tables. */
static const enum kind readers[] = {ADD_POINT, WITHDRAW_POINT, CHECK, INTERPOLATE, REMAINDER, WIRING, LEAVE_OUT, WRITE_JSON};
#define READERS (sizeof readers / sizeof *readers)

/* Bytes past each size. */
#define SURPLUS 8

/* The basis of these points in grlex, or with weights by weight. */
static void make_basis(struct made *made, uint64_t p, uint64_t m, uint64_t weights, const uint8_t *levels, size_t n)
{
    memset(made, 0, sizeof *made);
    made->call = (struct call){.kind = DRAW_UP, .modulus = p, .variables = m, .weights = weights};
    made->call.order = weights == 0 ? MISQAFUR_GRLEX : MISQAFUR_WEIGHT;
    for (int t = 0; t < TABLES; t++) {
        memset(made->bytes[t], 170, table_sizes[t] + SURPLUS);
        made->call.buffer[t] = (struct bytes){made->bytes[t], table_sizes[t] + SURPLUS};
    }
    made->call.buffer[GIVEN] = (struct bytes){(uint8_t *)levels, m * n};
    uint32_t answer = (uint32_t)perform(&reference, &made->call);
    made->call.n = misqafur_points(answer);
    made->call.r = misqafur_elements(answer);
    if (misqafur_refusal(answer) != 0 || made->call.n != n)
        abort();
}

/* Turns the call over a basis into one of this kind. What it is handed beside: to be added the point of p - 1
 * everywhere, to be withdrawn the first point, to be left out the last variable, and else zeros. */
static void set_kind(struct made *made, enum kind kind)
{
    struct call *call = &made->call;
    size_t given = kind == ADD_POINT || kind == WITHDRAW_POINT ? call->variables : call->n;
    call->kind = kind;
    memset(made->bytes[GIVEN], kind == ADD_POINT ? (int)call->modulus - 1 : 0, given);
    if (kind == WITHDRAW_POINT)
        memcpy(made->bytes[GIVEN], made->bytes[STATES], given);
    const size_t out = kind == WRITE_JSON ? MISQAFUR_JSON_SIZE : MISQAFUR_RESIDUES_SIZE;
    memset(made->bytes[OUT], 170, out + SURPLUS);
    call->buffer[GIVEN] = (struct bytes){made->bytes[GIVEN], given};
    call->buffer[EXPONENTS] = (struct bytes){made->bytes[EXPONENTS], 8 * given};
    call->buffer[OUT] = (struct bytes){made->bytes[OUT], out + SURPLUS};
    call->variable = call->variables;
    for (int t = 0; kind == LEAVE_OUT && t < TABLES; t++) {
        memset(made->bytes[NEW_STATES + t], 170, table_sizes[t] + SURPLUS);
        call->buffer[NEW_STATES + t] = (struct bytes){made->bytes[NEW_STATES + t], table_sizes[t] + SURPLUS};
    }
}

/* Changes one byte after another of the sizes of the first four tables by each of the 255 changes in turn; byte i is
 * tried where i and the turn are the same modulo the step. */
static void change_inside(struct score *score, struct guard *guard, const struct made *made, size_t turn, size_t step)
{
    struct call lent = guard_lend(guard, &made->call, 0);
    performing = "a call on tables with one byte changed";
    for (int t = 0; t < COUNTS; t++)
        for (size_t i = turn; i < table_sizes[t]; i += step) {
            uint8_t change = (uint8_t)(i % 255 + 1);
            lent.buffer[t].at[i] ^= change;
            uint64_t number = perform(&archive, &lent);
            lent.buffer[t].at[i] ^= change;
            int holds = number == 10 && guard_intact(guard) && same_bytes(&lent, &made->call, performing);
            if (!holds)
                fprintf(stderr, "bytes: %s, table %d, byte %zu\n", kind_names[made->call.kind], t, i);
            count(score, holds);
        }
}

/* Each byte of the counts: a point without a count, and a count without a point, are refused with 10; with any other count
 * of a point the call answers as the reference does, and is not refused with 10. */
static void change_counts(struct score *score, struct guard *guard, struct made *made)
{
    static const uint8_t others[] = {0, 1, 2, 127, 128, 254, 255};
    for (size_t i = 0; i < MISQAFUR_COUNTS_SIZE; i++)
        for (size_t k = 0; k < sizeof others; k++) {
            uint8_t *byte = &made->bytes[COUNTS][i], kept = *byte;
            uint64_t number;
            *byte = others[k];
            if ((*byte > 0) != (i < made->call.n))
                count(score, refuses(guard, &made->call, i, 10, "tables with another count"));
            else
                count(score, agrees(guard, &made->call, i, "tables with another count", &number) && number != 10);
            *byte = kept;
        }
}

/* Changes each byte past the sizes: the call answers as before. */
static void change_past(struct score *score, struct guard *guard, struct made *made)
{
    uint64_t before, after;
    count(score, agrees(guard, &made->call, 0, "tables as they are", &before) && (before & 255) == 0);
    for (int t = 0; t < TABLES; t++)
        for (size_t i = 0; i < SURPLUS; i++) {
            made->bytes[t][table_sizes[t] + i] ^= 255;
            count(score, agrees(guard, &made->call, 0, "a byte past a size changed", &after) && after == before);
        }
}

/* A small basis, each byte in each call, and a large one, each byte in one of the calls. */
struct score changed_bytes(const struct options *options)
{
    static const uint8_t three[6] = {0, 0, 1, 2, 2, 1};
    struct score score = {0, 0};
    struct chance chance = {options->seed};
    struct guard *guard = guard_new();
    struct made *made = malloc(sizeof *made);
    uint8_t many[8 * MISQAFUR_MAX_POINTS];
    if (made == NULL)
        abort();
    for (size_t i = 0; i < sizeof many; i++)
        many[i] = (uint8_t)below(&chance, 60);
    for (size_t k = 0; k < READERS; k++) {
        make_basis(made, 5, 2, 0, three, 3);
        set_kind(made, readers[k]);
        change_inside(&score, guard, made, 0, 1);
        change_counts(&score, guard, made);
        change_past(&score, guard, made);
        make_basis(made, 61, 8, 0x0301630205070904, many, MISQAFUR_MAX_POINTS - 1);
        set_kind(made, readers[k]);
        change_inside(&score, guard, made, k, READERS);
        change_past(&score, guard, made);
    }
    free(made);
    guard_free(guard);
    return score;
}

/* The refusal of a wrong n or r: what is claimed is refused where it is too great, and else does not fit the tables. */
static uint64_t due(const struct call *call)
{
    if ((call->kind == INTERPOLATE || call->kind == WIRING) && call->buffer[GIVEN].length != call->n)
        return 7;
    if (call->kind == LEAVE_OUT && call->variables == 1)
        return 16;
    return call->n > MISQAFUR_MAX_POINTS ? 8 : 10;
}

/* A number that is wrong by this much, in a call of each kind; as many values as are claimed, where they can be lent. */
static void try_number(struct score *score, struct guard *guard, struct made *made, uint64_t *number, uint64_t step)
{
    uint64_t right = *number;
    for (size_t k = 0; k < READERS; k++) {
        enum kind kind = readers[k];
        set_kind(made, kind);
        *number = right + step;
        if ((kind == INTERPOLATE || kind == WIRING) && made->call.n <= ROOM)
            made->call.buffer[GIVEN].length = made->call.n;
        count(score, refuses(guard, &made->call, k, due(&made->call), "a wrong n or r"));
        *number = right;
    }
}

struct score wrong_numbers(const struct options *options)
{
    static const uint64_t steps[] = {1, UINT64_MAX, 2, 256, 65536, 0x100000000, (uint64_t)1 << 63};
    struct score score = {0, 0};
    struct guard *guard = guard_new();
    struct made *made = malloc(sizeof *made);
    if (made == NULL)
        abort();
    for (uint64_t i = 0; i < 200; i++) {
        memset(made, 0, sizeof *made);
        made->chance.state = options->seed + i;
        make_call(made, CHECK);
        for (size_t k = 0; k < sizeof steps / sizeof *steps; k++) {
            try_number(&score, guard, made, &made->call.n, steps[k]);
            try_number(&score, guard, made, &made->call.r, steps[k]);
        }
    }
    free(made);
    guard_free(guard);
    return score;
}
