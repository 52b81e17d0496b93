/* Part "overlap": buffers that are only read may share bytes; a call on them answers as one on separate copies. */
#include "guard.h"
#include "made.h"
#include "parts.h"

#include <stdio.h>
#include <stdlib.h>
#include <string.h>

#define CALLS_OF_EACH_KIND 500

/* The buffers that are only read, greatest first. Exponents and values follow the tables that they may lie in. */
static const enum buffer only_read[] = {COEFFICIENTS, LEADS, STATES, STANDARD, COUNTS, EXPONENTS, GIVEN};
#define ONLY_READ (sizeof only_read / sizeof *only_read)

/* Memory in which buffers share whatever bytes they can. */
struct shared {
    size_t used;
    uint8_t bytes[ONLY_READ * ROOM];
};

/* How often two buffers shared bytes in a call that was taken: one wholly inside the other, or only in part. */
struct met {
    long whole[BUFFERS][BUFFERS], part[BUFFERS][BUFFERS];
};

/* Lays a buffer at the first place where it differs from no byte laid before. */
static void lay(struct shared *shared, struct bytes *buffer)
{
    size_t at = 0, length = buffer->length;
    while (memcmp(shared->bytes + at, buffer->at, length < shared->used - at ? length : shared->used - at) != 0)
        at++;
    memcpy(shared->bytes + at, buffer->at, length);
    buffer->at = shared->bytes + at;
    if (shared->used < at + length)
        shared->used = at + length;
}

/* Values or terms that stand in the tables: residues of points, coefficients of elements, leading monomials. */
static void give_from_tables(struct made *made)
{
    struct bytes *given = &made->call.buffer[GIVEN], *exponents = &made->call.buffer[EXPONENTS];
    given->at = made->bytes[once_in(&made->chance, 2) ? STATES : COEFFICIENTS];
    exponents->at = made->bytes[once_in(&made->chance, 2) ? LEADS : STANDARD];
    if (exponents->length > MISQAFUR_STANDARD_SIZE)
        exponents->at = made->bytes[LEADS];
}

/* One buffer is some bytes of another instead, at any place. */
static void shift(struct made *made)
{
    struct chance *c = &made->chance;
    struct bytes *buffer = &made->call.buffer[only_read[below(c, ONLY_READ)]];
    buffer->at = made->bytes[only_read[below(c, ONLY_READ)]] + below(c, 3000);
}

/* Buffers that share bytes: the call's own where they have the same, or others that are mostly refused. */
static void overlap(struct made *made, struct shared *shared)
{
    if (is_handed_levels(made->call.kind) && once_in(&made->chance, 2))
        give_from_tables(made);
    if (once_in(&made->chance, 4)) {
        shift(made);
        return;
    }
    shared->used = 0;
    for (size_t i = 0; i < ONLY_READ; i++)
        if (made->call.buffer[only_read[i]].length > 0)
            lay(shared, &made->call.buffer[only_read[i]]);
}

/* Notes which buffers share bytes. */
static void note(const struct call *call, struct met *met)
{
    for (int i = 0; i < OUT; i++)
        for (int k = 0; k < OUT; k++) {
            const uint8_t *a = call->buffer[i].at, *b = call->buffer[k].at;
            const uint8_t *a_end = a + call->buffer[i].length, *b_end = b + call->buffer[k].length;
            if (i == k || a == a_end || b == b_end || b_end <= a || a_end <= b)
                continue;
            if ((a <= b && b_end <= a_end) || (b <= a && a_end <= b_end))
                met->whole[i][k]++;
            else
                met->part[i][k]++;
        }
}

/* Whether the call, on buffers that overlap, answers what it does on copies of them, and writes nothing else. */
static int overlap_holds(struct guard *guard, const struct call *call, struct met *met)
{
    uint64_t number;
    if (!agrees(guard, call, 0, "separate copies", &number))
        return 0;
    struct call separate = guard_lend(guard, call, 0);
    performing = "overlapping buffers";
    uint64_t apart = perform(&archive, &separate), together = perform(&archive, call);
    if (number != apart || number != together || !same_bytes(call, &separate, performing))
        return 0;
    if (misqafur_refusal((uint32_t)number) == 0)
        note(call, met);
    return 1;
}

/* Whether each two read-only buffers shared bytes in some call that was taken, some in whole and some in part. */
static int all_met(enum kind kind, const struct met *met)
{
    long whole = 0, part = 0;
    int all = 1, last = !is_handed_levels(kind) ? COUNTS : kind == REMAINDER ? EXPONENTS : GIVEN;
    for (int i = 0; i <= last; i++)
        for (int k = 0; k < i; k++) {
            all &= met->whole[i][k] + met->part[i][k] > 0;
            whole += met->whole[i][k];
            part += met->part[i][k];
        }
    return all && whole > 0 && part > 0;
}

struct score overlapping(const struct options *options)
{
    static const enum kind kinds[] = {CHECK, INTERPOLATE, REMAINDER, WIRING, LEAVE_OUT, WRITE_JSON};
    struct score score = {0, 0};
    struct guard *guard = guard_new();
    struct made *made = malloc(sizeof *made);
    struct shared *shared = malloc(sizeof *shared);
    if (made == NULL || shared == NULL)
        abort();
    for (size_t k = 0; k < sizeof kinds / sizeof *kinds; k++) {
        struct met met = {{{0}}, {{0}}};
        for (uint64_t i = 0; i < CALLS_OF_EACH_KIND; i++) {
            memset(made, 0, sizeof *made);
            made->chance.state = options->seed + i;
            make_call(made, kinds[k]);
            overlap(made, shared);
            int holds = overlap_holds(guard, &made->call, &met);
            if (!holds)
                fprintf(stderr, "overlap: call %llu of %s\n", (unsigned long long)i, kind_names[kinds[k]]);
            count(&score, holds);
        }
        count(&score, all_met(kinds[k], &met));
    }
    free(shared);
    free(made);
    guard_free(guard);
    return score;
}
