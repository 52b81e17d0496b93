/* Part "past": no byte past a size is touched, though the buffer is said to be longer; and what has a length that
 * is refused is not read at all. */
#include "guard.h"
#include "made.h"
#include "parts.h"

#include <stdio.h>
#include <stdlib.h>
#include <string.h>

#define CALLS_OF_EACH_KIND 20
#define FOUR_GIB ((size_t)1 << 32)

/* A random call, whole or damaged, whose tables and answer buffers have just their sizes. */
static void make_exact(struct made *made, enum kind kind, uint64_t seed)
{
    memset(made, 0, sizeof *made);
    made->chance.state = seed;
    make_any(made, kind);
    if (!is_handed_text(kind) && once_in(&made->chance, 2))
        damage(made);
    for (int i = 0; i < BUFFERS; i++) {
        size_t size = buffer_size(kind, (enum buffer)i);
        if (size > 0)
            made->call.buffer[i] = (struct bytes){made->bytes[i], size};
    }
}

static void claim(struct score *score, struct guard *guard, const struct call *call, const size_t more[BUFFERS])
{
    uint64_t number;
    int holds = agrees_claiming(guard, call, more, kind_names[call->kind], &number);
    if (!holds)
        for (int i = 0; i < BUFFERS; i++)
            fprintf(stderr, "past: buffer %d was said to be %zu bytes longer\n", i, more[i]);
    count(score, holds);
}

/* Each table and answer buffer by itself, then all of them. */
static void claim_sizes(struct score *score, struct guard *guard, const struct call *call)
{
    static const size_t claims[] = {1, 8, 4096, FOUR_GIB};
    for (size_t c = 0; c < sizeof claims / sizeof *claims; c++) {
        size_t all[BUFFERS] = {0};
        for (int i = 0; i < BUFFERS; i++) {
            size_t one[BUFFERS] = {0};
            if (buffer_size(call->kind, (enum buffer)i) == 0)
                continue;
            one[i] = all[i] = claims[c];
            claim(score, guard, call, one);
        }
        claim(score, guard, call, all);
    }
}

/* So many levels more, at least, that drawing up refuses their number, whatever it is; 0 where it takes any. */
static size_t odd_levels(const struct call *call, size_t more)
{
    if (call->variables == 1)
        return 0;
    return more + (call->variables <= 8 && call->variables > 1 &&
                   (call->buffer[GIVEN].length + more) % call->variables == 0);
}

/* More levels, values, terms or text than a call takes: a number that is refused, whatever the settings. */
static void claim_given(struct score *score, struct guard *guard, const struct call *call)
{
    static const size_t claims[] = {MISQAFUR_JSON_SIZE + 1, FOUR_GIB};
    for (size_t c = 0; c < sizeof claims / sizeof *claims; c++) {
        size_t more[BUFFERS] = {[GIVEN] = draws_up(call->kind) ? odd_levels(call, claims[c]) : claims[c]};
        if (more[GIVEN] == 0)
            continue;
        claim(score, guard, call, more);
        if (call->kind != REMAINDER)
            continue;
        more[EXPONENTS] = 8 * claims[c];
        claim(score, guard, call, more);
        more[GIVEN] = 0;
        claim(score, guard, call, more);
    }
}

struct score past_sizes(const struct options *options)
{
    struct score score = {0, 0};
    struct guard *guard = guard_new();
    struct made *made = malloc(sizeof *made);
    if (made == NULL)
        abort();
    for (int kind = 0; kind < KINDS; kind++)
        for (uint64_t i = 0; i < CALLS_OF_EACH_KIND; i++) {
            make_exact(made, (enum kind)kind, options->seed + i);
            claim_sizes(&score, guard, &made->call);
            if (is_handed_levels((enum kind)kind) || is_handed_text((enum kind)kind))
                claim_given(&score, guard, &made->call);
        }
    free(made);
    guard_free(guard);
    return score;
}
