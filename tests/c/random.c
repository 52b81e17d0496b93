/* Part "random": random calls of every kind, whole and damaged, against the reference; and every drawing up in both ways. A
 * case depends on the seed, its kind and its index alone. */
#define _DEFAULT_SOURCE
#include "guard.h"
#include "made.h"
#include "packed.h"
#include "parts.h"

#include <inttypes.h>
#include <pthread.h>
#include <stdio.h>
#include <stdlib.h>
#include <string.h>

/* With so many calls of each kind, every refusal is expected to come up. */
#define ENOUGH 10000

struct worker {
    const struct options *options;
    int number;
    struct score score;
    long returned[KINDS][REFUSALS]; /* how often each refusal came, and 0 */
};

static int random_case(struct guard *guard, struct guard *other, struct made *made, uint64_t seed, enum kind kind,
                       uint64_t index, uint64_t *number)
{
    char name[96];
    memset(made->bytes[GIVEN], 0, USUAL_ROOM);
    memset(made->bytes[EXPONENTS], 0, USUAL_ROOM);
    made->chance.state = seed * 1000003 + (uint64_t)kind * 0x10000000000 + index;
    make_any(made, kind);
    if (!is_handed_text(kind))
        for (int i = once_in(&made->chance, 2) ? 0 : 1 + (int)below(&made->chance, 3); i > 0; i--)
            damage(made);
    snprintf(name, sizeof name, "%s, seed %" PRIu64 ", case %" PRIu64, kind_names[kind], seed, index);
    uint64_t choice = any_number(&made->chance);
    return agrees(guard, &made->call, choice, name, number) &&
           (!draws_up(kind) || drawn_both_ways(guard, other, &made->call, choice, name));
}

static void *work(void *of)
{
    struct worker *worker = of;
    const struct options *options = worker->options;
    struct guard *guard = guard_new(), *other = guard_new();
    struct made *made = malloc(sizeof *made);
    if (made == NULL)
        abort();
    for (uint64_t i = (uint64_t)worker->number; i < options->cases; i += (uint64_t)options->threads)
        for (int kind = 0; kind < KINDS && worker->score.failed < 10; kind++) {
            uint64_t number = 0;
            count(&worker->score, random_case(guard, other, made, options->seed, (enum kind)kind, i, &number));
            worker->returned[kind][(number & 255) < REFUSALS ? number & 255 : 0]++;
        }
    free(made);
    guard_free(guard);
    guard_free(other);
    return NULL;
}

/* Says how often each refusal came up; whether every kind succeeded and was refused in each way it can be. */
static int all_came_up(long returned[KINDS][REFUSALS])
{
    int all = 1;
    for (int kind = 0; kind < KINDS; kind++) {
        printf("  %-14s taken %ld; refused", kind_names[kind], returned[kind][0]);
        all &= returned[kind][0] > 0;
        for (int k = 1; k < REFUSALS; k++) {
            if ((possible_refusals[kind] >> k & 1) == 0)
                continue;
            printf(" %d: %ld", k, returned[kind][k]);
            all &= returned[kind][k] > 0;
        }
        printf("\n");
    }
    return all;
}

struct score random_calls(const struct options *options)
{
    pthread_t threads[MOST_THREADS];
    struct worker workers[MOST_THREADS];
    struct score score = {0, 0};
    long returned[KINDS][REFUSALS] = {{0}};
    for (int i = 0; i < options->threads; i++) {
        workers[i] = (struct worker){.options = options, .number = i};
        if (pthread_create(&threads[i], NULL, work, &workers[i]) != 0)
            abort();
    }
    for (int i = 0; i < options->threads; i++) {
        pthread_join(threads[i], NULL);
        score.passed += workers[i].score.passed;
        score.failed += workers[i].score.failed;
        for (int kind = 0; kind < KINDS; kind++)
            for (int k = 0; k < REFUSALS; k++)
                returned[kind][k] += workers[i].returned[kind][k];
    }
    if (options->cases >= ENOUGH)
        count(&score, all_came_up(returned));
    return score;
}
