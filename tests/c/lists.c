/* Part "lists": whole lists of additions and withdrawals, replicates, refused ones and others between them, against a
 * plain list of points with their counts; now and then the same points drawn up in another order, and a variable left out,
 * remainders and wiring lists over both. */
#include "parts.h"
#include "plain_list.h"

#include <stdio.h>
#include <stdlib.h>
#include <string.h>

/* With so many lists, each thing that can come up in one is expected to. */
#define ENOUGH 100

/* How often each answer came to an addition, a withdrawal, leaving a variable out and a remainder, how often a replicate came and went, and how
 * often the rest was tried. */
struct tally {
    long added[REFUSALS], withdrawn[REFUSALS], left[REFUSALS], reduced[REFUSALS], raised, lowered, between, back, drawn;
};

/* A point of which many pots come is added so many times in a row, or until it is refused. */
#define BURST 300

/* Levels of any number and content, mostly good ones; those of a point that is there mostly for a withdrawal, and now
 * and then for an addition. */
static void next_levels(struct made *made, const struct list *list, uint64_t residues)
{
    struct chance *c = &made->chance;
    int there = made->call.kind == WITHDRAW_POINT ? !once_in(c, 4) : once_in(c, 8);
    const uint8_t *again = list->n > 0 && there ? list->points + 8 * below(c, list->n) : NULL;
    lend(made, GIVEN, once_in(c, 12) ? below(c, 20) : (size_t)list->m);
    for (size_t k = 0; k < 20; k++)
        made->bytes[GIVEN][k] =
            random_level(c, list->p, again != NULL && k < 8 ? again[k] : (uint8_t)below(c, residues));
    if (once_in(c, 12))
        made->bytes[GIVEN][below(c, 20)] = (uint8_t)any_number(c);
}

static void copy_call(struct made *to, const struct made *from)
{
    memcpy(to, from, sizeof *to);
    for (int i = 0; i < BUFFERS; i++)
        to->call.buffer[i].at = to->bytes[i];
}

/* A call of either kind with other settings, counts or tables between two of the list, on copies of these. */
static int call_between(struct guard *guard, const struct made *made, struct made *other, struct tally *tally)
{
    uint64_t number;
    copy_call(other, made);
    other->call.kind = once_in(&other->chance, 2) ? ADD_POINT : WITHDRAW_POINT;
    damage(other);
    int holds = agrees(guard, &other->call, other->chance.state, "a call between those of a list", &number);
    tally->between += misqafur_refusal((uint32_t)number) != 0;
    return holds;
}

/* Whether the point of the levels, new or not, on copies of the tables added and at once withdrawn by levels of other
 * signs, gives back n, r and every byte. */
static int given_back(const struct made *made, struct made *other, const struct list *list, struct tally *tally)
{
    struct list beside = *list;
    uint32_t answer;
    copy_call(other, made);
    if (!operation(other, &beside, &answer))
        return 0;
    if (answer != 0)
        return 1;
    size_t place = 0;
    while (beside.counts[place] == list->counts[place])
        place++;
    random_levels(&other->chance, list->p, (size_t)list->m, beside.points + 8 * place, 1, other->bytes[GIVEN]);
    other->call.kind = WITHDRAW_POINT;
    tally->back++;
    return operation(other, &beside, &answer) && answer == 0 && other->call.n == made->call.n &&
           other->call.r == made->call.r && memcmp(other->bytes, made->bytes, TABLES * sizeof made->bytes[0]) == 0;
}

/* The points so far drawn up, and a variable left out of both, and a remainder over both. */
static int both_ways(struct made *made, struct made *other, const struct list *list, struct tally *tally)
{
    uint32_t left = 0, due = 0;
    int holds = drawn_alike(made, other, list) && left_alike(made, other, list, &left) && remainders_alike(made, other, &due);
    tally->drawn++;
    tally->left[left]++;
    tally->reduced[due]++;
    return holds;
}

/* One call on the list's tables; whether it is answered as the list answers. */
static int call_holds(struct made *made, struct list *list, struct tally *tally, uint32_t *answer)
{
    size_t n = list->n;
    enum kind kind = made->call.kind;
    if (!operation(made, list, answer))
        return 0;
    (kind == ADD_POINT ? tally->added : tally->withdrawn)[*answer]++;
    if (*answer == 0 && list->n == n)
        *(kind == ADD_POINT ? &tally->raised : &tally->lowered) += 1;
    return 1;
}

/* Many pots in the state of one of the points, until it is counted 255 times and refused, or for some time. */
static int burst_holds(struct made *made, struct list *list, struct tally *tally)
{
    uint32_t answer = 0;
    const uint8_t *point = list->points + 8 * below(&made->chance, list->n);
    size_t times = once_in(&made->chance, 2) ? BURST : below(&made->chance, BURST);
    made->call.kind = ADD_POINT;
    for (; times > 0 && answer == 0; times--) {
        lend(made, GIVEN, random_levels(&made->chance, list->p, (size_t)list->m, point, 1, made->bytes[GIVEN]));
        if (!call_holds(made, list, tally, &answer))
            return 0;
    }
    return 1;
}

/* One addition or withdrawal of the list, and what is tried around it. A withdrawal comes once in so many. */
static int turn_holds(struct guard *guard, struct made *made, struct made *other, struct list *list, uint64_t residues,
                      uint64_t times, struct tally *tally)
{
    struct chance *c = &made->chance;
    uint32_t answer;
    if (list->n > 0 && once_in(c, 60) && list_arrivals(list) + BURST + 150 < MOST_ARRIVALS &&
        !burst_holds(made, list, tally))
        return 0;
    enum kind kind = made->call.kind = once_in(c, times) ? WITHDRAW_POINT : ADD_POINT;
    next_levels(made, list, residues);
    if (once_in(c, 6) && !call_between(guard, made, other, tally))
        return 0;
    if (kind == ADD_POINT && once_in(c, 6) && !given_back(made, other, list, tally))
        return 0;
    if (!call_holds(made, list, tally, &answer))
        return 0;
    return !once_in(c, 4) || both_ways(made, other, list, tally);
}

/* Each modulus comes with each number of variables. Some lists are mostly of additions, and grow. */
static int list_holds(struct guard *guard, struct made *made, struct made *other, uint64_t index, struct tally *tally)
{
    struct chance *c = &made->chance;
    struct list list;
    uint64_t number, p = primes[index % 18];
    list_begin(&list, made, (int)p, 1 + (int)(index / 18 % 8), below(c, 4));
    uint64_t few = p < 3 ? 2 : 3, residues = once_in(c, 3) ? few : p, times = once_in(c, 2) ? 2 : 12;
    for (size_t turns = below(c, 150); turns > 0; turns--)
        if (!turn_holds(guard, made, other, &list, residues, times, tally))
            return 0;
    if (!both_ways(made, other, &list, tally))
        return 0;
    return agrees(guard, &made->call, 0, "remainder after a list", &number) &&
           agrees(guard, &other->call, 0, "remainder after drawing up", &number) &&
           wirings_alike(guard, made, other, &list);
}

/* Says what came up; whether everything did. */
static int all_came_up(const struct tally *tally)
{
    const long *added = tally->added, *withdrawn = tally->withdrawn, *left = tally->left, *reduced = tally->reduced;
    printf("  added %ld, replicates %ld; refused 7: %ld 8: %ld 9: %ld 13: %ld\n", added[0], tally->raised, added[7],
           added[8], added[9], added[13]);
    printf("  withdrawn %ld, replicates %ld; refused 7: %ld 9: %ld 12: %ld; just added %ld; refused between %ld\n",
           withdrawn[0], tally->lowered, withdrawn[7], withdrawn[9], withdrawn[12], tally->back, tally->between);
    printf("  left out %ld; refused 13: %ld 16: %ld\n", left[0], left[13], left[16]);
    printf("  drawn up %ld; remainders %ld, refused 7: %ld 9: %ld\n", tally->drawn, reduced[0], reduced[7], reduced[9]);
    return added[0] > tally->raised && tally->raised > 0 && added[7] > 0 && added[8] > 0 && added[9] > 0 &&
           added[13] > 0 && withdrawn[0] > tally->lowered && tally->lowered > 0 && withdrawn[7] > 0 &&
           withdrawn[9] > 0 && withdrawn[12] > 0 && tally->back > 0 && tally->between > 0 &&
           left[0] > 0 && left[13] > 0 && left[16] > 0 && reduced[0] > 0 && reduced[7] > 0 && reduced[9] > 0;
}

struct score lists(const struct options *options)
{
    struct score score = {0, 0};
    struct tally tally = {.drawn = 0};
    struct guard *guard = guard_new();
    struct made *made = malloc(2 * sizeof *made);
    uint64_t wanted = 1 + options->cases / 100;
    if (made == NULL)
        abort();
    for (uint64_t i = 0; i < wanted; i++) {
        memset(made, 0, 2 * sizeof *made);
        made->chance.state = options->seed * 1000003 + i;
        int holds = list_holds(guard, made, made + 1, i, &tally);
        if (!holds)
            fprintf(stderr, "lists: list %llu does not hold\n", (unsigned long long)i);
        count(&score, holds);
    }
    if (wanted >= ENOUGH)
        count(&score, all_came_up(&tally));
    free(made);
    guard_free(guard);
    return score;
}
