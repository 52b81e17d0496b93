/* Part "names": a sheet names its states. n, r and the standard, lead and coefficient tables belong to one set of states: these are
 * where every row is zero, which is worked out here from the bytes of the three tables, at every state that there is; two sheets
 * have equal ones exactly where their sets are equal, however they were reached; and checking takes the states of one beside the
 * algebra of another just then, in any order of arrival. */
#include "names.h"
#include "parts.h"

#include <inttypes.h>
#include <stdio.h>
#include <stdlib.h>
#include <string.h>

#define POINTS MISQAFUR_MAX_POINTS

struct names {
    struct score score;
    struct reaching reaching;
    struct set sets[2];
    struct misqafur_sheet sheets[2];
    long equal, different;
};

static void say(struct names *w, const char *what, uint64_t at, int holds)
{
    if (!holds)
        fprintf(stderr, "names: %s does not hold (%" PRIu64 ")\n", what, at);
    count(&w->score, holds);
}

static int same_set(const struct set *a, const struct set *b)
{
    for (size_t i = 0; i < a->n; i++)
        if (!is_among(b->states, b->n, a->states + 8 * i))
            return 0;
    return a->n == b->n;
}

/* Whether every row of the three tables is zero at a state: the lead plus the standard monomials with their coefficients. */
static int rows_zero(const struct misqafur_sheet *s, const uint8_t state[8])
{
    unsigned values[POINTS];
    for (size_t t = 0; t < s->n; t++)
        values[t] = monomial_value(s->modulus, s->standard + 8 * t, state);
    for (size_t i = 0; i < s->r; i++) {
        unsigned sum = monomial_value(s->modulus, s->leads + 8 * i, state);
        for (size_t t = 0; t < s->n; t++)
            sum += s->coefficients[64 * i + t] * values[t];
        if (sum % (unsigned)s->modulus != 0)
            return 0;
    }
    return 1;
}

/* The states of the set, and no others, are in the table and are where every row is zero. */
static int names_its_states(const struct set *set, const struct misqafur_sheet *s)
{
    for (size_t code = 0; code < set->states_in_all; code++) {
        uint8_t state[8];
        state_of(set, code, state);
        const int within = is_among(set->states, set->n, state);
        if (rows_zero(s, state) != within || is_among(s->states, s->n, state) != within)
            return 0;
    }
    return s->n == set->n;
}

static int same_algebra(const struct misqafur_sheet *a, const struct misqafur_sheet *b)
{
    return a->n == b->n && a->r == b->r && memcmp(a->standard, b->standard, sizeof a->standard) == 0 &&
           memcmp(a->leads, b->leads, sizeof a->leads) == 0 &&
           memcmp(a->coefficients, b->coefficients, sizeof a->coefficients) == 0;
}

/* What checking answers to the states of one sheet, with their counts, beside the algebra of another. */
static uint32_t check_beside(const struct misqafur_sheet *states, const struct misqafur_sheet *algebra)
{
    static struct misqafur_sheet both;
    both = *algebra;
    memcpy(both.states, states->states, sizeof both.states);
    memcpy(both.counts, states->counts, sizeof both.counts);
    return misqafur_sheet_check(&both);
}

/* That of docs/SCOPE.md: modulo 2 and with one gene, the state 0 and the state 1. */
static void example(struct names *w)
{
    static struct misqafur_sheet s[2];
    for (uint8_t level = 0; level < 2; level++) {
        const int taken = misqafur_sheet_init(&s[level], 2, 1, MISQAFUR_LEX, 0) == 0 && misqafur_sheet_add(&s[level], &level, 1) == 0;
        say(w, "an example's sheet", level, taken && s[level].n == 1 && s[level].r == 1 && s[level].standard[0] == 0 &&
                                                s[level].leads[0] == 1 && s[level].coefficients[0] == level);
    }
    say(w, "an example's state beside the other's tables", 0, check_beside(&s[0], &s[1]) == 10 && check_beside(&s[1], &s[0]) == 10);
}

/* Two sheets of the same settings, each of its set. */
static void compare(struct names *w, const struct set sets[2], const struct misqafur_sheet sheets[2], uint64_t index)
{
    const int same = same_set(&sets[0], &sets[1]);
    say(w, "equal n, r and tables for equal sets alone", index, same_algebra(&sheets[0], &sheets[1]) == same);
    say(w, "states beside another's algebra", index, check_beside(&sheets[0], &sheets[1]) == (same ? 0u : 10u));
    w->equal += same;
    w->different += !same && sheets[0].n == sheets[1].n && sheets[0].r == sheets[1].r;
}

/* Another set under the settings of the first: the same in another order; with one state exchanged; any, as large or not. */
static void make_other(struct chance *c, const struct set *set, struct set *other)
{
    const uint64_t kind = below(c, 4);
    uint8_t state[8];
    *other = *set;
    shuffle_set(c, other);
    if (kind == 1 && set->n > 0 && other_state(c, set, state))
        memcpy(other->states + 8 * below(c, set->n), state, 8);
    if (kind >= 2)
        other->n = random_points(c, set->p, set->m, kind == 2 ? set->n : below(c, POINTS + 1), other->states);
}

static void random_pair(struct names *w, uint64_t index)
{
    struct chance *c = &w->reaching.made.chance;
    struct set *a = &w->sets[0], *b = &w->sets[1];
    random_settings(c, a);
    a->n = random_points(c, a->p, a->m, once_in(c, 4) ? below(c, 4) : below(c, POINTS + 1), a->states);
    make_other(c, a, b);
    for (int i = 0; i < 2; i++) {
        const uint32_t refusal = reach(&w->reaching, &w->sets[i], &w->sheets[i]);
        say(w, "a sheet that is reached", index, refusal == 0 && names_its_states(&w->sets[i], &w->sheets[i]));
    }
    compare(w, w->sets, w->sheets, index);
}

/* Every set of states of few variables under one order: no two have equal n, r and tables. */
static void every_set(struct names *w, int p, int m, uint64_t order)
{
    struct chance *c = &w->reaching.made.chance;
    struct set set = {.p = p, .m = m, .order = order, .states_in_all = 1};
    for (int k = 0; k < m; k++)
        set.states_in_all *= (size_t)p;
    set.weights = order == MISQAFUR_WEIGHT ? random_weights(c, (uint64_t)m) : 0;
    const size_t sets = (size_t)1 << set.states_in_all;
    struct misqafur_sheet *sheets = malloc(sets * sizeof *sheets);
    if (sheets == NULL)
        abort();
    for (size_t members = 0; members < sets; members++) {
        int alone = 1;
        set.n = 0;
        for (size_t code = 0; code < set.states_in_all; code++)
            if (members >> code & 1)
                state_of(&set, code, set.states + 8 * set.n++);
        shuffle_set(c, &set);
        int reached = reach(&w->reaching, &set, &sheets[members]) == 0 && names_its_states(&set, &sheets[members]);
        for (size_t i = 0; i < members; i++)
            alone = alone && !same_algebra(&sheets[i], &sheets[members]);
        if (members > 0)
            alone = alone && check_beside(&sheets[below(c, members)], &sheets[members]) == 10;
        say(w, "a set of states with tables of its own", members, reached && alone);
    }
    free(sheets);
}

struct score names(const struct options *options)
{
    struct names *w = calloc(1, sizeof *w);
    if (w == NULL)
        abort();
    w->reaching.made.chance.state = options->seed;
    example(w);
    for (uint64_t order = 0; order <= MISQAFUR_WEIGHT; order++)
        for (int p = 2; p <= 7; p++)
            for (int m = 1; p != 4 && p != 6 && m <= (p == 2 ? 3 : p == 3 ? 2 : 1); m++)
                every_set(w, p, m, order);
    for (uint64_t i = 0; i < 200 + options->cases / 20; i++)
        random_pair(w, i);
    for (int way = 0; way < WAYS; way++)
        say(w, "a way that was tried", (uint64_t)way, w->reaching.ways[way] > 0);
    say(w, "equal and different sets", 0, w->equal > 0 && w->different > 0);
    struct score score = w->score;
    free(w);
    return score;
}
