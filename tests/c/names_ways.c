/* Sets of states, and the ways in which a sheet of one is reached. */
#include "names.h"

#include <stdlib.h>
#include <string.h>

#define POINTS MISQAFUR_MAX_POINTS
#define MOST_STATES 1024

void state_of(const struct set *set, size_t code, uint8_t state[8])
{
    memset(state, 0, 8);
    for (int k = 0; k < set->m; k++, code /= (size_t)set->p)
        state[k] = (uint8_t)(code % (size_t)set->p);
}

int is_among(const uint8_t *states, size_t n, const uint8_t state[8])
{
    for (size_t i = 0; i < n; i++)
        if (memcmp(states + 8 * i, state, 8) == 0)
            return 1;
    return 0;
}

void random_settings(struct chance *c, struct set *set)
{
    struct call settings;
    do {
        settings = (struct call){.modulus = primes[below(c, 18)], .variables = 1 + below(c, 8)};
        set->states_in_all = 1;
        for (uint64_t k = 0; k < settings.variables && set->states_in_all <= MOST_STATES; k++)
            set->states_in_all *= settings.modulus;
    } while (set->states_in_all > MOST_STATES);
    random_order(c, &settings);
    set->p = (int)settings.modulus;
    set->m = (int)settings.variables;
    set->order = settings.order;
    set->weights = settings.weights;
    set->n = 0;
    memset(set->states, 0, sizeof set->states);
}

void shuffle_set(struct chance *c, struct set *set)
{
    for (size_t i = set->n; i > 1; i--) {
        const size_t j = below(c, i);
        uint8_t kept[8];
        memcpy(kept, set->states + 8 * (i - 1), 8);
        memcpy(set->states + 8 * (i - 1), set->states + 8 * j, 8);
        memcpy(set->states + 8 * j, kept, 8);
    }
}

int other_state(struct chance *c, const struct set *set, uint8_t state[8])
{
    const size_t from = below(c, set->states_in_all);
    for (size_t i = 0; i < set->states_in_all; i++) {
        state_of(set, (from + i) % set->states_in_all, state);
        if (!is_among(set->states, set->n, state))
            return 1;
    }
    return 0;
}

static int is_possible(const struct set *set, enum way way)
{
    if (way == WITHDRAWN)
        return set->n < POINTS && set->n < set->states_in_all;
    return way == PACKED ? set->p == 2 : way != LEFT_OUT || set->m < 8;
}

static uint32_t begin(const struct set *set, struct misqafur_sheet *s)
{
    return misqafur_sheet_init(s, (uint64_t)set->p, (uint64_t)set->m, set->order, set->weights);
}

static uint32_t draw(struct chance *c, const struct set *set, enum way way, struct misqafur_sheet *s)
{
    uint8_t levels[8 * POINTS];
    const uint32_t refusal = begin(set, s);
    const size_t length = random_levels(c, set->p, (size_t)set->m, set->states, set->n, levels);
    if (refusal != 0)
        return refusal;
    return way == PACKED ? misqafur_sheet_draw_up_packed(s, levels, length) : misqafur_sheet_draw_up(s, levels, length);
}

/* One state added, or withdrawn. */
static uint32_t with_one(struct chance *c, const struct set *set, const uint8_t state[8], enum way way, struct misqafur_sheet *s)
{
    uint8_t levels[8];
    const size_t length = random_levels(c, set->p, (size_t)set->m, state, 1, levels);
    return way == ADDED ? misqafur_sheet_add(s, levels, length) : misqafur_sheet_withdraw(s, levels, length);
}

static uint32_t add_all(struct chance *c, const struct set *set, struct misqafur_sheet *s)
{
    uint32_t refusal = begin(set, s);
    for (size_t i = 0; i < set->n && refusal == 0; i++)
        refusal = with_one(c, set, set->states + 8 * i, ADDED, s);
    return refusal;
}

/* Drawn up with one state more, at any place, which is withdrawn. */
static uint32_t withdraw_one(struct chance *c, const struct set *set, struct misqafur_sheet *s)
{
    struct set more = *set;
    const size_t place = below(c, set->n + 1);
    uint8_t state[8];
    if (!other_state(c, set, state))
        abort();
    memmove(more.states + 8 * (place + 1), set->states + 8 * place, 8 * (set->n - place));
    memcpy(more.states + 8 * place, state, 8);
    more.n++;
    const uint32_t refusal = draw(c, &more, DRAWN, s);
    return refusal != 0 ? refusal : with_one(c, set, state, WITHDRAWN, s);
}

/* Drawn up with one variable more, of any levels and weight, which is left out. */
static uint32_t leave_one(struct chance *c, const struct set *set, struct misqafur_sheet *s)
{
    static struct misqafur_sheet larger;
    const int place = (int)below(c, (uint64_t)set->m + 1);
    const uint64_t lower = set->weights & (((uint64_t)1 << 8 * place) - 1), upper = set->weights - lower;
    struct set more = *set;
    more.m++;
    if (set->order == MISQAFUR_WEIGHT)
        more.weights = lower + ((1 + below(c, MISQAFUR_MAX_WEIGHT)) << 8 * place) + (upper << 8);
    for (size_t i = 0; i < set->n; i++) {
        memmove(more.states + 8 * i + place + 1, set->states + 8 * i + place, (size_t)(set->m - place));
        more.states[8 * i + (size_t)place] = (uint8_t)below(c, (uint64_t)set->p);
    }
    const uint32_t refusal = draw(c, &more, DRAWN, &larger);
    return refusal != 0 ? refusal : misqafur_sheet_leave_out(&larger, (uint64_t)place + 1, s);
}

/* The points of a course that goes through all states and back to the first. */
static uint32_t run_through(struct reaching *w, const struct set *set, struct misqafur_sheet *s)
{
    static const uint8_t none[8];
    static struct misqafur_course course;
    uint64_t record;
    w->times.p = set->p;
    w->times.m = set->m;
    w->times.order = set->order;
    w->times.weights = set->weights;
    w->times.count = 0;
    for (size_t i = 0; i < set->n; i++)
        put_timed(&w->times, set->states + 8 * i, 7);
    put_timed(&w->times, set->n > 0 ? set->states : none, 7);
    times_call(&w->made, &w->times, 7);
    const struct bytes *text = &w->made.call.buffer[GIVEN];
    const uint32_t refusal = misqafur_course_run(&course, text->at, text->length, 7, &record);
    *s = course.sheet;
    return refusal;
}

static enum way random_way(struct chance *c, const struct set *set)
{
    enum way way;
    do
        way = (enum way)below(c, WAYS);
    while (!is_possible(set, way));
    return way;
}

uint32_t reach(struct reaching *w, const struct set *set, struct misqafur_sheet *s)
{
    struct chance *c = &w->made.chance;
    const enum way way = random_way(c, set);
    const uint32_t refusal = way == ADDED       ? add_all(c, set, s)
                             : way == WITHDRAWN ? withdraw_one(c, set, s)
                             : way == LEFT_OUT  ? leave_one(c, set, s)
                             : way == TIMED     ? run_through(w, set, s)
                                                : draw(c, set, way, s);
    w->ways[way]++;
    if (refusal != 0 || set->n == 0 || once_in(c, 2))
        return refusal;
    return with_one(c, set, set->states + 8 * below(c, set->n), ADDED, s);
}
