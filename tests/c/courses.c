/* Part "courses": time courses run forward. The records are known here, so that the model, the run and the record at fault are
 * judged by them, from the bytes that the call left; and every call is compared with the reference too. */
#include "courses.h"

#include <inttypes.h>
#include <stdio.h>
#include <stdlib.h>
#include <string.h>

void say_course(struct courses *c, const char *what, uint64_t at, int holds)
{
    if (!holds)
        fprintf(stderr, "courses: %s does not hold (%" PRIu64 ")\n", what, at);
    count(&c->score, holds);
}

void begin_times(struct courses *c, int p, int m, uint64_t order, uint64_t weights)
{
    c->times.p = p;
    c->times.m = m;
    c->times.order = order;
    c->times.weights = weights;
    c->times.count = 0;
}

uint64_t run_times(struct courses *c, const char *what, uint64_t course)
{
    uint64_t number = 0, record = UINT64_MAX;
    times_call(&c->made, &c->times, course);
    const struct bytes *text = &c->made.call.buffer[GIVEN];
    const int agreed = agrees(c->guard, &c->made.call, any_number(&c->made.chance), what, &number);
    const uint32_t refusal = misqafur_course_run(&c->run, text->at, text->length, course, &record);
    const int same = refusal == misqafur_read_refusal(number) && (refusal == 0 || record == misqafur_read_record(number));
    say_course(c, what, course, agreed && same && (refusal != 0 || course_holds(&c->times, course, &c->run)));
    return number;
}

void due_times(struct courses *c, const char *what, uint64_t course, uint64_t refusal, uint64_t record)
{
    const uint64_t number = run_times(c, what, course);
    say_course(c, what, record, refusal == 0 ? (number & 255) == 0 : number == refusal + 256 * record);
}

/* States of one variable or more, each with its own number. */
static void put_code(struct courses *c, int code, int course)
{
    uint8_t state[8] = {0};
    for (int k = 0; k < c->times.m; k++, code /= c->times.p)
        state[k] = (uint8_t)(code % c->times.p);
    put_timed(&c->times, state, course);
}

/* Random courses along random moves, under every order and modulus: all are taken, and every one of them is named. */
static void random_courses(struct courses *c)
{
    struct chance *chance = &c->made.chance;
    for (int i = 0; i < 16 * 18; i++) {
        struct call settings = {.variables = 1 + below(chance, 8)};
        uint8_t states[512];
        size_t next[64], courses = 1 + below(chance, 6);
        random_order(chance, &settings);
        begin_times(c, primes[i % 18], (int)settings.variables, settings.order, settings.weights);
        size_t found = random_points(chance, c->times.p, c->times.m, once_in(chance, 8) ? 64 : 1 + below(chance, 14), states);
        for (size_t k = 0; k < found; k++)
            next[k] = i % 3 == 0 ? (k + 1) % found : below(chance, found);
        for (size_t course = 1; course <= courses; course++) {
            size_t at = below(chance, found), times = once_in(chance, 12) ? 1 + below(chance, 90) : 1 + below(chance, 12);
            for (; times > 0; times--, at = next[at])
                put_timed(&c->times, states + 8 * at, 100 - (int)course);
        }
        for (size_t course = 1; course <= courses; course++)
            due_times(c, "a random course", 100 - course, 0, 0);
        due_times(c, "no random course", 100 - courses - 1, 18, 0);
    }
}

/* Every sequence of up to so many states modulo p, cut into courses in every way. */
static void all_sequences(struct courses *c, int p, int most, uint64_t order)
{
    for (int length = 1, sequences = p; length <= most; length++, sequences *= p)
        for (int sequence = 0; sequence < sequences; sequence++)
            for (int cuts = 0; cuts < 1 << (length - 1); cuts++) {
                begin_times(c, p, 1, order, order == MISQAFUR_WEIGHT ? 5 : 0);
                for (int i = 0, rest = sequence, course = 9; i < length; i++, rest /= p) {
                    put_code(c, rest % p, course);
                    course -= cuts >> i & 1;
                }
                run_times(c, "a short sequence", 9);
            }
}

/* A chain of different states: 65 in a course are 64 points; the 66th makes record 66 a point too many, also where the points are
 * spread over two courses. */
static void chains(struct courses *c)
{
    for (int m = 2; m <= 8; m += 3)
        for (int length = 60; length <= 72; length++)
            for (int split = 0; split <= 1; split++) {
                begin_times(c, 13, m, MISQAFUR_GRLEX, 0);
                for (int i = 0; i < length; i++) {
                    put_code(c, i, i < 30 ? 2 : 2 - split);
                    if (split && i == 29)
                        put_code(c, 30, 2);
                }
                due_times(c, "a chain", 2, length < 66 ? 0 : 8, length < 66 ? 0 : 66 + (uint64_t)split);
            }
}

/* One state again and again is counted by its records with a successor, in one course or in two: 255 are taken, and the record of the
 * 256th is refused. Beside it 8 comes first, and 17 before both, wherever they stand. */
static void counted(struct courses *c)
{
    for (int times = 250; times <= 262; times++)
        for (int first = 0; first <= 100; first += 50) {
            begin_times(c, 5, 1, MISQAFUR_GREVLEX, 0);
            for (int i = 0; i < times; i++)
                put_code(c, 3, i < first ? 1 : 2);
            const int lost = first > 0 ? 2 : 1; /* the last record of each course has no successor */
            const uint64_t record = (uint64_t)(257 + lost - 1);
            due_times(c, "a state again and again", 2, times - lost > 255 ? 13 : 0, times - lost > 255 ? record : 0);
        }
}

/* A text with too many points, a state too often, a state with two successors, or several of these, in either sequence. */
static void several(struct courses *c)
{
    for (int which = 0; which < 8; which++)
        for (int turned = 0; turned <= 1; turned++) {
            uint64_t full = 0, often = 0, other = 0;
            begin_times(c, 61, 2, MISQAFUR_LEX, 0);
            put_code(c, 1, 1);
            put_code(c, 2, 1);
            for (int part = 0; part < 3; part++) {
                const int now = turned ? 2 - part : part;
                for (int i = 0; now == 0 && which & 1 && i < 70; i++) {
                    put_code(c, 100 + i, 2);
                    if (i == 63 - (often != 0))
                        full = c->times.count + 1;
                }
                for (int i = 0; now == 1 && which & 2 && i < 260; i++) {
                    put_code(c, 99, 3);
                    if (i == 255)
                        often = c->times.count + 1;
                }
                for (int i = 0; now == 2 && which & 4 && i < 4; i++) {
                    put_code(c, i % 2 == 0 ? 1 : 3 + i, 4 + i / 2);
                    if (i == 0)
                        other = c->times.count + 1;
                }
            }
            due_times(c, "several faults", 1, other ? 17 : full ? 8 : often ? 13 : 0, other ? other : full ? full : often);
            due_times(c, "several faults, and no course", 9, other ? 17 : full ? 8 : often ? 13 : 18,
                      other ? other : full ? full : often);
        }
}

/* A state of a chain stands again at a later place, with the successor of that place: refused there, its own record, and not where
 * it is the last of its course, or where a course ends before. */
static void branches(struct courses *c)
{
    for (int first = 0; first < 12; first++)
        for (int again = first + 1; again < 12; again++)
            for (int end = 0; end <= 12; end++) {
                begin_times(c, 7, 2, MISQAFUR_GREVLEX, 0);
                for (int i = 0; i < 12; i++)
                    put_code(c, i == again ? first : i, i < end ? 11 : 12);
                const int first_moves = first != end - 1, again_moves = again != 11 && again != end - 1;
                const int branch = first_moves && again_moves;
                due_times(c, "a state with another successor", again < end ? 11 : 12, branch ? 17 : 0,
                          branch ? (uint64_t)again + 2 : 0);
            }
}

/* Modulo 23: x1 goes up by 1, x2 is multiplied by 2, whose order is 11, and the rest moves down a place and ends in 0. So the run
 * comes back after 253 steps, and before that takes one step more for each further variable: with 3 of them step 256 comes in time,
 * with 4 none does. The model is that of m + 1 states that no equation of degree 1 has in common. */
static void long_runs(struct courses *c, uint64_t order)
{
    for (int m = 2; m <= 8; m++) {
        begin_times(c, 23, m, order, 0);
        for (int i = 0; i <= m + 1; i++) {
            uint8_t state[8] = {0, 1}, next[8] = {0};
            memset(state + 2, i > m, (size_t)m - 2);
            if (0 < i && i <= m)
                state[i - 1] = (uint8_t)(state[i - 1] + 1);
            next[0] = (uint8_t)((state[0] + 1) % 23);
            next[1] = (uint8_t)(2 * state[1] % 23);
            for (int k = 2; k + 1 < m; k++)
                next[k] = state[k + 1];
            put_timed(&c->times, state, 40 + i);
            if (i <= m)
                put_timed(&c->times, next, 40 + i);
        }
        const uint64_t number = run_times(c, "a long run", 41 + (uint64_t)m);
        const uint32_t step = 253 + (uint32_t)m - 2, in_time = step <= MISQAFUR_MAX_STEPS;
        say_course(c, "the end of a long run", (uint64_t)m,
                   misqafur_course_step(number) == (in_time ? step : 0) && misqafur_course_back(number) == (in_time ? 253 : 0));
    }
}

struct score courses(const struct options *options)
{
    struct courses *c = calloc(1, sizeof *c);
    if (c == NULL)
        abort();
    c->guard = guard_new();
    c->made.chance.state = options->seed;
    course_examples(c);
    course_numbers(c);
    course_damage(c);
    random_courses(c);
    for (uint64_t order = 0; order < 4; order++)
        all_sequences(c, 2, order == 0 ? 7 : 5, order);
    all_sequences(c, 3, 5, MISQAFUR_GREVLEX);
    chains(c);
    counted(c);
    several(c);
    branches(c);
    long_runs(c, MISQAFUR_GRLEX);
    long_runs(c, MISQAFUR_GREVLEX);
    struct score score = c->score;
    guard_free(c->guard);
    free(c);
    return score;
}
