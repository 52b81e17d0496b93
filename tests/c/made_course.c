/* Random texts of time courses. */
#include "made_text.h"

#include <stdio.h>
#include <string.h>

/* What the courses of a text follow: states, and where each goes; and the numbers of the courses so far. */
struct moves {
    size_t m, found, next[64];
    int p;
    uint8_t states[512], numbers[MISQAFUR_MAX_COURSE];
    size_t courses;
    uint64_t outside, branches, odd; /* once in so many times: a level out of range, another successor, a wrong number */
};

/* The state that a state goes to: any, its neighbour, or itself. */
static void random_moves(struct chance *c, struct moves *moves, size_t states)
{
    const uint64_t never = UINT64_MAX, style = below(c, 4);
    moves->found = random_points(c, moves->p, moves->m < 8 ? (int)moves->m : 8, states, moves->states);
    for (size_t i = 0; i < moves->found; i++)
        moves->next[i] = style == 0 ? below(c, moves->found) : style == 1 ? i : (i + 1) % moves->found;
    moves->courses = 0;
    moves->outside = once_in(c, 8) ? 60 : never;
    moves->branches = once_in(c, 8) ? 10 : never;
    moves->odd = once_in(c, 12) ? 20 : never;
}

/* A number that no course has yet, and all in any order. */
static void new_number(struct chance *c, struct moves *moves)
{
    uint8_t number;
    do
        number = (uint8_t)(1 + below(c, MISQAFUR_MAX_COURSE));
    while (memchr(moves->numbers, number, moves->courses) != NULL);
    moves->numbers[moves->courses++] = number;
}

/* The number of the last course, with one to three digits; now and then one that is out of range or was before. */
static void put_course_number(struct made *made, const struct moves *moves)
{
    struct chance *c = &made->chance;
    const int wrong[4] = {0, 100 + (int)below(c, 900), -moves->numbers[0], moves->numbers[0]};
    int number = moves->numbers[moves->courses - 1];
    char content[16];
    if (once_in(c, moves->odd))
        number = wrong[below(c, 4)];
    snprintf(content, sizeof content, "%s%0*d", number < 0 ? "-" : "", once_in(c, 3) ? 1 + (int)below(c, 3) : 1,
             number < 0 ? -number : number);
    put_field(made, content);
}

/* One time of the last course: a state, or any. */
static void put_time(struct made *made, const struct moves *moves, const uint8_t *state)
{
    put_break(made);
    for (size_t k = 0; k < moves->m; k++) {
        uint8_t residue = state == NULL ? (uint8_t)below(&made->chance, (uint64_t)moves->p) : k < 8 ? state[k] : 0;
        put_level(made, moves->p, residue, moves->outside);
        put_bytes(made, ",", 1);
    }
    put_course_number(made, moves);
}

/* A course of so many times from any state on; it ends in some that are new, if so wanted. */
static void put_course(struct made *made, struct moves *moves, size_t times, size_t news)
{
    struct chance *c = &made->chance;
    size_t at = below(c, moves->found);
    new_number(c, moves);
    for (; times > 0; times--) {
        put_time(made, moves, moves->states + 8 * at);
        at = once_in(c, moves->branches) ? below(c, moves->found) : moves->next[at];
    }
    for (; news > 0; news--)
        put_time(made, moves, NULL);
}

/* Few courses along few states; or as many states as a sheet has room for, and more; or a state so many times that its count is
 * the greatest, or too great. */
static void put_courses(struct made *made, struct moves *moves)
{
    struct chance *c = &made->chance;
    const uint64_t style = below(c, 24);
    size_t courses = style == 2 ? 0 : 1 + below(c, 5);
    random_moves(c, moves, style == 0 ? 64 : style == 1 ? 1 + below(c, 2) : 1 + below(c, 12));
    if (style == 0) {
        for (size_t i = 0; i < moves->found; i++)
            moves->next[i] = (i + 1) % moves->found;
        put_course(made, moves, moves->found, below(c, 5));
    }
    if (style == 1)
        for (size_t i = 0; i < moves->found; i++)
            put_course(made, moves, 252 + below(c, 8), 0);
    for (; courses > 0; courses--)
        put_course(made, moves, once_in(c, 4) ? 1 : 1 + below(c, 16), once_in(c, 16) ? 1 : 0);
}

/* The image of a state under a map by a matrix and a constant, modulo p. */
static void map(const struct moves *moves, uint8_t matrix[9][8], const uint8_t *state, uint8_t image[8])
{
    memset(image, 0, 8);
    for (size_t k = 0; k < moves->m; k++) {
        int sum = matrix[8][k];
        for (size_t i = 0; i < moves->m; i++)
            sum += matrix[i][k] * state[i];
        image[k] = (uint8_t)(sum % moves->p);
    }
}

/* One move from m + 1 states that no equation of degree 1 has in common, by such a map; then perhaps a start of its own, from
 * which a run may be long. */
static void put_affine(struct made *made, struct moves *moves)
{
    struct chance *c = &made->chance;
    uint8_t matrix[9][8], image[8];
    random_moves(c, moves, 1);
    for (size_t i = 0; i < 9; i++)
        for (size_t k = 0; k < 8; k++)
            matrix[i][k] = (uint8_t)(once_in(c, 3) ? 0 : below(c, (uint64_t)moves->p));
    for (size_t i = 0; i <= moves->m; i++) {
        uint8_t state[8];
        memcpy(state, moves->states, 8);
        if (i > 0)
            state[i - 1] = (uint8_t)((state[i - 1] + 1) % moves->p);
        map(moves, matrix, state, image);
        new_number(c, moves);
        put_time(made, moves, state);
        put_time(made, moves, image);
    }
    if (!once_in(c, 3))
        put_course(made, moves, 0, 1);
}

void make_course(struct made *made)
{
    struct chance *c = &made->chance;
    struct moves moves = {.m = once_in(c, 30) ? below(c, 12) : 1 + below(c, 8), .p = primes[below(c, 18)]};
    lend_for_text(made, TIME_COURSE);
    put_header(made, moves.m, moves.p);
    if (once_in(c, 6) && 0 < moves.m && moves.m <= 8)
        put_affine(made, &moves);
    else
        put_courses(made, &moves);
    if (once_in(c, 2))
        put_break(made);
    made->call.course = moves.courses > 0 ? moves.numbers[below(c, moves.courses)] : 1;
    if (once_in(c, 12))
        made->call.course = once_in(c, 2) ? below(c, 102) : any_number(c);
    if (once_in(c, 4))
        mistype(made);
}
