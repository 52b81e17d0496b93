/* Texts of time courses with a set of faults: states modulo 11 in two variables, and whatever is wrong beside. */
#include "faulty_text.h"

#include <string.h>

/* The first course goes along a grid: so many states, each to the next, and the last has no successor. */
#define FIRST 9

/* The state that goes to itself, and the one that goes to others as fault 17. */
#define FIXED 100
#define OTHER 3

/* What is known of a text while it is put down: the records so far, the successor of each state, how often the fixed one came, and the
 * records at which 8, 13 and 17 are due. */
struct told {
    int m, records, distinct, times, next[121];
    uint64_t at[FAULTS];
};

/* As fault 4 none or too many; with many records fewer of these, so that the text is not too long. */
static int variables_of(uint32_t faults, uint32_t variant)
{
    static const int some[4] = {9, 0, 256 + 2, 500}, fewer[4] = {9, 0, 10, 20};
    if (!has_fault(faults, 4))
        return 2;
    return has_fault(faults, 13) || has_fault(faults, FULL) ? fewer[variant % 4] : some[variant % 4];
}

/* What is due because state i has this successor in the record just put down; successors are kept from 1 on. */
static void follow(struct told *told, int i, int successor)
{
    const uint64_t record = (uint64_t)told->records + 1;
    if (told->next[i] == 0 && ++told->distinct == MISQAFUR_MAX_POINTS + 1)
        told->at[FULL] = record;
    if (told->next[i] == 0)
        told->next[i] = successor + 1;
    if (told->next[i] != successor + 1 && told->at[17] == 0)
        told->at[17] = record;
    if (i == FIXED && ++told->times == MISQAFUR_MAX_COUNT + 1)
        told->at[13] = record;
}

/* One record: state i in a course, with its successor there or -1. As fault 9 a level is out of range, also in the last record
 * of a course; as fault 2 the rules are broken behind the number. */
static void put_time(struct made *made, struct told *told, int i, int course, int successor, uint32_t faults, uint32_t variant)
{
    static const int bad_levels[4] = {11, -11, 256, -999};
    const int outside = has_fault(faults, 9) && told->records == (int)variant % FIRST;
    const int broken = has_fault(faults, 2) && told->records + 1 == (int)variant * 5 % (FIRST + 1);
    for (int k = 0; k < told->m; k++) {
        put_number(made, outside && k == 0 ? bad_levels[variant / 2 % 4] : grid_level(i, k, told->records % 3 == 0));
        put_word(made, ",");
    }
    if (told->records % 4 == 1)
        put_word(made, course < 10 ? "00" : "0");
    put_number(made, course);
    if (broken)
        put_word(made, breaks[variant % 10]);
    put_word(made, variant % 3 == 0 ? "\r\n" : "\n");
    told->records++;
    if (successor >= 0)
        follow(told, i, successor);
}

/* A course from one state of the grid to another, each to the next; the fixed one stays so many times. */
static void put_chain(struct made *made, struct told *told, int from, int to, int course, uint32_t faults, uint32_t variant)
{
    for (int i = from; i <= to; i++)
        put_time(made, told, i, course, i < to ? i + 1 : -1, faults, variant);
}

static void put_fixed(struct made *made, struct told *told, int times, int course, uint32_t faults, uint32_t variant)
{
    for (; times > 0; times--)
        put_time(made, told, FIXED, course, times > 1 ? FIXED : -1, faults, variant);
}

/* The three parts that stand behind the first course, in one sequence or another, each a course or two: the fixed state with a count
 * up to 255, or as fault 13 beyond; as fault 17 a state that goes elsewhere than before, and a second time; as fault FULL states, up
 * to the 65th point and more. */
static void put_part(struct made *made, struct told *told, int part, uint32_t faults, uint32_t variant)
{
    if (part == 0 && (has_fault(faults, 13) || variant % 5 == 0))
        put_fixed(made, told, MISQAFUR_MAX_COUNT + 1 + 2 * has_fault(faults, 13), 99, faults, variant);
    for (int more = 2; part == 1 && has_fault(faults, 17) && more <= 3; more++) {
        put_time(made, told, OTHER, 10 * more, OTHER + more, faults, variant);
        put_time(made, told, OTHER + more, 10 * more, -1, faults, variant);
    }
    if (part == 2 && has_fault(faults, FULL))
        put_chain(made, told, FIRST - 1, MISQAFUR_MAX_POINTS + 1 + (int)variant % 8, 1, faults, variant);
}

/* The course that is named: the first, or as fault 18 none that is there, some of which would be if they were cut to fewer bits. */
static uint64_t named(uint32_t faults, uint32_t variant)
{
    static const uint64_t none[8] = {0, 8, 98, 100, 256 + 7, 65536 + 7, 0x100000000 + 7, UINT64_MAX};
    return has_fault(faults, 18) ? none[variant % 8] : 7;
}

uint64_t make_faulty_course(struct made *made, uint32_t faults, uint32_t variant)
{
    static const int sequences[6][3] = {{0, 1, 2}, {2, 1, 0}, {1, 0, 2}, {2, 0, 1}, {0, 2, 1}, {1, 2, 0}};
    const int broken = (int)variant * 5 % (FIRST + 1); /* 0 is the header */
    const char *how = breaks[variant % 10];
    struct told told = {.m = variables_of(faults, variant),
                        .at = {[2] = (uint64_t)broken + (*how == '\n' ? 2 : 1), [3] = 1, [4] = 1, [15] = 1,
                               [9] = (uint64_t)(variant % FIRST) + 2}};
    lend_faulty(made, TIME_COURSE, faults, variant);
    made->call.course = named(faults, variant);
    put_faulty_header(made, told.m, faults, variant);
    if (has_fault(faults, 2) && broken == 0)
        put_word(made, how);
    put_word(made, variant % 3 == 0 ? "\r\n" : "\n");
    put_chain(made, &told, 0, FIRST - 1, 7, faults, variant);
    for (int part = 0; part < 3; part++)
        put_part(made, &told, sequences[variant % 6][part], faults, variant);
    if (has_fault(faults, 1))
        put_too_much(made);
    int first = first_fault(faults);
    return (uint64_t)refusal_of(first) + 256 * told.at[first];
}
