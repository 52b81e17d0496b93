/* Part "courses": texts as they stand, numbers of courses, and texts damaged byte by byte. */
#include "courses.h"

#include <stdio.h>
#include <stdlib.h>
#include <string.h>

/* Has the archive run a course of a text, also against the reference; gives the number. */
static uint64_t run_text(struct courses *c, const char *text, size_t length, uint64_t course)
{
    uint64_t number = 0;
    c->made.call = (struct call){.kind = TIME_COURSE, .course = course};
    for (int i = 0; i < BUFFERS; i++)
        lend(&c->made, (enum buffer)i, buffer_size(TIME_COURSE, (enum buffer)i));
    memmove(c->made.bytes[GIVEN], text, length);
    lend(&c->made, GIVEN, length);
    return agrees(c->guard, &c->made.call, length, "a text of courses", &number) ? number : UINT64_MAX;
}

/* A text and the course named; the refusal and its record, or 0 and n, step and distance back. */
struct example {
    const char *text;
    uint64_t course, refusal, record;
    uint32_t n, step, back;
};

static const struct example examples_of_form[] = {
    /* 7, 07 and 007 are course 7; any other number is a fault of form at its record */
    {"a,mod 5\n1,7\n2,07\n3,007\n", 7, 0, 0, 2, 5, 5},
    {"a,mod 5\n1,7\n2,0\n", 7, 2, 3, 0, 0, 0},
    {"a,mod 5\n1,-0\n2,7\n", 7, 2, 2, 0, 0, 0},
    {"a,mod 5\n1,7\n2,-7\n", 7, 2, 3, 0, 0, 0},
    {"a,mod 5\n1,100\n2,7\n", 7, 2, 2, 0, 0, 0},
    {"a,mod 5\n1,7\n2,0007\n", 7, 2, 3, 0, 0, 0},
    {"a,mod 5\n1,7\n2,\n", 7, 2, 3, 0, 0, 0},
    {"a,\"mod 5 weight 9\"\n\"1\",\"7\"\n\"2\",7\n", 7, 0, 0, 1, 2, 1},
    /* one that returns after another, also where the settings are wrong; none has to increase */
    {"a,mod 5\n1,7\n2,8\n3,7\n", 7, 2, 4, 0, 0, 0},
    {"a,mod 5\n1,8\n2,8\n3,7\n2,7\n", 7, 0, 0, 2, 2, 1},
    {"a,mod 5\n1,7\n2,8\n3,07\n4,0\n", 7, 2, 4, 0, 0, 0},
    {"a,mod 5\n1,0\n2,8\n3,8\n4,x\n", 7, 2, 2, 0, 0, 0},
    {"a,mod 4\n1,7\n2,8\n3,7\n", 7, 2, 4, 0, 0, 0},
    {"mod 5\n7\n8\n7\n", 7, 2, 4, 0, 0, 0},
    {"mod 5\n7\n8\n", 7, 4, 1, 0, 0, 0},
    {"a,b,c,d,e,f,g,h,i,mod 5\n1,1,1,1,1,1,1,1,1,7\n1,1,1,1,1,1,1,1,1,100\n", 7, 2, 3, 0, 0, 0},
    {"a,b,c,d,e,f,g,h,i,mod 5\n1,1,1,1,1,1,1,1,1,7\n", 7, 4, 1, 0, 0, 0},
    {"a,mod 5 weight 0\n1,7\n", 7, 15, 1, 0, 0, 0},
    /* 9 also in the last record of a course; never for a course number */
    {"a,mod 5\n1,7\n5,7\n", 7, 9, 3, 0, 0, 0},
    {"a,mod 5\n-5,6\n1,7\n", 7, 9, 2, 0, 0, 0},
    {"a,mod 2\n1,99\n0,99\n", 99, 0, 0, 1, 2, 1},
};

static const struct example examples_of_runs[] = {
    /* the last record of a course makes no point; states are compared by residue, and counted */
    {"a,mod 5\n1,7\n2,7\n4,7\n", 7, 0, 0, 2, 4, 4},
    {"a,mod 5\n4,1\n-1,1\n4,1\n", 1, 0, 0, 1, 1, 1},
    {"a,mod 5\n1,7\n", 7, 0, 0, 0, 2, 1},
    {"a,mod 5\n0,7\n", 7, 0, 0, 0, 1, 1},
    {"a,b,mod 3 lex\n1,2,7\n0,0,8\n", 8, 0, 0, 0, 1, 1},
    /* 17 at the point's own record, in any course; not where the state is the last of its course */
    {"a,mod 5\n1,1\n2,1\n-4,2\n3,2\n", 1, 17, 4, 0, 0, 0},
    {"a,mod 5\n1,1\n2,1\n3,2\n1,2\n", 1, 0, 0, 2, 4, 4},
    {"a,mod 5\n1,1\n2,1\n1,2\n-3,2\n", 2, 0, 0, 1, 2, 1},
    {"a,mod 5\n1,1\n2,1\n1,1\n3,1\n2,1\n4,1\n", 1, 17, 4, 0, 0, 0},
    /* a cycle that is met, with what comes before it */
    {"a,mod 5\n0,7\n1,7\n2,7\n1,7\n", 7, 0, 0, 3, 3, 2},
    {"a,mod 5\n0,7\n1,7\n2,7\n0,7\n", 7, 0, 0, 3, 3, 3},
    /* 18, whatever is named */
    {"a,mod 5\n1,7\n", 8, 18, 0, 0, 0, 0},
    {"a,mod 5\n1,7\n", 0, 18, 0, 0, 0, 0},
    {"a,mod 5\n1,7\n", 100, 18, 0, 0, 0, 0},
    {"a,mod 5\n1,7\n", 263, 18, 0, 0, 0, 0},
    {"a,mod 5\n1,7\n", 0x100000007, 18, 0, 0, 0, 0},
    {"a,mod 5\n1,7\n", UINT64_MAX, 18, 0, 0, 0, 0},
    {"a,mod 5\n", 7, 18, 0, 0, 0, 0},
    {"a,mod 5", 1, 18, 0, 0, 0, 0},
};

static void try_examples(struct courses *c, const struct example *list, size_t count)
{
    for (size_t i = 0; i < count; i++) {
        const struct example *e = &list[i];
        const uint64_t number = run_text(c, e->text, strlen(e->text), e->course);
        const int taken = misqafur_read_points(number) == e->n && misqafur_course_step(number) == e->step &&
                          misqafur_course_back(number) == e->back && misqafur_read_refusal(number) == 0;
        say_course(c, e->text, i, e->refusal == 0 ? taken : number == e->refusal + 256 * e->record);
    }
}

/* A header without a word is grevlex, in both calls that read a text; the order's bits are their own. */
static void header_words(struct courses *c)
{
    static const char *const words[5] = {"a,mod 5\n1,7", "a,mod 5 lex\n1,7", "a,mod 5 grlex\n1,7", "a,mod 5 grevlex\n1,7",
                                         "a,mod 5 weight 99\n1,7"};
    static const uint32_t orders[5] = {2, 0, 1, 2, 3};
    for (int i = 0; i < 5; i++) {
        const uint64_t number = run_text(c, words[i], strlen(words[i]), 7);
        say_course(c, words[i], orders[i], misqafur_read_order(number) == orders[i] && misqafur_read_modulus(number) == 5 &&
                   misqafur_read_variables(number) == 1 && misqafur_course_elements(number) == 1);
    }
}

/* What the header takes out of a number: each bit belongs to one part, whatever the others are. */
static void parts_of_numbers(struct courses *c)
{
    for (uint64_t i = 0; i < 1000; i++) {
        const uint64_t n = i < 64 ? (uint64_t)1 << i : any_number(&c->made.chance);
        const uint64_t again = misqafur_read_refusal(n) | (uint64_t)misqafur_read_points(n) << 8 |
                               (uint64_t)misqafur_read_modulus(n) << 16 | (uint64_t)misqafur_read_variables(n) << 24 |
                               (uint64_t)misqafur_read_order(n) << 32 | (uint64_t)misqafur_course_elements(n) << 36 |
                               (uint64_t)misqafur_course_step(n) << 46 | (uint64_t)misqafur_course_back(n) << 55;
        say_course(c, "a part of a number", i, again == n && misqafur_read_record(n) == n >> 8);
    }
}

void course_examples(struct courses *c)
{
    try_examples(c, examples_of_form, sizeof examples_of_form / sizeof *examples_of_form);
    try_examples(c, examples_of_runs, sizeof examples_of_runs / sizeof *examples_of_runs);
    header_words(c);
    parts_of_numbers(c);
}

/* Every number in the last column, of one to three digits and with a minus sign; and every number named, up to 1100. */
void course_numbers(struct courses *c)
{
    char text[64];
    for (int width = 1; width <= 3; width++)
        for (int number = -120; number < 1000; number++) {
            int length = sprintf(text, "a,mod 5\n2,%s%0*d\n", number < 0 ? "-" : "", width, abs(number));
            const uint64_t answer = run_text(c, text, (size_t)length, (uint64_t)number);
            const int good = 1 <= number && number <= MISQAFUR_MAX_COURSE;
            say_course(c, text, (uint64_t)length, good ? misqafur_read_refusal(answer) == 0 : answer == 2 + 256 * 2);
        }
    for (uint64_t named = 0; named < 1100; named++)
        for (int there = 1; there <= MISQAFUR_MAX_COURSE; there += 7) {
            int length = sprintf(text, "a,mod 5\n2,%d\n", there);
            const uint64_t answer = run_text(c, text, (size_t)length, named);
            say_course(c, "a number named", named, named == (uint64_t)there ? misqafur_read_refusal(answer) == 0 : answer == 18);
        }
}

/* Each byte of a text with each of the 256 values, left out, or twice there. */
void course_damage(struct courses *c)
{
    static const char text[] = "g,\"h\"\"\",mod 3 weight 2 1\r\n0,1,7\r\n1,-1,\"07\"\n2,2,7\n0,1,12\n1,2,12\n0,0,5";
    char damaged[sizeof text + 1];
    const size_t length = sizeof text - 1;
    for (size_t at = 0; at < length; at++) {
        for (int byte = 0; byte < 256; byte++) {
            memcpy(damaged, text, length);
            damaged[at] = (char)byte;
            say_course(c, "a byte changed", at, run_text(c, damaged, length, 12) != UINT64_MAX);
        }
        memcpy(damaged, text, at);
        memcpy(damaged + at, text + at + 1, length - at - 1);
        say_course(c, "a byte left out", at, run_text(c, damaged, length - 1, 12) != UINT64_MAX);
        memcpy(damaged + at + 1, text + at, length - at);
        say_course(c, "a byte twice", at, run_text(c, damaged, length + 1, 12) != UINT64_MAX);
        say_course(c, "a text cut", at, run_text(c, text, at, 12) != UINT64_MAX);
    }
}
