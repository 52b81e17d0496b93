/* What the files of part "courses" share. */
#ifndef COURSES_H
#define COURSES_H

#include "forward.h"
#include "parts.h"

struct courses {
    struct score score;
    struct guard *guard;
    struct made made;
    struct times times;
    struct misqafur_course run;
};

void say_course(struct courses *c, const char *what, uint64_t at, int holds);

/* Begins records anew, under these settings. */
void begin_times(struct courses *c, int p, int m, uint64_t order, uint64_t weights);

/* Has the archive run a course of the records: against the reference in every byte, and where it is taken, by what the records say
 * of it. Gives the number. */
uint64_t run_times(struct courses *c, const char *what, uint64_t course);

/* The same, and the refusal with its record is due, or 0 for none. */
void due_times(struct courses *c, const char *what, uint64_t course, uint64_t refusal, uint64_t record);

/* Texts as they stand: the examples of docs/SCOPE.md and the readings taken of it; numbers; texts damaged byte by byte. */
void course_examples(struct courses *c);
void course_numbers(struct courses *c);
void course_damage(struct courses *c);

#endif
