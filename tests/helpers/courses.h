/* A time course run forward by the header's helper and by the plain call. */
#ifndef COURSES_H
#define COURSES_H

#include "leaving.h"

#include <stdlib.h>

/* A text of few records, and perhaps wrong settings, numbers or levels, or more states than a sheet has room for. Gives its
 * length. */
static size_t make_course_text(char text[8192])
{
    static const char *const orders[] = {"", " lex", " grlex", " grevlex", " weight 1 99", " weight 0 7"};
    const uint32_t records = rarely() ? 64 + below(8) : below(9), p = rarely() ? 4 : records > 60 ? 61 : 2 + below(2);
    const uint32_t fixed = rarely() && below(3) == 0 ? 250 + below(12) : 0, turn = below(3);
    uint32_t course = 1 + below(90), i;
    int length = sprintf(text, "%smod %u%s\n", rarely() ? "a," : "a,b,", p, orders[rarely() ? 5 : below(5)]);
    for (i = 0; i < records + fixed; i++) {
        const uint32_t level = fixed != 0 ? 1 : rarely() && below(4) == 0 ? p + 1 : turn == 0 ? 1 : i % p;
        course += fixed == 0 && rarely() ? 1 : 0;
        length += sprintf(text + length, "%u,%u,%u\n", level, fixed != 0 ? 0 : i / p % p,
                          fixed == 0 && rarely() && below(4) == 0 ? 0 : course);
    }
    return (size_t)length;
}

/* The first number behind the last comma of the first record, or 7. */
static uint64_t first_course(const char *text)
{
    const char *at = strchr(text, '\n') + 1;
    unsigned long levels[2], number = 7;
    char *end;
    if (*at == 0)
        return number;
    levels[0] = strtoul(at, &end, 10);
    levels[1] = strtoul(end + 1, &end, 10);
    number = strtoul(end + 1, &end, 10);
    return levels[0] + levels[1] > 200 ? 7 : number;
}

/* What the helper is to leave, by the plain call with its arguments written out. Gives the number. */
static uint64_t run_plainly(struct misqafur_course *to, const char *text, size_t length, uint64_t number)
{
    uint8_t w[8];
    struct misqafur_sheet *s = &to->sheet;
    const uint64_t answer = misqafur_time_course((const uint8_t *)text, length, number, s->states, 512, s->standard, 512, s->leads,
                                                 3592, s->coefficients, 28736, s->counts, 64, to->interpolants, 512, w, 8);
    int k;
    if ((answer & 255u) != 0)
        return answer;
    s->n = answer >> 8 & 255u;
    s->modulus = answer >> 16 & 255u;
    s->variables = answer >> 24 & 255u;
    s->order = answer >> 32 & 15u;
    s->r = answer >> 36 & 1023u;
    to->step = (uint32_t)(answer >> 46 & 511u);
    to->back = (uint32_t)(answer >> 55);
    s->weights = 0;
    for (k = 7; k >= 0; k--)
        s->weights = s->weights << 8 | w[k];
    return answer;
}

/* Any text, its first course or now and then another number. Gives the refusal. */
static uint32_t try_course(long index)
{
    static struct misqafur_course ours, theirs;
    static char text[8192];
    const size_t length = make_course_text(text);
    const uint64_t number = rarely() ? below(200) : first_course(text);
    uint64_t due, record = 12345;
    uint32_t refusal;
    memset(&ours, 170, sizeof ours);
    theirs = ours;
    due = run_plainly(&theirs, text, length, number);
    refusal = misqafur_course_run(&ours, (const uint8_t *)text, length, number, &record);
    expect(refusal == (due & 255u) && memcmp(&ours, &theirs, sizeof ours) == 0, "a time course", index);
    expect(record == (refusal == 0 ? 12345 : due >> 8), "the record at fault", index);
    expect(refusal != 0 || misqafur_sheet_check(&ours.sheet) == 0, "the check of a time course's sheet", index);
    return refusal;
}

#endif
