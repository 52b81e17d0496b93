/* Leaving a variable out by the header's helper and by the plain call, from one sheet to another, and to itself. */
#ifndef LEAVING_H
#define LEAVING_H

#include "settings.h"

#include <stdio.h>

static long passed, failed;

static void expect(int good, const char *what, long index)
{
    passed += good;
    failed += !good;
    if (!good && failed < 20)
        printf("differs: %s, call %ld\n", what, index);
}

/* Changes a byte of a sheet from n on, a count, or a weight to one that is too great. */
static void damage(struct misqafur_sheet *sheet)
{
    switch (below(3)) {
    case 0: ((uint8_t *)sheet)[offsetof(struct misqafur_sheet, n) + below(6000)] ^= 1; break;
    case 1: sheet->counts[below(64)] ^= 1; break;
    default: sheet->weights ^= (uint64_t)128 << 8 * below(8);
    }
}

/* What the helper is to leave, by the plain call with its arguments written out. Gives the refusal. */
static uint32_t leave_plainly(const struct misqafur_sheet *from, uint64_t variable, struct misqafur_sheet *to)
{
    const uint32_t answer = misqafur_leave_out(from->modulus, from->variables, from->order, from->weights, from->n, from->r,
                                               from->states, 512, from->standard, 512, from->leads, 3592,
                                               from->coefficients, 28736, from->counts, 64, variable, to->states, 512,
                                               to->standard, 512, to->leads, 3592, to->coefficients, 28736, to->counts, 64);
    uint64_t k, place = 0;
    if ((answer & 255u) != 0)
        return answer;
    to->modulus = from->modulus;
    to->variables = from->variables - 1;
    to->order = from->order;
    to->weights = 0;
    for (k = 1; k <= 8; k++)
        if (k != variable)
            to->weights |= (from->weights >> 8 * (k - 1) & 255u) << 8 * place++;
    to->n = (answer >> 8) & 255u;
    to->r = answer >> 16;
    return 0;
}

/* Any variable of the sheet, now and then none, from the sheet or now and then a damaged copy, to another, or now and then to
 * itself, which is refused with 6 where nothing that comes before is. Gives the refusal. */
static uint32_t try_leaving(long index, const struct misqafur_sheet *sheet)
{
    static struct misqafur_sheet from, was, ours, theirs;
    const uint64_t variable = rarely() ? below(12) : 1 + below((uint32_t)sheet->variables);
    uint32_t due, refusal;
    from = *sheet;
    if (rarely())
        damage(&from);
    if (rarely())
        from.n = 65 + below(200);
    was = from;
    memset(&ours, 170, sizeof ours);
    theirs = ours;
    due = leave_plainly(&from, variable, &theirs);
    refusal = misqafur_sheet_leave_out(&from, variable, &ours);
    expect(refusal == due && memcmp(&ours, &theirs, sizeof ours) == 0, "the sheet without a variable", index);
    expect(refusal != 0 || misqafur_sheet_check(&ours) == 0, "the check of the sheet without a variable", index);
    if (!rarely()) {
        expect(memcmp(&from, &was, sizeof from) == 0, "the sheet from which a variable is left out", index);
        return refusal;
    }
    refusal = misqafur_sheet_leave_out(&from, variable, &from);
    expect(refusal == (due == 15 || due == 16 ? due : 6), "the refusal of leaving out to itself", index);
    expect(memcmp(&from, &was, sizeof from) == 0, "the sheet that was to be left out to itself", index);
    return refusal;
}

#endif
