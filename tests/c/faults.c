/* Part "faults": every set of the faults that docs/SCOPE.md numbers, in every call that can have them. The number that is
 * looked for first is due, and no lent byte changes. */
#include "guard.h"
#include "made.h"
#include "parts.h"

#include <stdio.h>
#include <stdlib.h>

int has_fault(uint32_t faults, int refusal)
{
    return (int)(faults >> refusal & 1);
}

/* In the order of checking, which is not that of the numbers. */
int first_fault(uint32_t faults)
{
    static const int order[] = {1, 2, 19, 3, 4, 5, 15, 16, 6, 7, 8, 9, 17, 10, 12, FULL, 13, 14, 18};
    for (size_t i = 0; i < sizeof order / sizeof *order; i++)
        if (has_fault(faults, order[i]))
            return order[i];
    return 0;
}

int refusal_of(int fault)
{
    return fault == FULL ? 8 : fault;
}

/* Whether a call of this kind can have these faults. Adding is handed one point: it is new to a full basis, or it has the
 * greatest count. Drawing up and texts of records claim no n. In a text as JSON an order that is none has no weights. */
static int possible(enum kind kind, uint32_t faults)
{
    int fills = kind == ADD_POINT || draws_up(kind) || reads_text(kind);
    int claims = !draws_up(kind) && !reads_text(kind);
    uint32_t all = possible_refusals[kind] & ~(claims ? 0u : 1u << 8);
    if (has_fault(faults, FULL) && has_fault(faults, 13) && kind == ADD_POINT)
        return 0;
    if (has_fault(faults, 5) && has_fault(faults, 15) && kind == READ_JSON)
        return 0;
    return (faults & ~(all | (fills ? 1u << FULL : 0u))) == 0;
}

static int faults_hold(struct guard *guard, struct made *made, enum kind kind, uint32_t faults, uint32_t variant)
{
    char name[64];
    uint64_t due, number;
    snprintf(name, sizeof name, "%s, faults %x (hex), variant %u", kind_names[kind], faults, variant);
    if (reads_text(kind)) {
        due = (kind == READ_TEXT ? make_faulty_text : make_faulty_course)(made, faults, variant);
    } else {
        (kind == READ_JSON ? make_faulty_json(made, faults, variant) : make_faulty_call(made, kind, faults, variant));
        due = (uint64_t)refusal_of(first_fault(faults));
    }
    if (due == 0)
        return agrees(guard, &made->call, variant, name, &number) && (number & 255) == 0;
    return refuses(guard, &made->call, variant * 37, due, name);
}

struct score all_faults(const struct options *options)
{
    struct score score = {0, 0};
    struct guard *guard = guard_new();
    struct made *made = malloc(sizeof *made);
    (void)options;
    if (made == NULL)
        abort();
    for (int kind = 0; kind < KINDS; kind++)
        for (uint32_t faults = 0; faults < 1 << FAULTS; faults++)
            for (uint32_t variant = 0; variant < FAULT_VARIANTS && possible((enum kind)kind, faults); variant++)
                count(&score, faults_hold(guard, made, (enum kind)kind, faults, variant));
    free(made);
    guard_free(guard);
    return score;
}
