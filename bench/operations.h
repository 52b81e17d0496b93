/* The operations that are measured, and who takes part. */
#ifndef OPERATIONS_H
#define OPERATIONS_H

#include "inputs.h"

/* The calls that are measured, of one implementation. */
struct measured {
    __typeof__(misqafur_draw_up) *draw_up;
    __typeof__(misqafur_add_point) *add_point;
    __typeof__(misqafur_withdraw_point) *withdraw_point;
    __typeof__(misqafur_check) *check;
    __typeof__(misqafur_remainder) *remainder;
};

extern const struct measured archive;

/* What an operation leaves. */
struct result {
    uint32_t answer;
    struct lent lent;
    uint8_t out[MISQAFUR_RESIDUES_SIZE];
};

struct operation {
    const char *name;
    void (*run)(const struct measured *, const struct input *, struct result *);
    uint64_t least; /* fewest points that it is measured with */
    const struct measured *third; /* who takes part beside the archive and plain C, if anyone */
    const char *third_is;
};

#define OPERATIONS 6
#define DRAWING_UP 0
extern const struct operation operations[OPERATIONS];

/* Who takes part: the archive, plain C, and perhaps a third. */
const struct measured *side_of(const struct operation *op, int side);
int side_count(const struct operation *op);

/* Draws up the bases that an input's operations start from. */
void prepare(struct input *in);

/* Microseconds for one run: the mean over some milliseconds. */
double time_once(const struct operation *op, const struct measured *by, const struct input *in);

/* Whether all sides leave the same, and are not refused; if not, it is said. */
int same(const struct operation *op, const struct input *in);

/* How many cancellations drawing up takes; and whether C by the same method takes as many, which is said if not. */
uint32_t cancellations(const struct input *in);
int same_cancellations(const struct input *in);

#endif
