/* Drawing up by exchange steps. */
#include "tableau.h"

#include <string.h>

#define LANES 8

void tableau_begin(struct tableau *t, unsigned p, unsigned m, unsigned order, uint64_t weights, unsigned n,
                   const uint8_t *points)
{
    candidates_begin(&t->candidates, m, order, weights);
    t->p = p;
    t->m = m;
    t->n = n;
    t->found = 0;
    t->width = (n + LANES - 1) / LANES * LANES;
    t->room = room_for_products(p);
    t->magic = magic_of(p);
    make_inverses(p, t->inverse);
    memset(t->coordinate, 0, sizeof t->coordinate);
    for (unsigned k = 0; k < m; k++)
        for (unsigned i = 0; i < n; i++)
            t->coordinate[k][i] = points[8 * i + k];
}

/* The width, in a form that shows the compiler that it is whole vectors. */
static unsigned whole(const struct tableau *t)
{
    return t->width / LANES * LANES;
}

void tableau_times(const struct tableau *t, unsigned standard, unsigned variable, uint16_t *restrict values)
{
    const uint16_t *a = t->value[standard], *b = t->coordinate[variable];
    uint16_t magic = t->magic, p = (uint16_t)t->p;
    unsigned width = whole(t);
    for (unsigned i = 0; i < width; i++)
        values[i] = reduce((uint16_t)(a[i] * b[i]), magic, p);
}

static void fold(const struct tableau *t, uint16_t *to)
{
    uint16_t magic = t->magic, p = (uint16_t)t->p;
    unsigned width = whole(t);
    for (unsigned i = 0; i < width; i++)
        to[i] = reduce(to[i], magic, p);
}

/* Adds four rows with their factors, unreduced. */
static void add_four(const struct tableau *t, uint16_t *restrict to, const uint16_t *factor, const uint8_t *use)
{
    const uint16_t *a = t->row[use[0]], *b = t->row[use[1]], *c = t->row[use[2]], *d = t->row[use[3]];
    uint16_t fa = factor[use[0]], fb = factor[use[1]], fc = factor[use[2]], fd = factor[use[3]];
    unsigned width = whole(t);
    for (unsigned i = 0; i < width; i++)
        to[i] = (uint16_t)(to[i] + fa * a[i] + fb * b[i] + fc * c[i] + fd * d[i]);
}

static void add_one(const struct tableau *t, uint16_t *restrict to, uint16_t factor, const uint16_t *row)
{
    unsigned width = whole(t);
    for (unsigned i = 0; i < width; i++)
        to[i] = (uint16_t)(to[i] + factor * row[i]);
}

/* The same with one row, reduced at once. */
static void add_reduced(const struct tableau *t, uint16_t *restrict to, uint16_t factor, const uint16_t *row)
{
    uint16_t magic = t->magic, p = (uint16_t)t->p;
    unsigned width = whole(t);
    for (unsigned i = 0; i < width; i++)
        to[i] = reduce((uint16_t)(to[i] + factor * row[i]), magic, p);
}

/* Adds the found rows with these factors; zeros are left out. */
static void combine(const struct tableau *t, uint16_t *to, const uint16_t *factor)
{
    uint8_t use[MOST + 1];
    unsigned count = 0, i = 0, gained = 0;
    for (unsigned j = 0; j < t->found; j++) {
        use[count] = (uint8_t)j;
        count += factor[j] != 0;
    }
    for (; i + 4 <= count; i += 4, gained += 4) {
        if (gained + 4 > t->room) {
            fold(t, to);
            gained = 0;
        }
        add_four(t, to, factor, use + i);
    }
    if (gained + 3 > t->room)
        fold(t, to);
    for (; i < count; i++)
        add_one(t, to, factor[use[i]], t->row[use[i]]);
    fold(t, to);
}

void tableau_eliminate(const struct tableau *t, const uint16_t *values, uint16_t *rest)
{
    uint16_t factor[MOST];
    for (unsigned j = 0; j < t->found; j++) {
        factor[j] = (uint16_t)(values[j] == 0 ? 0 : t->p - values[j]);
        rest[j] = 0;
    }
    memcpy(rest + t->found, values + t->found, (t->width - t->found) * sizeof *rest);
    combine(t, rest, factor);
}

static void swap(uint16_t *in, unsigned a, unsigned b)
{
    uint16_t kept = in[a];
    in[a] = in[b];
    in[b] = kept;
}

/* Brings the point of a slot to the next pivot's slot. */
static void swap_slots(struct tableau *t, uint16_t *values, uint16_t *rest, unsigned slot)
{
    unsigned to = t->found;
    if (slot == to)
        return;
    swap(values, slot, to);
    swap(rest, slot, to);
    for (unsigned k = 0; k < t->m; k++)
        swap(t->coordinate[k], slot, to);
    for (unsigned j = 0; j < t->found; j++) {
        swap(t->value[j], slot, to);
        swap(t->row[j], slot, to);
    }
}

/* The exchange step: the next slot now means the new standard monomial. */
static void exchange(struct tableau *t, const uint16_t *values, const uint16_t *rest)
{
    unsigned slot = t->found;
    uint16_t scale = t->inverse[rest[slot]], *row = t->row[slot];
    memset(row, 0, sizeof t->row[slot]);
    add_reduced(t, row, scale, rest);
    row[slot] = scale;
    for (unsigned j = 0; j < slot; j++) {
        uint16_t factor = (uint16_t)(t->p - t->row[j][slot]);
        t->row[j][slot] = 0;
        if (factor != t->p)
            add_reduced(t, t->row[j], factor, row);
    }
    memcpy(t->value[slot], values, t->width * sizeof *values);
    t->found++;
}

/* Takes a monomial whose proper divisors are all standard: it is standard or a new lead. */
static void take(struct tableau *t, struct drawn *to, const struct candidate *c, uint16_t *values)
{
    uint16_t rest[MOST];
    unsigned slot = t->found;
    tableau_eliminate(t, values, rest);
    while (slot < t->n && rest[slot] == 0)
        slot++;
    if (slot < t->n) {
        memcpy(to->standard + 8 * t->found, c->exponents, 8);
        t->parent[t->found] = (uint8_t)c->parent;
        t->by[t->found] = (uint8_t)c->by;
        candidates_found(&t->candidates, c);
        swap_slots(t, values, rest, slot);
        exchange(t, values, rest);
        return;
    }
    memcpy(to->leads + 8 * to->r, c->exponents, 8);
    to->rank[to->r] = c->rank;
    to->parent[to->r] = (uint8_t)c->parent;
    to->by[to->r] = (uint8_t)c->by;
    for (unsigned i = 0; i < t->found; i++)
        to->coefficients[64 * to->r + i] = (uint8_t)rest[i];
    to->r++;
}

void tableau_draw(struct tableau *t, struct drawn *to)
{
    struct candidate c = {.rank = 0};
    uint16_t values[MOST] = {0};
    memset(to->standard, 0, 512);
    memset(to->leads, 0, 3592);
    memset(to->coefficients, 0, 28736);
    to->r = 0;
    for (unsigned i = 0; i < t->n; i++)
        values[i] = 1;
    take(t, to, &c, values);
    while (candidates_next(&t->candidates, to->standard, &c)) {
        tableau_times(t, c.parent, c.by, values);
        take(t, to, &c, values);
    }
}
