/* Adding a point in plain C, after Farr and Gao. */
#include "plain.h"

#include "redrawn.h"

#include <string.h>

/* Adding: the tableau and basis of the old points, and values at the new one. */
struct addition {
    struct tableau t;
    struct redrawn old;
    uint8_t point[8];
    uint16_t standard_value[MOST], row_value[LEADS]; /* at the new point */
    unsigned alpha;                                  /* the first row that is not zero there */
    unsigned place;                                  /* its lead's place among the standard monomials */
    uint64_t alpha_rank;
};

static unsigned dot(unsigned n, const uint8_t *a, const uint16_t *b)
{
    unsigned sum = 0;
    for (unsigned i = 0; i < n; i++)
        sum += (unsigned)a[i] * b[i];
    return sum;
}

/* Values at the new point of the standard monomials and of every row; finds alpha. */
static void look_at_point(struct addition *a)
{
    const struct tableau *t = &a->t;
    unsigned p = t->p, n = t->n;
    a->alpha = a->old.drawn.r;
    if (n > 0)
        a->standard_value[0] = 1;
    for (unsigned i = 1; i < n; i++)
        a->standard_value[i] = (uint16_t)(a->standard_value[t->parent[i]] * a->point[t->by[i]] % p);
    for (unsigned j = 0; j < a->old.drawn.r; j++) {
        unsigned lead = n == 0 ? 1 : (unsigned)a->standard_value[a->old.drawn.parent[j]] * a->point[a->old.drawn.by[j]];
        a->row_value[j] = (uint16_t)((lead + dot(n, a->old.coefficients + 64 * j, a->standard_value)) % p);
        if (a->row_value[j] != 0 && a->alpha == a->old.drawn.r)
            a->alpha = j;
    }
    a->alpha_rank = n == 0 ? 0 : a->old.drawn.rank[a->alpha];
    a->place = 0;
    while (a->place < n && t->candidates.rank[a->place] < a->alpha_rank)
        a->place++;
}

/* Writes coefficients over the old standard monomials, and one for alpha at its place, to a new row. */
static void put_row(const struct addition *a, const uint8_t *coefficients, uint8_t at_alpha, uint8_t *row)
{
    memcpy(row, coefficients, a->place);
    row[a->place] = at_alpha;
    memcpy(row + a->place + 1, coefficients + a->place, a->t.n - a->place);
}

/* An old row that stays: less that multiple of row alpha that makes it zero at the new point. */
static void keep_row(const struct addition *a, unsigned j, uint8_t *row)
{
    const uint8_t *alpha = a->old.coefficients + 64 * a->alpha, *old = a->old.coefficients + 64 * j;
    uint16_t p = (uint16_t)a->t.p, magic = a->t.magic;
    uint16_t scale = (uint16_t)((p - a->row_value[j]) * a->t.inverse[a->row_value[a->alpha]] % p);
    uint8_t sum[MOST];
    for (unsigned i = 0; i < a->t.n; i++)
        sum[i] = (uint8_t)reduce((uint16_t)(old[i] + scale * alpha[i]), magic, p);
    put_row(a, sum, (uint8_t)scale, row);
}

/* The row of the new lead x_k * alpha: zero at the old points by elimination, then at the new one. */
static void new_row(const struct addition *a, unsigned k, uint8_t *row)
{
    const struct tableau *t = &a->t;
    const uint8_t *alpha = a->old.coefficients + 64 * a->alpha;
    uint16_t values[MOST] = {0}, rest[MOST] = {0}, p = (uint16_t)t->p;
    unsigned parent = a->old.drawn.parent[a->alpha], by = a->old.drawn.by[a->alpha], n = t->n, at_point = a->point[k];
    uint8_t sum[MOST];
    if (n > 0) {
        tableau_times(t, parent, by, values);
        for (unsigned i = 0; i < n; i++)
            values[i] = reduce((uint16_t)(values[i] * t->coordinate[k][i]), t->magic, p);
        tableau_eliminate(t, values, rest);
        at_point = at_point * ((unsigned)a->standard_value[parent] * a->point[by] % p);
    }
    for (unsigned i = 0; i < n; i++)
        at_point += (unsigned)rest[i] * a->standard_value[i];
    uint16_t scale = (uint16_t)((p - at_point % p) * t->inverse[a->row_value[a->alpha]] % p);
    for (unsigned i = 0; i < n; i++)
        sum[i] = (uint8_t)reduce((uint16_t)(rest[i] + scale * alpha[i]), t->magic, p);
    put_row(a, sum, (uint8_t)scale, row);
}

static int divides(const uint8_t *a, const uint8_t *b)
{
    int all = 1;
    for (unsigned k = 0; k < 8; k++)
        all &= a[k] <= b[k];
    return all;
}

/* The variables k, by increasing rank, for which no other lead divides x_k * alpha. */
static unsigned new_leads(const struct addition *a, unsigned variables[8])
{
    unsigned count = 0;
    for (unsigned k = 0; k < a->t.m; k++) {
        uint8_t monomial[8];
        int covered = 0;
        memcpy(monomial, a->old.leads + 8 * a->alpha, 8);
        monomial[k]++;
        for (unsigned j = 0; j < a->old.drawn.r; j++)
            covered |= j != a->alpha && divides(a->old.leads + 8 * j, monomial);
        if (covered)
            continue;
        unsigned i = count++;
        for (; i > 0 && a->t.candidates.step[variables[i - 1]] > a->t.candidates.step[k]; i--)
            variables[i] = variables[i - 1];
        variables[i] = k;
    }
    return count;
}

/* All rows of the new basis, in increasing order; gives their number. */
static unsigned put_rows(const struct addition *a, uint8_t *leads, uint8_t *coefficients)
{
    unsigned variables[8], count = new_leads(a, variables), next = 0, r = 0;
    for (unsigned j = 0; j <= a->old.drawn.r; j++) {
        uint64_t rank = j < a->old.drawn.r ? (a->t.n == 0 ? 0 : a->old.drawn.rank[j]) : UINT64_MAX;
        for (; next < count && a->alpha_rank + a->t.candidates.step[variables[next]] < rank; next++, r++) {
            memcpy(leads + 8 * r, a->old.leads + 8 * a->alpha, 8);
            leads[8 * r + variables[next]]++;
            new_row(a, variables[next], coefficients + 64 * r);
        }
        if (j == a->old.drawn.r || j == a->alpha)
            continue;
        memcpy(leads + 8 * r, a->old.leads + 8 * j, 8);
        keep_row(a, j, coefficients + 64 * r);
        r++;
    }
    return r;
}

uint32_t plain_add_point(uint64_t modulus, uint64_t variables, uint64_t order, uint64_t weights,
                         uint64_t n, uint64_t r,
                         uint8_t *states, size_t states_length, uint8_t *standard, size_t standard_length,
                         uint8_t *leads, size_t leads_length, uint8_t *coefficients, size_t coefficients_length,
                         uint8_t *counts, size_t counts_length, const uint8_t *levels, size_t levels_length)
{
    struct addition a;
    (void)states_length, (void)standard_length, (void)leads_length, (void)coefficients_length, (void)counts_length;
    if (!good_tables(&a.t, &a.old, modulus, variables, order, weights, n, r, states, standard, leads, coefficients, counts))
        return 10;
    memset(a.point, 0, 8);
    for (size_t k = 0; k < levels_length; k++)
        a.point[k] = residue(a.t.p, levels[k]);
    unsigned place = place_of(states, a.t.n, a.point);
    if (place == 64)
        return 8;
    if (place < a.t.n && counts[place] == 255)
        return 13;
    counts[place]++;
    if (place < a.t.n)
        return 256 * (uint32_t)n + 65536 * (uint32_t)r;
    look_at_point(&a);
    memcpy(states + 8 * n, a.point, 8);
    memmove(standard + 8 * a.place + 8, standard + 8 * a.place, 8 * (n - a.place));
    memcpy(standard + 8 * a.place, a.old.leads + 8 * a.alpha, 8);
    memset(leads, 0, sizeof a.old.leads);
    memset(coefficients, 0, sizeof a.old.coefficients);
    return 256 * (uint32_t)(n + 1) + 65536 * put_rows(&a, leads, coefficients);
}
