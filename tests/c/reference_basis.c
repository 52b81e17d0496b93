/* The basis of a list of points by docs/SCOPE.md's definitions: every monomial that could matter is
 * looked at in increasing order, and the coefficients come from solving linear equations. */
#include "reference_candidates.h"

#include <stdlib.h>
#include <string.h>

static int inverse_of(int p, int a)
{
    for (int b = 1; b < p; b++)
        if (a * b % p == 1)
            return b;
    abort();
}

int reference_value(int p, const uint8_t *exponents, const uint8_t *point)
{
    int product = 1;
    for (int k = 0; k < 8; k++)
        for (int i = 0; i < exponents[k]; i++)
            product = product * point[k] % p;
    return product;
}

static int divides(const uint8_t *a, const uint8_t *b)
{
    for (int k = 0; k < 8; k++)
        if (a[k] > b[k])
            return 0;
    return 1;
}

static int lead_divides(const struct basis *b, const uint8_t *monomial)
{
    for (int i = 0; i < b->r; i++)
        if (divides(b->leads + 8 * i, monomial))
            return 1;
    return 0;
}

static void values_at_points(const struct basis *b, const uint8_t *monomial, int values[64])
{
    for (int q = 0; q < b->n; q++)
        values[q] = reference_value(b->p, monomial, b->states + 8 * q);
}

/* Value rows that are independent, each 1 at its pivot, in the order in which they were found; and how many
 * cancellations were made: a row that meets one kept is counted where it is not 0 at that one's pivot then. */
struct echelon {
    int count, pivot[64], row[64][64], cancellations;
};

/* Whether the values depend on the rows kept; if not, they are kept too. */
static int depends(struct echelon *kept, int p, int n, const int values[64])
{
    int *row = kept->row[kept->count < 64 ? kept->count : 63], rest[64], pivot = 0;
    memcpy(rest, values, sizeof rest);
    for (int i = 0; i < kept->count; i++) {
        int times = rest[kept->pivot[i]];
        kept->cancellations += times != 0;
        for (int q = 0; times != 0 && q < n; q++)
            rest[q] = (rest[q] + (p - times) * kept->row[i][q]) % p;
    }
    while (pivot < n && rest[pivot] == 0)
        pivot++;
    if (pivot == n)
        return 1;
    int scale = inverse_of(p, rest[pivot]);
    for (int q = 0; q < n; q++)
        row[q] = rest[q] * scale % p;
    kept->pivot[kept->count++] = pivot;
    return 0;
}

/* The standard monomials and the leads that no other lead divides properly. */
static void find_monomials(struct basis *b)
{
    struct candidates weighed = {NULL, 0, 0};
    const struct candidates *from = reference_candidates(b, &weighed);
    struct echelon kept = {.count = 0, .cancellations = 0};
    for (size_t i = 0; i < from->count; i++) {
        const uint8_t *monomial = from->list[i].exponents;
        int values[64] = {0};
        if (from->list[i].divisors > b->n + 1 || lead_divides(b, monomial))
            continue;
        values_at_points(b, monomial, values);
        int found = kept.count;
        if (depends(&kept, b->p, b->n, values))
            memcpy(b->leads + 8 * b->r++, monomial, 8);
        else
            memcpy(b->standard + 8 * found, monomial, 8);
    }
    free(weighed.list);
    if (kept.count != b->n)
        abort();
    b->cancellations = kept.cancellations;
}

static void swap_rows(int a[128], int b[128])
{
    int kept[128];
    memcpy(kept, a, sizeof kept);
    memcpy(a, b, sizeof kept);
    memcpy(b, kept, sizeof kept);
}

/* Gauss and Jordan: beside the matrix of values (row: point; column: standard monomial) the identity
 * becomes the inverse. */
static void invert(struct basis *b)
{
    static _Thread_local int work[64][128];
    int n = b->n, p = b->p;
    memset(work, 0, sizeof work);
    for (int q = 0; q < n; q++) {
        for (int t = 0; t < n; t++)
            work[q][t] = reference_value(p, b->standard + 8 * t, b->states + 8 * q);
        work[q][n + q] = 1;
    }
    for (int t = 0; t < n; t++) {
        int q = t;
        while (work[q][t] == 0)
            q++;
        swap_rows(work[t], work[q]);
        int scale = inverse_of(p, work[t][t]);
        for (int i = 0; i < 2 * n; i++)
            work[t][i] = work[t][i] * scale % p;
        for (int other = 0; other < n; other++) {
            int times = other == t ? 0 : work[other][t];
            for (int i = 0; times != 0 && i < 2 * n; i++)
                work[other][i] = (work[other][i] + (p - times) * work[t][i]) % p;
        }
    }
    for (int t = 0; t < n; t++)
        memcpy(b->inverse[t], work[t] + n, (size_t)n * sizeof(int));
}

void reference_solve(const struct basis *b, const int values[64], uint8_t coefficients[64])
{
    memset(coefficients, 0, 64);
    for (int t = 0; t < b->n; t++) {
        int sum = 0;
        for (int q = 0; q < b->n; q++)
            sum += b->inverse[t][q] * values[q];
        coefficients[t] = (uint8_t)(sum % b->p);
    }
}

/* Each row: its lead plus the combination that takes the lead's value, negated, at every point. */
static void find_rows(struct basis *b)
{
    for (int i = 0; i < b->r; i++) {
        int values[64] = {0};
        values_at_points(b, b->leads + 8 * i, values);
        for (int q = 0; q < b->n; q++)
            values[q] = (b->p - values[q]) % b->p;
        reference_solve(b, values, b->coefficients + 64 * i);
    }
}

void reference_basis(struct basis *b)
{
    b->r = 0;
    memset(b->standard, 0, sizeof b->standard);
    memset(b->leads, 0, sizeof b->leads);
    memset(b->coefficients, 0, sizeof b->coefficients);
    find_monomials(b);
    invert(b);
    find_rows(b);
}
