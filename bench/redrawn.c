/* Points as residues, and tables drawn up again. */
#include "redrawn.h"

#include <string.h>

unsigned place_of(const uint8_t *points, unsigned n, const uint8_t *point)
{
    uint64_t wanted, other;
    unsigned place = n;
    memcpy(&wanted, point, 8);
    for (unsigned i = 0; i < n; i++) {
        memcpy(&other, points + 8 * i, 8);
        place = other == wanted ? i : place;
    }
    return place;
}

unsigned gather_points(unsigned p, unsigned m, size_t count, const uint8_t *levels, uint8_t *states, uint8_t *counts,
                       unsigned *n)
{
    uint8_t points[512] = {0};
    uint64_t times[64] = {0};
    unsigned found = 0, often = 0;
    for (size_t i = 0; i < count; i++) {
        uint8_t point[8] = {0};
        for (unsigned k = 0; k < m; k++)
            point[k] = residue(p, levels[m * i + k]);
        unsigned place = place_of(points, found, point);
        if (place == 64)
            return 8;
        if (place == found)
            memcpy(points + 8 * found++, point, 8);
        often |= ++times[place] > 255;
    }
    if (often)
        return 13;
    memcpy(states, points, sizeof points);
    for (unsigned i = 0; i < 64; i++)
        counts[i] = (uint8_t)times[i];
    *n = found;
    return 0;
}

/* Whether the states table holds n distinct points of m residues and zeros, and the counts are theirs. */
static int good_points(const uint8_t *states, const uint8_t *counts, unsigned p, unsigned m, unsigned n)
{
    for (unsigned i = 0; i < 64; i++)
        if ((counts[i] > 0) != (i < n))
            return 0;
    for (unsigned i = 0; i < 512; i++)
        if (states[i] > (i < 8 * n && i % 8 < m ? p - 1 : 0))
            return 0;
    for (unsigned i = 1; i < n; i++)
        if (place_of(states, i, states + 8 * i) < i)
            return 0;
    return 1;
}

int good_tables(struct tableau *t, struct redrawn *to, uint64_t modulus, uint64_t variables, uint64_t order,
                uint64_t weights, uint64_t n, uint64_t r, const uint8_t *states, const uint8_t *standard,
                const uint8_t *leads, const uint8_t *coefficients, const uint8_t *counts)
{
    if (!good_points(states, counts, (unsigned)modulus, (unsigned)variables, (unsigned)n))
        return 0;
    to->drawn.standard = to->standard;
    to->drawn.leads = to->leads;
    to->drawn.coefficients = to->coefficients;
    tableau_begin(t, (unsigned)modulus, (unsigned)variables, (unsigned)order, weights, (unsigned)n, states);
    tableau_draw(t, &to->drawn);
    return to->drawn.r == r && memcmp(to->standard, standard, sizeof to->standard) == 0 &&
           memcmp(to->leads, leads, sizeof to->leads) == 0 &&
           memcmp(to->coefficients, coefficients, sizeof to->coefficients) == 0;
}
