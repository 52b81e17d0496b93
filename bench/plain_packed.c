/* Packed drawing up in plain C: the points as columns, and the rows as bytes. */
#include "plain_packed.h"

struct points {
    unsigned n;
    uint8_t key[64]; /* bit 7 - k is x_(k+1) */
    uint8_t counts[64];
};

/* The levels from `from` on as bits, in eight bytes. */
static inline uint64_t load(const uint8_t *from, size_t bytes)
{
    uint64_t x = 0;
    memcpy(&x, from, bytes);
    return x & ONES;
}

static int in_range(const uint8_t *levels, size_t length)
{
    uint8_t outside = 0;
    for (size_t i = 0; i < length; i++)
        outside |= (uint8_t)(levels[i] + 1) > 2;
    return !outside;
}

/* The distinct points in order of arrival, with their counts; 0, 8 or 13. */
static unsigned gather(struct points *to, unsigned m, const uint8_t *levels, size_t length)
{
    uint8_t place[256]; /* one more than where a point stands; 0 for none */
    uint64_t mask = m == 8 ? ~(uint64_t)0 : ((uint64_t)1 << 8 * m) - 1;
    unsigned n = 0, often = 0;
    memset(place, 0, sizeof place);
    for (size_t i = 0; i < length; i += m) {
        uint64_t x = (i + 8 <= length ? load(levels + i, 8) : load(levels + i, length - i)) & mask;
        uint8_t key = (uint8_t)(x * RISING >> 56);
        unsigned at = place[key];
        if (at == 0) {
            if (n == 64)
                return 8;
            to->key[n] = key;
            to->counts[n] = 1;
            place[key] = (uint8_t)++n;
        } else {
            often |= to->counts[at - 1] == 255;
            to->counts[at - 1]++;
        }
    }
    to->n = n;
    return often ? 13 : 0;
}

static void put_states(const struct points *points, uint8_t *states, uint8_t *counts)
{
    unsigned n = points->n;
    for (unsigned i = 0; i < n; i++)
        put_eight(states + 8 * i, spread_bits(FALLING, points->key[i]));
    memset(states + 8 * n, 0, MISQAFUR_STATES_SIZE - 8 * n);
    memcpy(counts, points->counts, n);
    memset(counts + n, 0, MISQAFUR_COUNTS_SIZE - n);
}

/* The columns of the variables: bit i of each is point i's. */
static void put_columns(struct packed *d, struct points *points, int falling)
{
    unsigned n = points->n;
    memset(points->key + n, 0, 64 - n);
    for (unsigned k = 0; k < d->m; k++) {
        uint64_t column = 0;
        for (unsigned i = 0; i < n; i += 8) {
            uint64_t eight;
            memcpy(&eight, points->key + i, 8);
            column |= ((eight >> (7 - k) & ONES) * FALLING >> 56) << i;
        }
        d->column[falling ? d->m - 1 - k : k] = column;
    }
}

/* Eight bits as eight bytes. */
#define E1(b) ((uint64_t)((b) & 1) | (uint64_t)((b) >> 1 & 1) << 8 | (uint64_t)((b) >> 2 & 1) << 16 |             \
               (uint64_t)((b) >> 3 & 1) << 24 | (uint64_t)((b) >> 4 & 1) << 32 | (uint64_t)((b) >> 5 & 1) << 40 | \
               (uint64_t)((b) >> 6 & 1) << 48 | (uint64_t)((b) >> 7) << 56)
#define E4(b) E1(b), E1((b) + 1), E1((b) + 2), E1((b) + 3)
#define E16(b) E4(b), E4((b) + 4), E4((b) + 8), E4((b) + 12)
#define E64(b) E16(b), E16((b) + 16), E16((b) + 32), E16((b) + 48)
static const uint64_t EIGHT[256] = {E64(0), E64(64), E64(128), E64(192)};

/* Writes the rows of the leads. Of each four places a table has the sixteen words that they can stand for. */
static void put_rows(const struct packed *d, uint8_t *coefficients)
{
    uint64_t table[16][16];
    unsigned fours = (d->n + 3) / 4;
    for (unsigned k = 0; k < fours; k++) {
        uint64_t *t = table[k], a = (uint64_t)1 << d->row_of[4 * k], b = (uint64_t)1 << d->row_of[4 * k + 1];
        uint64_t c = (uint64_t)1 << d->row_of[4 * k + 2], e = (uint64_t)1 << d->row_of[4 * k + 3];
        t[0] = 0, t[1] = a, t[2] = b, t[3] = a | b;
        for (unsigned x = 0; x < 4; x++)
            t[4 + x] = t[x] | c;
        for (unsigned x = 0; x < 8; x++)
            t[8 + x] = t[x] | e;
    }
    for (unsigned i = 0; i < d->r; i++) {
        uint64_t row = d->lead_row[i], sorted = 0;
        for (unsigned k = 0; k < fours; k++)
            sorted |= table[k][row >> 4 * k & 15];
        for (unsigned k = 0; k < 8; k++)
            put_eight(coefficients + 64 * i + 8 * k, EIGHT[sorted >> 8 * k & 255]);
    }
}

/* Nothing found yet, and no monomial known that has a variable above m. */
static void begin(struct packed *d, unsigned m, unsigned n, int falling, uint8_t *standard, uint8_t *leads)
{
    unsigned words = m > 6 ? 1u << (m - 6) : 1;
    d->m = m;
    d->n = n;
    d->found = d->r = 0;
    d->pivots = 0;
    d->spread = falling ? FALLING : RISING;
    d->shift = falling ? 8 - m : 0;
    d->standard = standard;
    d->leads = leads;
    memset(d->variable, 0, sizeof d->variable);
    memset(d->row_of, 0, sizeof d->row_of);
    for (unsigned w = 0; w < 4; w++)
        d->known[w] = w < words ? 0 : ~(uint64_t)0;
    if (m < 6)
        d->known[0] = ~(uint64_t)0 << (1u << m);
}

uint32_t plain_draw_up_packed(uint64_t modulus, uint64_t variables, uint64_t order, uint64_t weights,
                              uint8_t *states, size_t states_length, uint8_t *standard, size_t standard_length,
                              uint8_t *leads, size_t leads_length, uint8_t *coefficients, size_t coefficients_length,
                              uint8_t *counts, size_t counts_length, const uint8_t *levels, size_t levels_length)
{
    struct packed d;
    struct points points;
    if (modulus != 2)
        return 3;
    if (variables < 1 || variables > 8)
        return 4;
    if (order > 2)
        return 5;
    if (weights != 0)
        return 15;
    if (states_length < MISQAFUR_STATES_SIZE || standard_length < MISQAFUR_STANDARD_SIZE ||
        leads_length < MISQAFUR_LEADS_SIZE || coefficients_length < MISQAFUR_COEFFICIENTS_SIZE ||
        counts_length < MISQAFUR_COUNTS_SIZE)
        return 6;
    if (levels_length % variables != 0)
        return 7;
    if (!in_range(levels, levels_length))
        return 9;
    unsigned refusal = gather(&points, (unsigned)variables, levels, levels_length);
    if (refusal != 0)
        return refusal;
    begin(&d, (unsigned)variables, points.n, order != 2, standard, leads);
    put_states(&points, states, counts);
    put_columns(&d, &points, order != 2);
    packed_walk(&d, order);
    put_rows(&d, coefficients);
    memset(standard + 8 * d.found, 0, MISQAFUR_STANDARD_SIZE - 8 * d.found);
    memset(leads + 8 * d.r, 0, MISQAFUR_LEADS_SIZE - 8 * d.r);
    memset(coefficients + 64 * d.r, 0, MISQAFUR_COEFFICIENTS_SIZE - 64 * d.r);
    return 256 * d.n + 65536 * d.r;
}
