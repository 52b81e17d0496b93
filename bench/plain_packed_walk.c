/* Packed drawing up in plain C: the monomials in increasing order, and what is left of each one's column. */
#include "plain_packed.h"

static inline void put_lead(struct packed *d, uint64_t exponents, uint64_t row)
{
    put_eight(d->leads + 8 * d->r, exponents);
    d->lead_row[d->r++] = row;
}

/* Which of 64 numbers have the bits of another. */
#define S1(l) (((l) & 1 ? 0xaaaaaaaaaaaaaaaau : ~(uint64_t)0) & ((l) & 2 ? 0xccccccccccccccccu : ~(uint64_t)0) &  \
               ((l) & 4 ? 0xf0f0f0f0f0f0f0f0u : ~(uint64_t)0) & ((l) & 8 ? 0xff00ff00ff00ff00u : ~(uint64_t)0) &  \
               ((l) & 16 ? 0xffff0000ffff0000u : ~(uint64_t)0) & ((l) & 32 ? 0xffffffff00000000u : ~(uint64_t)0))
#define S4(l) S1(l), S1((l) + 1), S1((l) + 2), S1((l) + 3)
#define S16(l) S4(l), S4((l) + 4), S4((l) + 8), S4((l) + 12)
static const uint64_t MULTIPLES[64] = {S16(0), S16(16), S16(32), S16(48)};

static void pass_multiples(struct packed *d, unsigned monomial)
{
    uint64_t multiples = MULTIPLES[monomial & 63];
    unsigned high = monomial >> 6;
    for (unsigned w = 0; w < 4; w++)
        d->known[w] |= (w & high) == high ? multiples : 0;
}

/* Rows that are not 0 at the new pivot lose the new row; that bit then is their coefficient of the new monomial. */
static void exchange(struct packed *d, unsigned pivot, uint64_t other)
{
    unsigned found = d->found;
    uint64_t *row = d->row;
    for (unsigned j = 0; j < found; j++)
        row[j] ^= other & -(row[j] >> pivot & 1);
}

/* Examines a monomial whose proper divisors are all standard. Laid into each of the three walks it would be slower. */
__attribute__((noinline)) static void examine(struct packed *d, unsigned monomial)
{
    uint64_t own, row, left;
    if (monomial == 0)
        own = d->n == 64 ? ~(uint64_t)0 : ((uint64_t)1 << d->n) - 1;
    else
        own = d->value[monomial & (monomial - 1)] & d->column[__builtin_ctz(monomial)];
    row = own & ~d->pivots;
    for (left = own & d->pivots; left != 0; left &= left - 1)
        row ^= d->row[d->row_of[__builtin_ctzll(left)]];
    uint64_t exponents = spread_bits(d->spread, monomial << d->shift), values = row & ~d->pivots;
    if (values == 0) {
        put_lead(d, exponents, row);
        pass_multiples(d, monomial);
        return;
    }
    unsigned pivot = (unsigned)__builtin_ctzll(values), found = d->found;
    uint64_t bit = (uint64_t)1 << pivot;
    exchange(d, pivot, row ^ bit);
    d->row[found] = row;
    d->row_of[pivot] = (uint8_t)found;
    d->pivots |= bit;
    d->value[monomial] = own;
    put_eight(d->standard + 8 * found, exponents);
    if ((monomial & (monomial - 1)) == 0 && monomial != 0)
        d->variable[__builtin_ctz(monomial)] = bit;
    d->found = found + 1;
}

/* The square of a variable, where the variable is standard. */
static void examine_square(struct packed *d, unsigned bit)
{
    if (d->variable[bit] != 0)
        put_lead(d, 2 * spread_bits(d->spread, 1u << bit << d->shift), d->variable[bit]);
}

/* Which of 64 numbers have so many ones. */
static const uint64_t DEGREE[9] = {0x0000000000000001u, 0x0000000100010116u, 0x0001011601161668u,
                                   0x0116166816686880u, 0x1668688068808000u, 0x6880800080000000u,
                                   0x8000000000000000u, 0, 0};

/* The monomials of a degree among those of a word that are not known to be multiples. */
static inline uint64_t open_ones(const struct packed *d, unsigned degree, unsigned word)
{
    unsigned high = (word & 1) + (word >> 1);
    return degree < high ? 0 : DEGREE[degree - high] & ~d->known[word];
}

static inline unsigned words(const struct packed *d)
{
    return d->m > 6 ? 1u << (d->m - 6) : 1;
}

/* x1 is the highest bit. x_k^2 comes behind what has no bit above that of x_k. */
static void walk_lex(struct packed *d)
{
    unsigned square = 0;
    for (unsigned w = 0; w < words(d); w++)
        for (uint64_t bits = ~d->known[w]; bits != 0;) {
            unsigned low = (unsigned)__builtin_ctzll(bits), monomial = 64 * w + low;
            for (; monomial >> (square + 1) != 0; square++)
                examine_square(d, square);
            examine(d, monomial);
            bits = ~d->known[w] & (~(uint64_t)1 << low);
        }
    for (; square < d->m; square++)
        examine_square(d, square);
}

/* The same within each degree. */
static void walk_grlex(struct packed *d)
{
    for (unsigned degree = 0; degree <= d->m || degree == 2; degree++) {
        unsigned square = degree == 2 ? 0 : d->m;
        uint64_t any = 0;
        for (unsigned w = 0; w < words(d); w++) {
            uint64_t bits = open_ones(d, degree, w);
            any |= bits;
            for (; bits != 0; bits &= bits - 1) {
                unsigned monomial = 64 * w + (unsigned)__builtin_ctzll(bits);
                for (; square < d->m && monomial >> (square + 1) != 0; square++)
                    examine_square(d, square);
                examine(d, monomial);
            }
        }
        for (; square < d->m; square++)
            examine_square(d, square);
        if (any == 0 && degree >= 2)
            return;
    }
}

/* x1 is the lowest bit; the greater number is the smaller monomial. x_k^2 comes directly before what has the bit of x_k as
 * its highest. */
static void walk_grevlex(struct packed *d)
{
    for (unsigned degree = 0; degree <= d->m || degree == 2; degree++) {
        unsigned square = degree == 2 ? d->m : 0; /* those below are to come */
        uint64_t any = 0;
        for (unsigned w = words(d); w-- > 0;) {
            uint64_t bits = open_ones(d, degree, w);
            any |= bits;
            while (bits != 0) {
                unsigned high = 63 - (unsigned)__builtin_clzll(bits), monomial = 64 * w + high;
                bits ^= (uint64_t)1 << high;
                for (; square > 0 && monomial >> (square - 1) <= 1; square--)
                    examine_square(d, square - 1);
                examine(d, monomial);
            }
        }
        while (square > 0)
            examine_square(d, --square);
        if (any == 0 && degree >= 2)
            return;
    }
}

void packed_walk(struct packed *d, uint64_t order)
{
    if (order == 0)
        walk_lex(d);
    else if (order == 1)
        walk_grlex(d);
    else
        walk_grevlex(d);
}
