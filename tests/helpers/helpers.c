/* The header's helpers over whole sheets against the plain calls: the same random call is made both ways on equal sheets,
 * and refusal, counts and every byte have to be equal afterwards; and after a refusal every byte as it was before. Leaving a
 * variable out is in leaving.h, running a time course in courses.h, a sheet as JSON in json.h.
 * usage: helpers CALLS [SEED] */
#include "json.h"

#include <stdio.h>
#include <stdlib.h>

enum kind { ADD, WITHDRAW, DRAW_UP, PACKED, CHECK, INTERPOLATE, REMAINDER, WIRING, KINDS, INIT = KINDS, LEAVE_OUT, COURSE, WRITE_JSON, READ_JSON, HELPERS };

/* What a call is handed beside the sheet, and what it answers. */
struct terms {
    uint8_t levels[600], exponents[8 * 300];
    size_t levels_length, exponents_length, out_length;
};
struct ends {
    uint32_t refusal, count;
    uint8_t out[80];
};

static long seen[HELPERS][32];

/* The plain calls, their arguments written out. */
static struct ends plainly(enum kind kind, struct misqafur_sheet *s, const struct terms *t, struct ends ends)
{
    uint32_t answer = 0;
#define SETTINGS s->modulus, s->variables, s->order, s->weights
#define SHEET SETTINGS, s->n, s->r, TABLES
#define TABLES s->states, 512, s->standard, 512, s->leads, 3592, s->coefficients, 28736, s->counts, 64
    if (kind == ADD)
        answer = misqafur_add_point(SHEET, t->levels, t->levels_length);
    if (kind == WITHDRAW)
        answer = misqafur_withdraw_point(SHEET, t->levels, t->levels_length);
    if (kind == DRAW_UP)
        answer = (uint32_t)misqafur_draw_up(SETTINGS, TABLES, t->levels, t->levels_length);
    if (kind == PACKED)
        answer = misqafur_draw_up_packed(SETTINGS, TABLES, t->levels, t->levels_length);
    if (kind == CHECK)
        answer = misqafur_check(SHEET);
    if (kind == INTERPOLATE)
        answer = misqafur_interpolate(SHEET, t->levels, t->levels_length, ends.out, t->out_length);
    if (kind == REMAINDER)
        answer = misqafur_remainder(SHEET, t->levels, t->levels_length, t->exponents, t->exponents_length, ends.out,
                                    t->out_length);
    if (kind == WIRING)
        answer = misqafur_wiring(SHEET, t->levels, t->levels_length, ends.out, t->out_length);
    ends.refusal = answer & 255u;
    if (ends.refusal == 0 && kind <= PACKED) {
        s->n = (answer >> 8) & 255u;
        s->r = answer >> 16;
    }
    if (ends.refusal == 0 && kind == WIRING)
        ends.count = answer >> 8;
    return ends;
}

static struct ends by_helper(enum kind kind, struct misqafur_sheet *s, const struct terms *t, struct ends ends)
{
    switch (kind) {
    case ADD: ends.refusal = misqafur_sheet_add(s, t->levels, t->levels_length); break;
    case WITHDRAW: ends.refusal = misqafur_sheet_withdraw(s, t->levels, t->levels_length); break;
    case DRAW_UP: ends.refusal = misqafur_sheet_draw_up(s, t->levels, t->levels_length); break;
    case PACKED: ends.refusal = misqafur_sheet_draw_up_packed(s, t->levels, t->levels_length); break;
    case CHECK: ends.refusal = misqafur_sheet_check(s); break;
    case INTERPOLATE:
        ends.refusal = misqafur_sheet_interpolate(s, t->levels, t->levels_length, ends.out, t->out_length);
        break;
    case REMAINDER:
        ends.refusal = misqafur_sheet_remainder(s, t->levels, t->levels_length, t->exponents, t->exponents_length, ends.out,
                                                t->out_length);
        break;
    default:
        ends.refusal = misqafur_sheet_wiring(s, t->levels, t->levels_length, ends.out, t->out_length, &ends.count);
    }
    return ends;
}

/* So many points modulo 2, each another one where there are as many. */
static void make_bits(uint8_t *levels, uint32_t m, uint32_t points)
{
    const uint32_t turned = below(256);
    for (uint32_t i = 0; i < points; i++)
        for (uint32_t k = 0; k < m; k++)
            levels[m * i + k] = (uint8_t)((i ^ turned) >> k & 1u);
}

/* Levels, values or terms that fit the sheet, or now and then do not. */
static void make_terms(struct terms *t, enum kind kind, const struct misqafur_sheet *s)
{
    const uint32_t p = (uint32_t)s->modulus, m = (uint32_t)s->variables, n = (uint32_t)s->n;
    const uint32_t draws = kind == DRAW_UP || kind == PACKED, many = kind == PACKED ? 3 : 6;
    const uint32_t often = draws && m <= 2 && below(many) == 0;
    const uint32_t points = often ? 250 + below(12) : below(many) == 0 ? 60 + below(8) : below(12);
    const uint32_t terms = rarely() ? 250 + below(9) : below(6);
    t->levels_length = (kind <= WITHDRAW ? m : draws ? m * points : kind == REMAINDER ? terms : n) + rarely();
    t->exponents_length = 8 * t->levels_length + rarely();
    t->out_length = (kind == WIRING ? 8 : 64) - rarely() + below(3);
    for (size_t i = 0; i < sizeof t->levels; i++)
        t->levels[i] = misqafur_level((int)below(2 * p - 1) - (int)(p - 1));
    if (often)
        memset(t->levels, 0, sizeof t->levels);
    else if (kind == PACKED && points >= 60)
        make_bits(t->levels, m, points);
    if (rarely() && t->levels_length > 0)
        t->levels[below((uint32_t)t->levels_length)] = misqafur_level((int)p);
    for (size_t i = 0; i < sizeof t->exponents; i++)
        t->exponents[i] = (uint8_t)(i % 8 < m ? below(4) : 0);
    if (n > 0 && ((kind == WITHDRAW && below(3) != 0) || (kind == ADD && below(4) == 0)))
        memcpy(t->levels, s->states + 8 * below(n), 8);
}

/* A helper has answered: counted by its refusal. A refused one has left the sheet, and what it answers to, byte for byte. */
static void answered(enum kind kind, long index, const struct misqafur_sheet *sheet, const struct misqafur_sheet *was,
                     struct ends ends, struct ends before)
{
    seen[kind][ends.refusal & 31]++;
    if (ends.refusal == 0)
        return;
    expect(memcmp(sheet, was, sizeof *sheet) == 0, "refused, and yet the sheet has changed", index);
    expect(ends.count == before.count && memcmp(ends.out, before.out, sizeof ends.out) == 0,
           "refused, and yet an answer was written", index);
}

/* One call both ways; now and then the sheet handed in is a damaged copy. */
static void try_call(long index, struct misqafur_sheet *sheet)
{
    static struct misqafur_sheet ours, theirs, was;
    struct terms terms;
    struct ends before = {99, 99, {0}}, plain, helped;
    enum kind kind = below(2) == 0 ? ADD : (enum kind)below(KINDS);
    const int damaged = rarely() == 1;
    if (sheet->n > 0 && rarely())
        memset(sheet->counts, 255 - (int)below(3), sheet->n);
    make_terms(&terms, kind, sheet);
    memset(before.out, 170, sizeof before.out);
    ours = *sheet;
    if (damaged)
        damage(&ours);
    theirs = was = ours;
    plain = plainly(kind, &theirs, &terms, before);
    helped = by_helper(kind, &ours, &terms, before);
    expect(memcmp(&plain, &helped, sizeof plain) == 0, "what is answered", index);
    expect(memcmp(&ours, &theirs, sizeof ours) == 0, "the sheet", index);
    answered(kind, index, &ours, &was, helped, before);
    if (!damaged)
        *sheet = ours;
}

/* A fresh sheet: settings that are taken or not, and as document 01 has it. */
static void begin(long index, struct misqafur_sheet *sheet)
{
    static struct misqafur_sheet was;
    const struct ends before = {99, 99, {0}};
    struct ends ends = before;
    static const uint8_t zeros[MISQAFUR_COEFFICIENTS_SIZE] = {0};
    uint64_t p, m, order, weights;
    const uint32_t due = make_settings(&p, &m, &order, &weights);
    if (below(2) == 0)
        memset(sheet, 170, sizeof *sheet);
    was = *sheet;
    ends.refusal = misqafur_sheet_init(sheet, p, m, order, weights);
    expect(ends.refusal == due, "the refusal of settings", index);
    answered(INIT, index, sheet, &was, ends, before);
    if (due != 0)
        expect(misqafur_sheet_init(sheet, p = 5, m = 2, order = MISQAFUR_GREVLEX, weights = 0) == 0, "settings that are taken",
               index);
    expect(sheet->modulus == p && sheet->variables == m && sheet->order == order && sheet->weights == weights &&
               sheet->n == 0 && sheet->r == 1 && memcmp(sheet->states, zeros, 512) == 0 && memcmp(sheet->standard, zeros, 512) == 0 &&
               memcmp(sheet->leads, zeros, 3592) == 0 && memcmp(sheet->coefficients, zeros, 28736) == 0 &&
               memcmp(sheet->counts, zeros, 64) == 0,
           "the fresh sheet", index);
}

/* Every refusal has a sentence of its own, and every other number the last one. */
static void texts(void)
{
    for (uint32_t a = 0; a < 256; a++)
        for (uint32_t b = 0; b < a; b++)
            expect((strcmp(misqafur_refusal_text(a), misqafur_refusal_text(b)) == 0) == (b > MISQAFUR_REFUSED_JSON_FORM),
                   "the sentences of refusals", (long)a);
}

/* With enough calls, each helper was taken and refused in the ways that it can be. */
static void all_seen(void)
{
    static const int due[HELPERS][11] = {{0, 15, 7, 9, 10, 13},   {0, 15, 7, 9, 10, 12}, {0, 15, 7, 8, 9, 13},
                                        {0, 3, 15, 7, 8, 9, 13}, {0, 15, 10},           {0, 15, 6, 7, 9, 10},
                                        {0, 15, 6, 7, 8, 9, 10}, {0, 15, 6, 7, 9, 10},  {0, 3, 4, 5, 15},
                                        {0, 15, 16, 6, 8, 10, 13}, {0, 2, 3, 15, 9, 17, 8, 13, 18},
                                        {0, 15, 6, 8, 10},       {0, 1, 19, 3, 4, 5, 15, 8, 10}};
    for (int kind = 0; kind < HELPERS; kind++)
        for (int i = 0; i < 11; i++)
            expect(seen[kind][due[kind][i]] > 0, "an answer that never came", 10 * kind + due[kind][i]);
}

int main(int count, char **words)
{
    static struct misqafur_sheet sheet;
    const long calls = count > 1 ? atol(words[1]) : 20000;
    state = count > 2 ? strtoull(words[2], NULL, 10) * 2 + 1 : 1;
    for (long i = 0; i < calls; i++) {
        if (i % 60 == 0)
            begin(i, &sheet);
        try_call(i, &sheet);
        seen[LEAVE_OUT][try_leaving(i, &sheet) & 31]++;
        if (i % 4 == 0)
            seen[COURSE][try_course(i) & 31]++;
        if (i % 4 == 1) {
            seen[WRITE_JSON][try_write_json(i, &sheet) & 31]++;
            seen[READ_JSON][try_read_json(i, &sheet) & 31]++;
        }
    }
    texts();
    expect(misqafur_version() == MISQAFUR_VERSION_NUMBER, "the version", 0);
    if (calls >= 40000)
        all_seen();
    printf("helpers: %ld passed, %ld failed\n", passed, failed);
    return failed != 0 || passed == 0;
}
