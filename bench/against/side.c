/* One side of the comparison. Compiled for each archive, whose calls are renamed from misqafur_CALL to SIDE_CALL; ABI is its
 * MISQAFUR_ABI: before 2 a basis had no counts, before 3 settings no weights, which are 0 here. */
#include "side.h"

#define JOINED(a, b) a##_##b
#define NAMED(a, b) JOINED(a, b)
#define CALL(call) NAMED(SIDE, call)

#if ABI < 3
#define SETTINGS uint64_t, uint64_t, uint64_t
#define GIVEN(T) (T)->in.p, (T)->in.m, (T)->in.order
#define WEIGHTS
#define LENT_WEIGHTS(T)
#else
#define SETTINGS uint64_t, uint64_t, uint64_t, uint64_t
#define GIVEN(T) (T)->in.p, (T)->in.m, (T)->in.order, 0
#define WEIGHTS , BYTES
#define LENT_WEIGHTS(T) , (T)->weights, sizeof (T)->weights
#endif
#define BYTES uint8_t *, size_t
#define READ const uint8_t *, size_t
#if ABI < 2
#define COUNTS
#define LENT_COUNTS(L)
#else
#define COUNTS , BYTES
#define LENT_COUNTS(L) , (L)->counts, sizeof (L)->counts
#endif
#define TABLES BYTES, BYTES, BYTES, BYTES COUNTS
#define HANDED(L)                                                                                          \
    (L)->states, sizeof (L)->states, (L)->standard, sizeof (L)->standard, (L)->leads, sizeof (L)->leads, \
        (L)->coefficients, sizeof (L)->coefficients LENT_COUNTS(L)

uint64_t CALL(draw_up)(SETTINGS, TABLES, READ);
uint32_t CALL(add_point)(SETTINGS, uint64_t, uint64_t, TABLES, READ);
uint32_t CALL(withdraw_point)(SETTINGS, uint64_t, uint64_t, TABLES, READ);
uint32_t CALL(check)(SETTINGS, uint64_t, uint64_t, TABLES);
uint32_t CALL(interpolate)(SETTINGS, uint64_t, uint64_t, TABLES, READ, BYTES);
uint32_t CALL(remainder)(SETTINGS, uint64_t, uint64_t, TABLES, READ, READ, BYTES);
uint32_t CALL(wiring)(SETTINGS, uint64_t, uint64_t, TABLES, READ, BYTES);
uint64_t CALL(read_text)(READ, BYTES, BYTES COUNTS WEIGHTS);

#define BASIS(L) (L)->n, (L)->r, HANDED(L)

static void draw_up(const struct task *t, struct left *to, unsigned times)
{
    for (unsigned i = 0; i < times; i++)
        to->answer = CALL(draw_up)(GIVEN(t), HANDED(&to->lent), t->in.levels, t->in.m * t->in.n);
}

/* The tables are copied first, here and in withdrawing, which costs both sides the same. */
static void add(const struct task *t, struct left *to, unsigned times)
{
    for (unsigned i = 0; i < times; i++) {
        to->lent = t->in.before;
        to->answer = CALL(add_point)(GIVEN(t), BASIS(&to->lent), t->in.levels + t->in.m * (t->in.n - 1), t->in.m);
    }
}

static void withdraw(const struct task *t, struct left *to, unsigned times)
{
    for (unsigned i = 0; i < times; i++) {
        to->lent = t->in.whole;
        to->answer = CALL(withdraw_point)(GIVEN(t), BASIS(&to->lent), t->in.levels, t->in.m);
    }
}

static void check(const struct task *t, struct left *to, unsigned times)
{
    to->lent = t->in.whole;
    for (unsigned i = 0; i < times; i++)
        to->answer = CALL(check)(GIVEN(t), BASIS(&to->lent));
}

static void interpolate(const struct task *t, struct left *to, unsigned times)
{
    to->lent = t->in.whole;
    for (unsigned i = 0; i < times; i++)
        to->answer = CALL(interpolate)(GIVEN(t), BASIS(&to->lent), t->values, t->in.n, to->out, sizeof to->out);
}

static void remainder_of(const struct task *t, struct left *to, unsigned times)
{
    to->lent = t->in.whole;
    for (unsigned i = 0; i < times; i++)
        to->answer = CALL(remainder)(GIVEN(t), BASIS(&to->lent), t->in.terms, sizeof t->in.terms, t->in.exponents,
                                     sizeof t->in.exponents, to->out, sizeof to->out);
}

static void wiring(const struct task *t, struct left *to, unsigned times)
{
    to->lent = t->in.whole;
    for (unsigned i = 0; i < times; i++)
        to->answer = CALL(wiring)(GIVEN(t), BASIS(&to->lent), t->values, t->in.n, to->out, sizeof to->out);
}

static void read_text(const struct task *t, struct left *to, unsigned times)
{
    for (unsigned i = 0; i < times; i++)
        to->answer = CALL(read_text)(t->text, t->text_length, to->lent.states, sizeof to->lent.states, to->out,
                                     sizeof to->out LENT_COUNTS(&to->lent) LENT_WEIGHTS(to));
}

repeated *const CALL(side)[CALLS] = {draw_up, add, withdraw, check, interpolate, remainder_of, wiring, read_text};
