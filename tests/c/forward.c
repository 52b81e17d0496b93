/* What is to hold of a time course run forward, from the bytes that the call left. */
#include "forward.h"

#include <stdio.h>
#include <string.h>

uint64_t put_timed(struct times *t, const uint8_t *state, int course)
{
    memset(t->at[t->count].state, 0, 8);
    memcpy(t->at[t->count].state, state, (size_t)t->m);
    t->at[t->count++].course = course;
    return t->count + 1;
}

static size_t put_header(char *text, const struct times *t)
{
    static const char *const words[4] = {" lex", " grlex", " grevlex", " weight"};
    size_t length = 0;
    for (int k = 0; k < t->m; k++)
        length += (size_t)sprintf(text + length, "g%d,", k);
    length += (size_t)sprintf(text + length, "mod %d%s", t->p, words[t->order]);
    for (int k = 0; t->order == MISQAFUR_WEIGHT && k < t->m; k++)
        length += (size_t)sprintf(text + length, " %d", (int)(t->weights >> 8 * k & 255));
    return length;
}

void times_call(struct made *made, const struct times *t, uint64_t course)
{
    struct chance *c = &made->chance;
    char *text = (char *)made->bytes[GIVEN];
    size_t length = put_header(text, t);
    for (size_t i = 0; i < t->count && length < ROOM - 64; i++) {
        length += (size_t)sprintf(text + length, "\n");
        for (int k = 0; k < t->m; k++)
            length += (size_t)sprintf(text + length, "%d,", (int8_t)random_level(c, t->p, t->at[i].state[k]));
        length += (size_t)sprintf(text + length, "%0*d", once_in(c, 4) ? 1 + (int)below(c, 3) : 1, t->at[i].course);
    }
    made->call = (struct call){.kind = TIME_COURSE, .course = course};
    for (int i = 0; i < BUFFERS; i++) {
        size_t size = buffer_size(TIME_COURSE, (enum buffer)i);
        memset(made->bytes[i], 170, size);
        lend(made, (enum buffer)i, size);
    }
    lend(made, GIVEN, length);
}

/* Each power by itself. */
unsigned monomial_value(uint64_t p, const uint8_t *exponents, const uint8_t *state)
{
    unsigned product = 1;
    for (int k = 0; k < 8; k++)
        for (int i = exponents[k]; i > 0; i--)
            product = product * state[k] % (unsigned)p;
    return product;
}

void forward(const struct misqafur_course *c, const uint8_t state[8], uint8_t next[8])
{
    const struct misqafur_sheet *s = &c->sheet;
    unsigned sums[8] = {0};
    for (uint64_t t = 0; t < s->n; t++) {
        const unsigned at = monomial_value(s->modulus, s->standard + 8 * t, state);
        for (uint64_t g = 0; g < s->variables; g++)
            sums[g] += at * c->interpolants[64 * g + t];
    }
    for (int g = 0; g < 8; g++)
        next[g] = (uint8_t)(sums[g] % (unsigned)s->modulus);
}

static int continues(const struct times *t, size_t i)
{
    return i + 1 < t->count && t->at[i + 1].course == t->at[i].course;
}

/* The points of the records with their counts, and of each one a successor. */
struct points {
    size_t n;
    uint8_t states[512], counts[64], next[64][8];
};

static void gather(const struct times *t, struct points *points)
{
    memset(points, 0, sizeof *points);
    for (size_t i = 0; i < t->count; i++) {
        size_t place = 0;
        if (!continues(t, i))
            continue;
        while (place < points->n && memcmp(points->states + 8 * place, t->at[i].state, 8) != 0)
            place++;
        points->n += place == points->n;
        points->counts[place]++;
        memcpy(points->states + 8 * place, t->at[i].state, 8);
        memcpy(points->next[place], t->at[i + 1].state, 8);
    }
}

/* The points drawn up, each once, and the counts put in: the same sheet, and over it the same interpolants. */
static int drawn_alike(const struct points *points, const struct misqafur_course *c)
{
    static struct misqafur_sheet drawn;
    const struct misqafur_sheet *s = &c->sheet;
    uint8_t levels[MISQAFUR_LEVELS_SIZE], values[64], due[MISQAFUR_INTERPOLANTS_SIZE] = {0};
    const size_t length = misqafur_pack_levels(points->states, points->n, s->variables, levels);
    if (misqafur_sheet_init(&drawn, s->modulus, s->variables, s->order, s->weights) != 0 ||
        misqafur_sheet_draw_up(&drawn, levels, length) != 0)
        return 0;
    memcpy(drawn.counts, points->counts, sizeof drawn.counts);
    for (uint64_t g = 0; g < s->variables; g++) {
        for (size_t i = 0; i < points->n; i++)
            values[i] = points->next[i][g];
        if (misqafur_sheet_interpolate(&drawn, values, points->n, due + 64 * g, 64) != 0)
            return 0;
    }
    return memcmp(&drawn, s, sizeof drawn) == 0 && memcmp(due, c->interpolants, sizeof due) == 0;
}

/* For every course of the text: the model applied k times to its first state gives its record k+1. */
static int all_forward(const struct times *t, const struct misqafur_course *c)
{
    uint8_t state[8] = {0}, next[8];
    for (size_t i = 0, k = 0; i < t->count; i++, k++) {
        if (i == 0 || !continues(t, i - 1)) {
            memcpy(state, t->at[i].state, 8);
            k = 0;
        }
        if (k <= MISQAFUR_MAX_STEPS && memcmp(state, t->at[i].state, 8) != 0)
            return 0;
        forward(c, state, next);
        memcpy(state, next, 8);
    }
    return 1;
}

/* The run of a course: the first step that gives a state met before, with its distance back, and none before it; from there on
 * as many states again as came before, each that of one distance earlier. */
static int run_holds(const struct times *t, uint64_t course, const struct misqafur_course *c)
{
    static uint8_t met[3 * MISQAFUR_MAX_STEPS][8];
    size_t first = 0, step = 0, back = 0;
    while ((uint64_t)t->at[first].course != course)
        first++;
    memcpy(met[0], t->at[first].state, 8);
    for (size_t k = 1; k < 3 * MISQAFUR_MAX_STEPS; k++) {
        forward(c, met[k - 1], met[k]);
        for (size_t j = 0; step == 0 && j < k && k <= MISQAFUR_MAX_STEPS; j++)
            if (memcmp(met[j], met[k], 8) == 0) {
                step = k;
                back = k - j;
            }
        if (step != 0 && memcmp(met[k], met[k - back], 8) != 0)
            return 0;
    }
    return step == c->step && back == c->back;
}

int course_holds(const struct times *t, uint64_t course, const struct misqafur_course *c)
{
    static struct points points;
    const struct misqafur_sheet *s = &c->sheet;
    const char *wrong = NULL;
    gather(t, &points);
    if (s->modulus != (uint64_t)t->p || s->variables != (uint64_t)t->m || s->order != t->order || s->weights != t->weights)
        wrong = "the settings";
    else if (s->n != points.n || memcmp(s->states, points.states, 512) != 0 || memcmp(s->counts, points.counts, 64) != 0)
        wrong = "the points";
    else if (!drawn_alike(&points, c))
        wrong = "the sheet or an interpolant";
    else if (!all_forward(t, c))
        wrong = "a record";
    else if (!run_holds(t, course, c))
        wrong = "the run";
    if (wrong != NULL)
        fprintf(stderr, "courses: %s does not hold\n", wrong);
    return wrong == NULL;
}
