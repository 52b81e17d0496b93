/* Two archives on the same inputs, in one process. With --smoke they are only compared by what they leave; else each line is
 * a call, its input, the nanoseconds of both and their ratio, the archive of now over that of before. The exit status tells
 * whether results agree, never a time. */
#define _POSIX_C_SOURCE 200809L
#include "side.h"

#include <stdio.h>
#include <stdlib.h>
#include <string.h>
#include <time.h>

enum call { DRAW, ADD, WITHDRAW, CHECK, INTERPOLATE, REMAINDER, WIRING, READ };
static const char *const names[CALLS] = {"draw_up",     "add_point", "withdraw_point", "check",
                                         "interpolate", "remainder", "wiring",         "read_text"};

/* How the fields of a text are written, and what its last record is. */
enum kind { PLAIN, QUOTED, KINDS };
enum last { TAKEN, OUT_OF_RANGE, BROKEN, LASTS };

#define BATCHES 61
#define LONGEST 4096

static struct task task;
static uint64_t state = 1;

static unsigned chance(unsigned below)
{
    state = state * 48271 % 2147483647;
    return (unsigned)(state >> 5) % below;
}

static void put_field(enum kind kind, const char *content, char end)
{
    const char *quote = kind == QUOTED ? "\"" : "";
    task.text_length += (size_t)sprintf((char *)task.text + task.text_length, "%s%s%s%c", quote, content, quote, end);
}

static void put_number(enum kind kind, unsigned number, char end)
{
    char digits[12];
    sprintf(digits, "%u", number);
    put_field(kind, digits, end);
}

static void make_text(enum kind kind, enum last last)
{
    static const char *const words[] = {"lex", "grlex", "grevlex"};
    char settings[32];
    task.text_length = 0;
    for (uint64_t k = 0; k < task.in.m; k++)
        put_field(kind, "gene", ',');
    sprintf(settings, "mod %u %s", (unsigned)task.in.p, words[task.in.order]);
    put_field(kind, settings, '\n');
    for (uint64_t i = 0; i < task.in.n; i++) {
        for (uint64_t k = 0; k < task.in.m; k++)
            put_number(kind, task.in.levels[task.in.m * i + k], ',');
        if (i + 1 < task.in.n || last == TAKEN)
            put_number(kind, task.values[i], '\n');
        else
            put_field(kind, last == BROKEN ? "x" : "99", '\n');
    }
}

static void make_task(uint64_t p, uint64_t m, uint64_t order, uint64_t n)
{
    static struct left left;
    input_make(&task.in, p, m, order, n);
    for (uint64_t i = 0; i < n; i++)
        task.values[i] = (uint8_t)chance((unsigned)p);
    memset(&left, 0, sizeof left);
    for (int whole = 0; whole < 2; whole++) {
        task.in.n = whole || n == 0 ? n : n - 1;
        new_side[DRAW](&task, &left, 1);
        left.lent.n = misqafur_points(left.answer);
        left.lent.r = misqafur_elements(left.answer);
        *(whole ? &task.in.whole : &task.in.before) = left.lent;
    }
}

/* Whether both leave the same, and the refusal that is due: what is measured has to be what was meant. The counts are those of
 * the archive of now, since the other one may have none. */
static int agree(enum call call, unsigned due)
{
    static struct left by_old, by_new;
    memset(&by_old, 0, sizeof by_old);
    memset(&by_new, 0, sizeof by_new);
    old_side[call](&task, &by_old, 1);
    new_side[call](&task, &by_new, 1);
    memcpy(by_old.lent.counts, by_new.lent.counts, sizeof by_old.lent.counts);
    return memcmp(&by_old, &by_new, sizeof by_old) == 0 && (by_new.answer & 255) == due;
}

/* The frame of the calls lies elsewhere in the stack in every batch: a pair of addresses that gets in its own way there would
 * else do so in all of them. */
static double nanoseconds(repeated *calls, struct left *left, unsigned times, unsigned shift)
{
    volatile char room[16 * shift + 16];
    struct timespec from, to;
    room[0] = 0;
    clock_gettime(CLOCK_MONOTONIC, &from);
    calls(&task, left, times);
    clock_gettime(CLOCK_MONOTONIC, &to);
    return (1e9 * (double)(to.tv_sec - from.tv_sec) + (double)(to.tv_nsec - from.tv_nsec)) / times + room[0];
}

static int by_size(const void *a, const void *b)
{
    double x = *(const double *)a, y = *(const double *)b;
    return (x > y) - (x < y);
}

/* The lower quartile of batches in turns. */
static void measure(enum call call, const char *input)
{
    static struct left left;
    double took[2][BATCHES];
    repeated *const sides[2] = {old_side[call], new_side[call]};
    double once = nanoseconds(sides[1], &left, 8, 0);
    unsigned times = once > 20000 ? 1 : (unsigned)(20000 / (once + 1)) + 1;
    for (int i = 0; i < BATCHES; i++) {
        unsigned shift = chance(256);
        for (int turn = 0; turn < 2; turn++) {
            int side = (i + turn) % 2;
            took[side][i] = nanoseconds(sides[side], &left, times, shift);
        }
    }
    for (int side = 0; side < 2; side++)
        qsort(took[side], BATCHES, sizeof(double), by_size);
    printf("%s %s %.1f %.1f %.4f\n", names[call], input, took[0][BATCHES / 4], took[1][BATCHES / 4],
           took[1][BATCHES / 4] / took[0][BATCHES / 4]);
}

static int visit(enum call call, int smoke, const char *kind, unsigned due)
{
    char input[64];
    sprintf(input, "p%u-m%u-n%u-order%u%s", (unsigned)task.in.p, (unsigned)task.in.m, (unsigned)task.in.n,
            (unsigned)task.in.order, kind);
    if (!agree(call, due)) {
        printf("%s %s: what is left differs, or is not refusal %u\n", names[call], input, due);
        return 1;
    }
    if (!smoke)
        measure(call, input);
    return 0;
}

static int visit_texts(int smoke)
{
    static const char *const kinds[KINDS][LASTS] = {{"", "-refused9", "-refused2"},
                                                    {"-quoted", "-quoted-refused9", "-quoted-refused2"}};
    static const unsigned due[LASTS] = {0, 9, 2};
    int failed = 0;
    for (int kind = 0; kind < KINDS; kind++)
        for (int last = 0; last < (task.in.n == 0 ? 1 : LASTS); last++) {
            make_text((enum kind)kind, (enum last)last);
            failed += visit(READ, smoke, kinds[kind][last], due[last]);
        }
    return failed;
}

static int visit_all(int smoke)
{
    static const uint64_t moduli[] = {2, 5, 61}, variables[] = {1, 2, 4, 8}, points[] = {0, 1, 2, 4, 8, 16, 32, 64};
    int failed = 0;
    for (size_t i = 0; i < 3; i++)
        for (size_t j = 0; j < 4; j++)
            for (size_t k = 0; k < 8; k++) {
                if (!input_exists(moduli[i], variables[j], points[k]))
                    continue;
                make_task(moduli[i], variables[j], (i + j + k) % 3, points[k]);
                for (int call = DRAW; call < READ; call++)
                    if (points[k] > 0 || (call != ADD && call != WITHDRAW))
                        failed += visit((enum call)call, smoke, "", 0);
                failed += visit_texts(smoke);
            }
    return failed;
}

int main(int count, char **words)
{
    int smoke = count > 1 && strcmp(words[1], "--smoke") == 0;
    if (!smoke && count > 1)
        state = 1 + strtoull(words[1], NULL, 10) % 2147483646;
    return visit_all(smoke) != 0;
}
