/* Reading a block of the stored calls in data/changes. */
#include "changes_block.h"

#include "reference.h"
#include "stored.h"

#include <inttypes.h>
#include <stdio.h>
#include <stdlib.h>
#include <string.h>

/* The kind with this name in the files; KINDS if there is none. */
static enum kind kind_of(const char *word)
{
    int kind = 0;
    if (strcmp(word, "add") == 0)
        return ADD_POINT;
    if (strcmp(word, "withdraw") == 0)
        return WITHDRAW_POINT;
    while (kind < KINDS && strcmp(word, kind_names[kind]) != 0)
        kind++;
    return (enum kind)kind;
}

static void begin(struct block *b, const char *word)
{
    memset(b, 0, sizeof *b);
    b->run = strcmp(word, "run") == 0;
    b->call.kind = b->run ? ADD_POINT : kind_of(word);
    b->call.r = (uint64_t)b->run;
    b->known = b->call.kind != KINDS;
}

static void lend(struct block *b, enum buffer which, long length)
{
    if (length < 0 || length > ROOM)
        b->known = 0;
    else
        b->call.buffer[which] = (struct bytes){b->bytes[which], (size_t)length};
}

/* `K v..`: the bytes of a buffer. */
static void read_given(struct block *b, enum buffer which, const char *rest)
{
    static long list[ROOM];
    size_t count = numbers(rest, list, ROOM);
    if (count == 0 || count - 1 != (size_t)list[0])
        b->known = 0;
    for (size_t i = 1; i < count; i++)
        b->bytes[which][i - 1] = (uint8_t)(list[i] & 255);
    lend(b, which, (long)count - 1);
}

static void read_state(struct block *b, const char *rest)
{
    long list[8];
    size_t count = numbers(rest, list, 8);
    for (size_t k = 0; k < count; k++)
        b->points[b->points_read++ % sizeof b->points] = (uint8_t)list[k];
}

static void read_counts(struct block *b, const char *rest)
{
    long list[MISQAFUR_COUNTS_SIZE];
    b->counts_read = numbers(rest, list, MISQAFUR_COUNTS_SIZE);
    for (size_t i = 0; i < b->counts_read; i++)
        b->counts[i] = (uint8_t)list[i];
}

static void read_lengths(struct block *b, const char *rest)
{
    long lengths[TABLES];
    b->known &= numbers(rest, lengths, TABLES) == TABLES;
    memset(b->bytes, 170, TABLES * sizeof b->bytes[0]);
    if (b->based)
        b->known &= (reference_draw_up(b->base[0], b->base[1], b->base[2], b->base[3], b->bytes[STATES], ROOM,
                                       b->bytes[STANDARD], ROOM, b->bytes[LEADS], ROOM, b->bytes[COEFFICIENTS], ROOM,
                                       b->bytes[COUNTS], ROOM, b->points, b->points_read) & 255u) == 0;
    memcpy(b->bytes[COUNTS], b->counts, b->counts_read);
    for (int t = 0; b->run && t < TABLES; t++)
        memset(b->bytes[t], 0, table_sizes[t]);
    for (int t = 0; b->known && t < TABLES; t++)
        lend(b, (enum buffer)t, lengths[t]);
}

/* The tables without the variable that is left out. */
static void read_results(struct block *b, const char *rest)
{
    long lengths[TABLES];
    b->known &= numbers(rest, lengths, TABLES) == TABLES;
    memset(b->bytes[NEW_STATES], 170, TABLES * sizeof b->bytes[0]);
    for (int t = 0; b->known && t < TABLES; t++)
        lend(b, (enum buffer)(NEW_STATES + t), lengths[t]);
}

static void read_poke(struct block *b, const char *rest)
{
    long poke[3];
    if (numbers(rest, poke, 3) != 3 || poke[0] < 0 || poke[0] >= TABLES || poke[1] < 0 || poke[1] >= ROOM)
        b->known = 0;
    else
        b->bytes[poke[0]][poke[1]] = (uint8_t)poke[2];
}

static void read_segments(struct block *b, const char *rest)
{
    size_t length = 0;
    unsigned byte;
    if (strcmp(rest, "-") == 0)
        rest += 1;
    while (sscanf(rest, "%2x", &byte) == 1) {
        size_t count = 1;
        rest += strspn(rest, " ") + 2;
        if (*rest == '*')
            count = strtoul(rest + 1, (char **)&rest, 10);
        for (; count > 0 && length < ROOM; count--)
            b->bytes[GIVEN][length++] = (uint8_t)byte;
    }
    b->known &= *rest == 0;
    lend(b, GIVEN, (long)length);
}

size_t answer_buffers(enum kind kind, enum buffer which[READ])
{
    static const enum buffer read[] = {STATES, OUT, COUNTS, WEIGHTS}, run[] = {OUT, WEIGHTS};
    if (kind == READ_TEXT) {
        memcpy(which, read, sizeof read);
        return sizeof read / sizeof *read;
    }
    if (kind == READ_JSON) {
        which[0] = WEIGHTS;
        return 1;
    }
    memcpy(which, run, sizeof run);
    return kind == TIME_COURSE ? 2 : buffer_size(kind, OUT) > 0;
}

/* The answer buffers. */
static void read_lent(struct block *b, const char *rest)
{
    enum buffer which[READ];
    const size_t due = answer_buffers(b->call.kind, which);
    long lengths[READ];
    if (numbers(rest, lengths, READ) != due) {
        b->known = 0;
        return;
    }
    for (size_t i = 0; i < due; i++) {
        memset(b->bytes[which[i]], 170, ROOM);
        lend(b, which[i], lengths[i]);
    }
}

static void read_hashes(uint64_t *to, size_t most, const char *rest)
{
    char *end;
    for (size_t i = 0; i < most && *rest != 0; i++, rest = end)
        to[i] = strtoull(rest, &end, 16);
}

/* `add|withdraw K v.. returns U`: the next call of a run. */
static void read_step(struct block *b, const char *rest)
{
    long list[1 + STEP_LEVELS];
    char word[16];
    const char *returns = strstr(rest, " returns ");
    if (b->steps_read == STEPS || returns == NULL || sscanf(rest, "%15s", word) != 1) {
        b->known = 0;
        return;
    }
    struct step *step = &b->steps[b->steps_read++];
    size_t count = numbers(rest + strlen(word), list, 1 + STEP_LEVELS);
    step->kind = kind_of(word);
    step->returned = strtoull(returns + strlen(" returns "), NULL, 10);
    b->known &= step->kind <= WITHDRAW_POINT && count > 0 && count - 1 == (size_t)list[0];
    for (size_t i = 1; i < count; i++)
        step->levels[step->count++] = (uint8_t)(list[i] & 255);
}

/* Takes in a line with what is expected, or one that is not judged. */
static void take_expected(struct block *b, const char *word, const char *rest)
{
    if (strcmp(word, "returned") == 0)
        b->returned = strtoull(rest, NULL, 10);
    else if (strcmp(word, "tables") == 0)
        read_hashes(b->tables, TABLES, rest);
    else if (strcmp(word, "resulted") == 0)
        read_hashes(b->resulted, TABLES, rest);
    else if (strcmp(word, "answers") == 0)
        read_hashes(b->answers, READ, rest);
    else if (strcmp(word, "do") == 0)
        read_step(b, rest);
    else if (strcmp(word, "finally") == 0)
        b->known &= sscanf(rest, "%" SCNu64 " %" SCNu64, &b->finally[0], &b->finally[1]) == 2;
    else if (strcmp(word, "number") != 0 && strcmp(word, "shown") != 0)
        b->known = 0;
}

void block_take(struct block *b, const char *word, const char *rest)
{
    struct call *c = &b->call;
    if (strcmp(word, "call") == 0)
        begin(b, rest);
    else if (strcmp(word, "settings") == 0)
        b->known &= sscanf(rest, "%" SCNu64 " %" SCNu64 " %" SCNu64 " %" SCNu64, &c->modulus, &c->variables, &c->order,
                           &c->weights) == 4;
    else if (strcmp(word, "base") == 0)
        b->based = sscanf(rest, "%" SCNu64 " %" SCNu64 " %" SCNu64 " %" SCNu64, &b->base[0], &b->base[1], &b->base[2],
                          &b->base[3]) == 4;
    else if (strcmp(word, "state") == 0)
        read_state(b, rest);
    else if (strcmp(word, "counts") == 0)
        read_counts(b, rest);
    else if (strcmp(word, "claim") == 0)
        sscanf(rest, "%" SCNu64 " %" SCNu64, &c->n, &c->r);
    else if (strcmp(word, "lengths") == 0)
        read_lengths(b, rest);
    else if (strcmp(word, "poke") == 0)
        read_poke(b, rest);
    else if (strcmp(word, "levels") == 0 || strcmp(word, "values") == 0 || strcmp(word, "coefficients") == 0)
        read_given(b, GIVEN, rest);
    else if (strcmp(word, "exponents") == 0)
        read_given(b, EXPONENTS, rest);
    else if (strcmp(word, "gene") == 0)
        b->known &= sscanf(rest, "%" SCNu64, &c->variable) == 1;
    else if (strcmp(word, "course") == 0)
        b->known &= sscanf(rest, "%" SCNu64, &c->course) == 1;
    else if (strcmp(word, "results") == 0)
        read_results(b, rest);
    else if (strcmp(word, "text") == 0)
        read_segments(b, rest);
    else if (strcmp(word, "buffers") == 0)
        read_lent(b, rest);
    else
        take_expected(b, word, rest);
}
