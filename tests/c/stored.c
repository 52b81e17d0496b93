/* Parts "calls" and "texts": the stored results in data/. */
#define _DEFAULT_SOURCE
#include "guard.h"
#include "parts.h"
#include "reference.h"
#include "stored.h"

#include <inttypes.h>
#include <stdio.h>
#include <stdlib.h>
#include <string.h>

#define LINE 65536

/* How many results are stored: a file that ends early has fewer. */
#define STORED_CALLS 560
#define STORED_TEXTS 2115

/* One block of calls.txt: the call, which has no weights, and what is expected of it. */
struct block {
    struct call call;
    uint64_t base[3]; /* modulus, variables, order */
    uint8_t points[512];
    size_t points_read;
    long number[4];
    uint64_t hashes[TABLES];
    uint8_t answer[ROOM];
    size_t answer_length;
    uint8_t bytes[BUFFERS][ROOM];
};

/* A stored file that does not have the form expected ends the program. */
static void need(int holds)
{
    if (!holds)
        abort();
}

size_t numbers(const char *line, long *to, size_t most)
{
    size_t count = 0;
    char *end;
    for (long number = strtol(line, &end, 10); end != line && count < most; number = strtol(line, &end, 10)) {
        to[count++] = number;
        line = end;
    }
    return count;
}

/* `K v..`: the bytes of a buffer. */
static void read_buffer(struct block *b, enum buffer which, const char *line)
{
    static long list[ROOM];
    size_t count = numbers(line, list, ROOM);
    need(count > 0 && count - 1 == (size_t)list[0]);
    for (size_t i = 1; i < count; i++)
        b->bytes[which][i - 1] = (uint8_t)(list[i] & 255);
    b->call.buffer[which] = (struct bytes){b->bytes[which], count - 1};
}

static enum kind kind_of(const char *word)
{
    if (strcmp(word, "add") == 0)
        return ADD_POINT;
    if (strcmp(word, "interpolant") == 0)
        return INTERPOLATE;
    for (int kind = 0; kind < KINDS; kind++)
        if (strcmp(word, kind_names[kind]) == 0)
            return (enum kind)kind;
    abort();
}

static void begin(struct block *b, const char *word)
{
    memset(b, 0, sizeof *b);
    b->call.kind = kind_of(word);
}

static void read_point(struct block *b, const char *line)
{
    long list[8];
    size_t count = numbers(line, list, 8);
    for (size_t k = 0; k < count; k++)
        b->points[b->points_read++] = (uint8_t)(list[k] & 255);
}

/* The tables as lent: the basis of the base, bytes past the sizes 170; for drawing up all 170. */
static void read_lengths(struct block *b, const char *line)
{
    long lengths[TABLES];
    need(numbers(line, lengths, TABLES) == TABLES);
    memset(b->bytes, 170, TABLES * sizeof b->bytes[0]);
    if (b->call.kind != DRAW_UP)
        need((reference_draw_up(b->base[0], b->base[1], b->base[2], 0, b->bytes[STATES], ROOM,
                                b->bytes[STANDARD], ROOM, b->bytes[LEADS], ROOM, b->bytes[COEFFICIENTS], ROOM,
                                b->bytes[COUNTS], ROOM, b->points, b->points_read) & 255u) == 0);
    for (int t = 0; t < TABLES; t++)
        b->call.buffer[t] = (struct bytes){b->bytes[t], (size_t)lengths[t]};
}

static void read_poke(struct block *b, const char *line)
{
    long poke[3];
    need(numbers(line, poke, 3) == 3);
    b->bytes[poke[0]][poke[1]] = (uint8_t)poke[2];
}

static void read_out(struct block *b, const char *line)
{
    memset(b->bytes[OUT], 170, ROOM);
    b->call.buffer[OUT] = (struct bytes){b->bytes[OUT], (size_t)strtoul(line, NULL, 10)};
}

static void read_answer(struct block *b, const char *line)
{
    static long list[ROOM];
    b->answer_length = numbers(line, list, ROOM);
    for (size_t i = 0; i < b->answer_length; i++)
        b->answer[i] = (uint8_t)list[i];
}

/* Takes in one line of a block. */
static void take(struct block *b, const char *word, const char *rest)
{
    struct call *c = &b->call;
    if (strcmp(word, "call") == 0)
        begin(b, rest);
    else if (strcmp(word, "settings") == 0)
        need(sscanf(rest, "%" SCNu64 " %" SCNu64 " %" SCNu64, &c->modulus, &c->variables, &c->order) == 3);
    else if (strcmp(word, "base") == 0)
        need(sscanf(rest, "%" SCNu64 " %" SCNu64 " %" SCNu64, &b->base[0], &b->base[1], &b->base[2]) == 3);
    else if (strcmp(word, "state") == 0)
        read_point(b, rest);
    else if (strcmp(word, "claim") == 0)
        need(sscanf(rest, "%" SCNu64 " %" SCNu64, &c->n, &c->r) == 2);
    else if (strcmp(word, "lengths") == 0)
        read_lengths(b, rest);
    else if (strcmp(word, "poke") == 0)
        read_poke(b, rest);
    else if (strcmp(word, "levels") == 0 || strcmp(word, "values") == 0 || strcmp(word, "coefficients") == 0)
        read_buffer(b, GIVEN, rest);
    else if (strcmp(word, "exponents") == 0)
        read_buffer(b, EXPONENTS, rest);
    else if (strcmp(word, "buffer") == 0)
        read_out(b, rest);
    else if (strcmp(word, "number") == 0)
        need(numbers(rest, b->number, 4) > 0);
    else if (strcmp(word, "tables") == 0)
        need(sscanf(rest, "%" SCNx64 " %" SCNx64 " %" SCNx64 " %" SCNx64 " %" SCNx64, &b->hashes[0], &b->hashes[1],
                    &b->hashes[2], &b->hashes[3], &b->hashes[4]) == TABLES);
    else if (strcmp(word, "answer") == 0)
        read_answer(b, rest);
    else
        need(0);
}

uint64_t hash(const struct bytes *bytes)
{
    uint64_t h = 0xcbf29ce484222325u;
    for (size_t i = 0; i < bytes->length; i++)
        h = (h ^ bytes->at[i]) * 0x100000001b3u;
    return h;
}

/* The number that a block expects. */
static uint64_t expected_number(const struct block *b)
{
    uint64_t first = (uint64_t)b->number[1], second = (uint64_t)b->number[2];
    if (b->number[0] != 0)
        return (uint64_t)b->number[0];
    if (b->call.kind == ADD_POINT || b->call.kind == DRAW_UP)
        return 256 * first + 65536 * second + ((uint64_t)b->number[3] << 32);
    return b->call.kind == WIRING ? 256 * first : 0;
}

static int block_holds(struct guard *guard, const struct block *b, uint64_t choice)
{
    struct call lent = guard_lend(guard, &b->call, choice);
    performing = "a block of calls.txt";
    uint64_t number = perform(&archive, &lent);
    if (number != expected_number(b) || !guard_intact(guard))
        return 0;
    for (int t = 0; t < TABLES; t++)
        if (hash(&lent.buffer[t]) != b->hashes[t])
            return 0;
    for (int i = GIVEN; i <= EXPONENTS; i++)
        if (hash(&lent.buffer[i]) != hash(&b->call.buffer[i]))
            return 0;
    struct bytes *out = &lent.buffer[OUT];
    return out->length == b->answer_length && (out->length == 0 || memcmp(out->at, b->answer, out->length) == 0);
}

static FILE *open_data(const char *folder, const char *name)
{
    char path[4096];
    snprintf(path, sizeof path, "%s/%s", folder, name);
    FILE *file = fopen(path, "r");
    if (file == NULL) {
        perror(path);
        exit(2);
    }
    return file;
}

/* Whether as many results were tried as are stored. */
static int all_read(const struct score *score, long stored, const char *name)
{
    long tried = score->passed + score->failed;
    if (tried != stored)
        fprintf(stderr, "%s: %ld results tried, %ld are stored\n", name, tried, stored);
    return tried == stored;
}

struct score stored_calls(const struct options *options)
{
    static char line[LINE];
    static struct block block;
    struct score score = {0, 0};
    struct guard *guard = guard_new();
    FILE *file = open_data(options->data, "calls.txt");
    for (long at = 1; fgets(line, LINE, file) != NULL; at++) {
        line[strcspn(line, "\n")] = 0;
        char *rest = line + strcspn(line, " ");
        if (*rest != 0)
            *rest++ = 0;
        if (strcmp(line, "end") != 0) {
            take(&block, line, rest);
            continue;
        }
        int holds = block_holds(guard, &block, 0) && block_holds(guard, &block, UINT64_MAX);
        if (!holds)
            fprintf(stderr, "calls.txt: the block that ends at line %ld does not hold\n", at);
        count(&score, holds);
    }
    count(&score, all_read(&score, STORED_CALLS, "calls.txt"));
    fclose(file);
    guard_free(guard);
    return score;
}

/* The reader's number that a line of fuzz.txt expects. */
static uint64_t expected_reading(const char *result)
{
    uint64_t a, b, c, d;
    if (sscanf(result, "refused %" SCNu64 " %" SCNu64, &a, &b) == 2)
        return a + 256 * b;
    if (sscanf(result, "read %" SCNu64 " %" SCNu64 " %" SCNu64 " %" SCNu64, &a, &b, &c, &d) == 4)
        return 256 * d + 65536 * a + (b << 24) + (c << 32);
    abort();
}

/* The stored line gives the number; the reference gives the residues, the counts and the weights. As courses, in which the values
 * are numbers, the text is refused alike where the reader refuses its length, its header or a record's form before any number. */
static int text_holds(struct guard *guard, const struct call *call, uint64_t expected, uint64_t choice)
{
    static uint8_t bytes[BUFFERS][ROOM];
    struct call course = {.kind = TIME_COURSE, .course = 1};
    uint64_t number, run;
    for (int i = 0; i < BUFFERS; i++)
        course.buffer[i] = (struct bytes){bytes[i], buffer_size(TIME_COURSE, (enum buffer)i)};
    course.buffer[GIVEN] = call->buffer[GIVEN];
    if (!agrees(guard, call, choice, "fuzz.txt", &number) || !agrees(guard, &course, choice, "fuzz.txt as courses", &run))
        return 0;
    return number == expected && ((run & 255) == 2 || (number & 255) == 0 || (number & 255) > 6 || run == number);
}

struct score stored_texts(const struct options *options)
{
    static char line[LINE];
    static uint8_t text[LINE / 2], states[MISQAFUR_STATES_SIZE + 3], values[MISQAFUR_RESIDUES_SIZE + 3];
    static uint8_t counts[MISQAFUR_COUNTS_SIZE + 3], weights[MISQAFUR_WEIGHTS_SIZE + 3];
    struct score score = {0, 0};
    struct guard *guard = guard_new();
    FILE *file = open_data(options->data, "fuzz.txt");
    memset(states, 170, sizeof states);
    memset(values, 170, sizeof values);
    memset(counts, 170, sizeof counts);
    memset(weights, 170, sizeof weights);
    for (long at = 1; fgets(line, LINE, file) != NULL; at++) {
        char *result = strstr(line, " -> ");
        need(result != NULL);
        size_t length = (size_t)(result - line) / 2;
        for (size_t i = 0; i < length; i++)
            need(sscanf(line + 2 * i, "%2hhx", &text[i]) == 1);
        struct call call = {.kind = READ_TEXT};
        call.buffer[GIVEN] = (struct bytes){text, length};
        call.buffer[STATES] = (struct bytes){states, sizeof states};
        call.buffer[OUT] = (struct bytes){values, sizeof values};
        call.buffer[COUNTS] = (struct bytes){counts, sizeof counts};
        call.buffer[WEIGHTS] = (struct bytes){weights, sizeof weights};
        int holds = text_holds(guard, &call, expected_reading(result + 4), (uint64_t)at);
        if (!holds)
            fprintf(stderr, "fuzz.txt: line %ld does not hold\n", at);
        count(&score, holds);
    }
    count(&score, all_read(&score, STORED_TEXTS, "fuzz.txt"));
    fclose(file);
    guard_free(guard);
    return score;
}
