/* Part "json": sheets written as JSON and read back, and texts that are not such, byte by byte; every call is compared with the
 * reference. */
#define _DEFAULT_SOURCE
#include "json.h"

#include <glob.h>
#include <inttypes.h>
#include <stdio.h>
#include <stdlib.h>
#include <string.h>

void say_json(struct json *j, const char *what, uint64_t at, int holds)
{
    if (!holds)
        fprintf(stderr, "json: %s does not hold (%" PRIu64 ")\n", what, at);
    count(&j->score, holds);
}

/* Whether a text that was taken is written again from what it left, byte for byte. */
static int same_again(struct json *j, const void *text, size_t length)
{
    size_t written = 0;
    memset(&j->back, 170, sizeof j->back);
    memset(j->again, 170, sizeof j->again);
    if (misqafur_sheet_read_json(&j->back, text, length) != 0 ||
        misqafur_sheet_write_json(&j->back, j->again, sizeof j->again, &written) != 0)
        return 0;
    return written == length && memcmp(j->again, text, length) == 0;
}

uint64_t read_json(struct json *j, const char *what, uint64_t at, const void *text, size_t length)
{
    uint64_t number = 0;
    if (j->made.call.kind != READ_JSON) {
        j->made.call = (struct call){.kind = READ_JSON};
        for (int i = 0; i < BUFFERS; i++) {
            memset(j->made.bytes[i], 170, buffer_size(READ_JSON, (enum buffer)i));
            lend(&j->made, (enum buffer)i, buffer_size(READ_JSON, (enum buffer)i));
        }
    }
    j->made.call.buffer[GIVEN] = (struct bytes){(uint8_t *)text, length};
    const int agreed = agrees(j->guard, &j->made.call, at, what, &number);
    say_json(j, what, at, agreed && ((number & 255) != 0 || same_again(j, text, length)));
    return number;
}

void due_json(struct json *j, const char *what, uint64_t at, const void *text, size_t length, uint64_t due)
{
    const uint64_t number = read_json(j, what, at, text, length);
    say_json(j, what, at, number == due);
}

size_t json_there_and_back(struct json *j, const char *what, uint64_t at)
{
    struct misqafur_sheet *s = &j->sheet;
    struct call call = {.kind = WRITE_JSON, .modulus = s->modulus, .variables = s->variables, .order = s->order, .weights = s->weights,
                        .n = s->n, .r = s->r,
                        .buffer = {{s->states, sizeof s->states}, {s->standard, sizeof s->standard}, {s->leads, sizeof s->leads},
                                   {s->coefficients, sizeof s->coefficients}, {s->counts, sizeof s->counts}}};
    uint64_t number = 0;
    size_t length = 0;
    memset(j->text, 170, sizeof j->text);
    call.buffer[OUT] = (struct bytes){j->text, sizeof j->text};
    const int agreed = agrees(j->guard, &call, at, what, &number);
    const int written = misqafur_sheet_write_json(s, j->text, sizeof j->text, &length) == 0 && length == number >> 8 && (number & 255) == 0;
    say_json(j, what, at, agreed && written && same_again(j, j->text, length) && memcmp(&j->back, s, sizeof *s) == 0);
    return written ? length : 0;
}

void json_draw_up(struct json *j, const uint8_t *levels, size_t length)
{
    if (misqafur_sheet_draw_up(&j->sheet, levels, length) != 0)
        abort();
}

void json_begin(struct json *j, uint64_t p, uint64_t m, uint64_t order, uint64_t weights)
{
    if (misqafur_sheet_init(&j->sheet, p, m, order, weights) != 0)
        abort();
}

/* The sheet of a stored text, if it is taken: by its records, and as time courses, if it has such. */
static int stored_sheet(struct json *j, const char *path, int course)
{
    static uint8_t text[MISQAFUR_MAX_TEXT + 1], levels[MISQAFUR_LEVELS_SIZE];
    static struct misqafur_course run;
    uint8_t states[512], values[64], counts[64], weights[8];
    uint64_t record;
    FILE *file = fopen(path, "rb");
    if (file == NULL)
        return 0;
    const size_t length = fread(text, 1, sizeof text, file);
    fclose(file);
    if (course) {
        uint32_t refusal = MISQAFUR_REFUSED_COURSE;
        for (uint64_t number = 1; number <= MISQAFUR_MAX_COURSE && refusal == MISQAFUR_REFUSED_COURSE; number++)
            refusal = misqafur_course_run(&run, text, length, number, &record);
        j->sheet = run.sheet;
        return refusal == 0;
    }
    const uint64_t answer = misqafur_read_text(text, length, states, 512, values, 64, counts, 64, weights, 8);
    if (misqafur_read_refusal(answer) != 0)
        return 0;
    json_begin(j, misqafur_read_modulus(answer), misqafur_read_variables(answer), misqafur_read_order(answer), misqafur_pack_weights(weights, 8));
    json_draw_up(j, levels, misqafur_pack_levels(states, misqafur_read_points(answer), j->sheet.variables, levels));
    memcpy(j->sheet.counts, counts, sizeof counts);
    return 1;
}

/* Every stored text of the repository whose sheet there is. */
static void stored_sheets(struct json *j, const char *data)
{
    static const char *const folders[3] = {"../../texts/*/*.csv", "../../../examples/*.csv", "../../../examples/*/*.csv"};
    char pattern[4096];
    for (int i = 0; i < 3; i++) {
        glob_t found;
        long taken = 0;
        snprintf(pattern, sizeof pattern, "%s/%s", data, folders[i]);
        if (glob(pattern, 0, NULL, &found) != 0) {
            perror(pattern);
            exit(2);
        }
        for (size_t k = 0; k < 2 * found.gl_pathc; k++)
            if (stored_sheet(j, found.gl_pathv[k / 2], (int)(k % 2))) {
                json_there_and_back(j, found.gl_pathv[k / 2], k);
                taken++;
            }
        say_json(j, pattern, (uint64_t)taken, taken > 0);
        globfree(&found);
    }
}

/* As many points as there is room for, and one, under every modulus, order and number of variables; counts up to the greatest. */
static void full_sheets(struct json *j)
{
    struct chance *chance = &j->made.chance;
    size_t longest = 0;
    for (int i = 0; i < 18 * 4 * 8; i++) {
        struct call settings = {.variables = 1 + (uint64_t)(i / 72)};
        uint8_t states[512], levels[512];
        do
            random_order(chance, &settings);
        while (settings.order != (uint64_t)(i / 18 % 4));
        json_begin(j, primes[i % 18], settings.variables, settings.order, settings.weights);
        const size_t n = random_points(chance, primes[i % 18], (int)settings.variables, once_in(chance, 3) ? 1 + below(chance, 9) : 64, states);
        json_draw_up(j, levels, misqafur_pack_levels(states, n, settings.variables, levels));
        for (size_t k = 0; k < n; k++)
            j->sheet.counts[k] = (uint8_t)(once_in(chance, 2) ? MISQAFUR_MAX_COUNT - k % 3 : 1 + below(chance, MISQAFUR_MAX_COUNT));
        const size_t length = json_there_and_back(j, "a full sheet", (uint64_t)i);
        longest = length > longest ? length : longest;
    }
    say_json(j, "the longest text", longest, longest > 25000 && longest <= 103534);
}

/* A sheet, and one that differs from it in one thing alone: another text. */
static void differ(struct json *j, const char *what, uint64_t at, const struct misqafur_sheet *other)
{
    static uint8_t text[MISQAFUR_JSON_SIZE];
    size_t length = 0, others = 0;
    const int written = misqafur_sheet_write_json(&j->sheet, j->text, sizeof j->text, &length) == 0 &&
                        misqafur_sheet_write_json(other, text, sizeof text, &others) == 0;
    say_json(j, what, at, written && (length != others || memcmp(j->text, text, length) != 0));
}

/* Sheets that are not equal have other texts: another count, the points in another sequence, equal weights in place of grlex, another
 * modulus, a variable more whose residues are all 0. */
static void no_two_alike(struct json *j)
{
    static const uint8_t one[6] = {0, 0, 1, 2, 2, 1}, turned[6] = {1, 2, 2, 1, 0, 0}, zeros[9] = {0, 0, 0, 1, 2, 0, 2, 1, 0};
    struct misqafur_sheet first, other;
    json_begin(j, 5, 2, MISQAFUR_GRLEX, 0);
    json_draw_up(j, one, 6);
    first = other = j->sheet;
    for (int k = 0; k < 3; k++)
        for (int count = 2; count < 256; count++) {
            other.counts[k] = (uint8_t)count;
            differ(j, "another count", (uint64_t)count, &other);
            other.counts[k] = 1;
        }
    json_draw_up(j, turned, 6);
    other = j->sheet;
    j->sheet = first;
    differ(j, "points in another sequence", 0, &other);
    say_json(j, "their standard monomials, leads and coefficients", 0,
             memcmp(first.standard, other.standard, sizeof first.standard) == 0 && memcmp(first.leads, other.leads, sizeof first.leads) == 0 &&
                 memcmp(first.coefficients, other.coefficients, sizeof first.coefficients) == 0);
    json_begin(j, 5, 2, MISQAFUR_WEIGHT, 0x0101);
    json_draw_up(j, one, 6);
    differ(j, "equal weights", 0, &first);
    json_begin(j, 5, 2, MISQAFUR_WEIGHT, 0x0202);
    json_draw_up(j, one, 6);
    differ(j, "other equal weights", 0, &first);
    json_begin(j, 7, 2, MISQAFUR_GRLEX, 0);
    json_draw_up(j, one, 6);
    differ(j, "another modulus", 0, &first);
    json_begin(j, 5, 3, MISQAFUR_GRLEX, 0);
    json_draw_up(j, zeros, 9);
    differ(j, "a variable more", 0, &first);
}

/* A text's bytes are written and none behind them, whatever the buffer's length and what it held. */
static void buffers(struct json *j)
{
    static const size_t lengths[] = {MISQAFUR_JSON_SIZE, MISQAFUR_JSON_SIZE + 1, MISQAFUR_JSON_SIZE + 7, MISQAFUR_JSON_SIZE + 4000};
    static const uint8_t level = 1;
    static uint8_t out[ROOM];
    json_begin(j, 2, 1, MISQAFUR_LEX, 0);
    json_draw_up(j, &level, 1);
    for (size_t i = 0; i < sizeof lengths / sizeof *lengths; i++)
        for (int byte = 0; byte < 256; byte++) {
            size_t length = 0, behind = 0;
            memset(out, byte, sizeof out);
            const int taken = misqafur_sheet_write_json(&j->sheet, out, lengths[i], &length) == 0;
            while (length + behind < sizeof out && out[length + behind] == byte)
                behind++;
            say_json(j, "bytes behind a text", (uint64_t)byte, taken && length == 130 && length + behind == sizeof out);
        }
    for (size_t shorter = 1; shorter <= 300; shorter++) {
        size_t length = 777;
        memset(out, 170, sizeof out);
        const uint32_t refusal = misqafur_sheet_write_json(&j->sheet, out, MISQAFUR_JSON_SIZE - shorter, &length);
        say_json(j, "a buffer that is too short", shorter, refusal == 6 && length == 777 && out[0] == 170);
    }
}

struct score json(const struct options *options)
{
    struct json *j = calloc(1, sizeof *j);
    if (j == NULL)
        abort();
    j->guard = guard_new();
    j->document = reference_new_document(MISQAFUR_JSON_SIZE);
    j->made.chance.state = options->seed;
    json_examples(j);
    json_other_words(j);
    json_lengths(j);
    json_shapes(j);
    stored_sheets(j, options->data);
    full_sheets(j);
    no_two_alike(j);
    buffers(j);
    json_each_byte(j, options->cases < 10000 ? 2 : 10);
    json_random_damage(j, options->cases);
    struct score score = j->score;
    guard_free(j->guard);
    free(j->document);
    free(j);
    return score;
}
