/* Texts with a set of faults: points modulo 11 in two variables, and whatever is wrong beside. */
#include "faulty_text.h"

#include <stdio.h>
#include <string.h>

/* How many points there are where there are not too many; the first records have these, each once. */
#define RECORDS 8

/* The points that have replicates, and the one of which a replicate has another value. */
#define REPLICATED 5
#define OTHER 3

/* What is known of a text while it is put down: the records so far, and those at which 8, 13 and 14 are due. */
struct told {
    int records, distinct, replicates;
    uint64_t at[FAULTS];
};

void put_word(struct made *made, const char *word)
{
    struct bytes *text = &made->call.buffer[GIVEN];
    memcpy(text->at + text->length, word, strlen(word));
    text->length += strlen(word);
}

void put_number(struct made *made, int number)
{
    char word[16];
    snprintf(word, sizeof word, "%d", number);
    put_word(made, word);
}

/* As fault 4 none or too many; with many records fewer of these, so that the text is not too long. */
static int variables_of(uint32_t faults, uint32_t variant)
{
    static const int some[4] = {9, 0, 256 + 2, 500}, fewer[4] = {9, 0, 10, 100}, fewest[4] = {9, 0, 10, 20};
    if (!has_fault(faults, 4))
        return 2;
    return has_fault(faults, 13) ? fewest[variant % 4] : has_fault(faults, FULL) ? fewer[variant % 4] : some[variant % 4];
}

/* As many weights as names; as fault 15 one of them is 0. */
static void put_weights(struct made *made, int m, uint32_t faults, uint32_t variant)
{
    static const char *const weights[4] = {" 1", " 99", " 07", " 30"}, *const none[2] = {" 0", " 00"};
    const int wrong = has_fault(faults, 15) ? (int)variant % (m < 1 ? 1 : m) : m;
    put_word(made, " weight");
    for (int k = 0; k < m; k++)
        put_word(made, k == wrong ? none[variant / 2 % 2] : weights[(k + (int)variant) % 4]);
}

void put_faulty_header(struct made *made, int m, uint32_t faults, uint32_t variant)
{
    static const int moduli[8] = {67, 1, 0, 9, 256 + 11, 256, 999, 62};
    static const char *const orders[4] = {"", " lex", " grlex", " grevlex"};
    for (int k = 0; k < m; k++)
        put_word(made, "g,");
    put_word(made, "mod ");
    put_number(made, has_fault(faults, 3) ? moduli[variant % 8] : 11);
    if (has_fault(faults, 15) || variant % 5 == 4)
        put_weights(made, m, faults, variant);
    else
        put_word(made, orders[variant % 4]);
}

int grid_level(int i, int k, int negative)
{
    int level = k == 0 ? i % 11 : k == 1 ? i / 11 : 0;
    return negative && level > 0 ? level - 11 : level;
}

/* A record of point i; outside says that it has fault 9, in its first level or, in turn, in its value. */
static void put_record(struct made *made, int i, int value, int m, uint32_t variant, int outside, int negative)
{
    static const int bad_levels[4] = {11, -11, 256, -999};
    int bad = bad_levels[variant / 2 % 4], in_value = variant % 2 == 1 || m == 0;
    for (int k = 0; k < m; k++) {
        put_number(made, outside && !in_value && k == 0 ? bad : grid_level(i, k, negative));
        put_word(made, ",");
    }
    put_number(made, outside && in_value ? bad : value);
}

const char *const breaks[10] = {"x", "0000", "+", "\"", "\r1", " ", ",1", ",", "-", "\n"};

/* One record more, of point i, and the end of it. */
static void put_next(struct made *made, struct told *told, int i, int value, int m, uint32_t faults, uint32_t variant)
{
    int outside = has_fault(faults, 9) && told->records == (int)variant % RECORDS, again = i < told->distinct;
    int broken = has_fault(faults, 2) && told->records + 1 == (int)variant * 5 % (RECORDS + 1);
    put_record(made, i, value, m, variant, outside, again);
    if (broken)
        put_word(made, breaks[variant % 10]);
    put_word(made, variant % 3 == 0 ? "\r\n" : "\n");
    told->records++;
    told->distinct += !again;
    told->replicates += i == REPLICATED;
    uint64_t record = (uint64_t)told->records + 1;
    if (!again && told->distinct == MISQAFUR_MAX_POINTS + 1)
        told->at[FULL] = record;
    if (i == REPLICATED && told->replicates == MISQAFUR_MAX_COUNT + 1)
        told->at[13] = record;
    if (value != i % 11 && told->at[14] == 0)
        told->at[14] = record;
}

/* The three parts that stand behind the first records, in one sequence or another: replicates up to 255, or as fault 13
 * beyond; as fault 14 a replicate with another value, and a second one; as fault FULL points, up to the 65th and more. */
static void put_part(struct made *made, struct told *told, int part, int m, uint32_t faults, uint32_t variant)
{
    if (part == 0 && (has_fault(faults, 13) || variant % 5 == 0))
        for (int more = MISQAFUR_MAX_COUNT - 1 + 2 * has_fault(faults, 13); more > 0; more--)
            put_next(made, told, REPLICATED, REPLICATED, m, faults, variant);
    if (part == 1 && has_fault(faults, 14))
        for (int more = 1; more <= 2; more++)
            put_next(made, told, OTHER, OTHER + more, m, faults, variant);
    if (part == 2 && has_fault(faults, FULL))
        for (int i = RECORDS; i < MISQAFUR_MAX_POINTS + 1 + (int)variant % 8; i++)
            put_next(made, told, i, i % 11, m, faults, variant);
}

void lend_faulty(struct made *made, enum kind kind, uint32_t faults, uint32_t variant)
{
    made->call = (struct call){.kind = kind};
    made->call.buffer[GIVEN] = (struct bytes){made->bytes[GIVEN], 0};
    for (int i = 0; i < BUFFERS; i++)
        if (buffer_size(kind, (enum buffer)i) > 0)
            memset(made->bytes[i], 170, buffer_size(kind, (enum buffer)i) + 8);
    set_faulty_sizes(made, faults, variant);
}

void put_too_much(struct made *made)
{
    while (made->call.buffer[GIVEN].length <= MISQAFUR_MAX_TEXT)
        put_word(made, "n");
}

uint64_t make_faulty_text(struct made *made, uint32_t faults, uint32_t variant)
{
    static const int sequences[6][3] = {{0, 1, 2}, {2, 1, 0}, {1, 0, 2}, {2, 0, 1}, {0, 2, 1}, {1, 2, 0}};
    int m = variables_of(faults, variant), broken = (int)variant * 5 % (RECORDS + 1); /* 0 is the header */
    const char *how = breaks[variant % 10];
    struct told told = {.at = {[2] = (uint64_t)broken + (*how == '\n' ? 2 : 1), [3] = 1, [4] = 1, [15] = 1,
                               [9] = (uint64_t)(variant % RECORDS) + 2}};
    lend_faulty(made, READ_TEXT, faults, variant);
    put_faulty_header(made, m, faults, variant);
    if (has_fault(faults, 2) && broken == 0)
        put_word(made, how);
    put_word(made, variant % 3 == 0 ? "\r\n" : "\n");
    for (int i = 0; i < RECORDS; i++)
        put_next(made, &told, i, i, m, faults, variant);
    for (int part = 0; part < 3; part++)
        put_part(made, &told, sequences[variant % 6][part], m, faults, variant);
    if (has_fault(faults, 1))
        put_too_much(made);
    int first = first_fault(faults);
    return (uint64_t)refusal_of(first) + 256 * told.at[first];
}
