/* A sheet's text as JSON: the members out of a text, and the text of members. A text's members are taken out of it as leniently as
 * may be, and written again: the text has a document only where that is the same, byte for byte. */
#include "reference_json.h"

#include <stdio.h>
#include <stdlib.h>
#include <string.h>

/* What stands in front of each member's value, and how deep its lists go: a number, a list, a list of lists. */
static const struct {
    const char *before;
    int depth;
} form[JSON_MEMBERS] = {{"{\"coefficients\":", 2}, {",\"counts\":", 1}, {",\"leads\":", 2},    {",\"modulus\":", 0}, {",\"order\":", 0},
                        {",\"points\":", 2},       {",\"standard\":", 2}, {",\"variables\":", 0}, {",\"weights\":", 1}};

static void put(char *to, size_t room, size_t *length, const char *word)
{
    for (; *word != 0; word++, ++*length)
        if (*length < room)
            to[*length] = *word;
}

static void put_member(const struct member *m, int depth, char *to, size_t room, size_t *length)
{
    char digits[16];
    put(to, room, length, depth == 2 ? "[" : "");
    for (size_t row = 0, at = 0; row < m->rows; row++) {
        const size_t first = at;
        put(to, room, length, row > 0 ? "," : "");
        put(to, room, length, depth > 0 ? "[" : "");
        for (; at < m->ends[row]; at++) {
            snprintf(digits, sizeof digits, "%s%d", at > first ? "," : "", m->numbers[at]);
            put(to, room, length, digits);
        }
        put(to, room, length, depth > 0 ? "]" : "");
    }
    put(to, room, length, depth == 2 ? "]" : "");
}

size_t reference_written(const struct document *d, char *to, size_t room)
{
    size_t length = 0;
    for (int i = 0; i < JSON_MEMBERS; i++) {
        put(to, room, &length, form[i].before);
        put_member(&d->member[i], form[i].depth, to, room, &length);
    }
    put(to, room, &length, "}");
    return length;
}

static void make_empty(struct document *d)
{
    for (int i = 0; i < JSON_MEMBERS; i++)
        d->member[i].rows = d->member[i].count = 0;
}

struct document *reference_new_document(size_t room)
{
    struct document *d = malloc(sizeof *d + JSON_MEMBERS * room * (sizeof(size_t) + sizeof(int)));
    if (d == NULL)
        abort();
    size_t *ends = (size_t *)(d + 1);
    int *numbers = (int *)(ends + JSON_MEMBERS * room);
    for (size_t i = 0; i < JSON_MEMBERS; i++)
        d->member[i] = (struct member){.ends = ends + i * room, .numbers = numbers + i * room};
    return d;
}

/* A text, and how far it was read. It ends in a byte that no text has. */
struct source {
    const char *text;
    size_t at;
};

static int skip(struct source *s, const char *word)
{
    const size_t length = strlen(word);
    if (strncmp(s->text + s->at, word, length) != 0)
        return 0;
    s->at += length;
    return 1;
}

/* Digits, as many as there are, if there are any; above 255 every number is 256, which no text that is taken has. */
static void take_number(struct source *s, struct member *m)
{
    int number = -1;
    for (; '0' <= s->text[s->at] && s->text[s->at] <= '9'; s->at++) {
        number = (number < 0 ? 0 : 10 * number) + s->text[s->at] - '0';
        number = number > 255 ? 256 : number;
    }
    if (number >= 0)
        m->numbers[m->count++] = number;
}

static void take_row(struct source *s, struct member *m)
{
    do
        take_number(s, m);
    while (skip(s, ","));
    skip(s, "]");
    m->ends[m->rows++] = m->count;
}

static void take_member(struct source *s, int depth, struct member *m)
{
    if (depth == 0) {
        take_number(s, m);
        m->ends[m->rows++] = m->count;
    } else if (depth == 1) {
        skip(s, "[");
        take_row(s, m);
    } else {
        skip(s, "[");
        while (skip(s, "[")) {
            take_row(s, m);
            skip(s, ",");
        }
        skip(s, "]");
    }
}

/* Every row of a member has so many numbers. */
static int all_of(const struct member *m, size_t columns)
{
    for (size_t row = 0; row < m->rows; row++)
        if (m->ends[row] != (row + 1) * columns)
            return 0;
    return 1;
}

/* Numbers from 0 to 255, and lists of one length for the same points, elements or variables. */
static int is_formed(const struct document *d)
{
    const struct member *m = d->member;
    for (int i = 0; i < JSON_MEMBERS; i++)
        for (size_t k = 0; k < m[i].count; k++)
            if (m[i].numbers[k] > 255)
                return 0;
    if (m[MODULUS_MEMBER].count != 1 || m[ORDER_MEMBER].count != 1 || m[VARIABLES_MEMBER].count != 1)
        return 0;
    const size_t n = m[COUNTS_MEMBER].count, columns = (size_t)m[VARIABLES_MEMBER].numbers[0];
    return m[POINTS_MEMBER].rows == n && m[STANDARD_MEMBER].rows == n &&
           m[LEADS_MEMBER].rows == m[COEFFICIENTS_MEMBER].rows && all_of(&m[COEFFICIENTS_MEMBER], n) &&
           all_of(&m[POINTS_MEMBER], columns) && all_of(&m[STANDARD_MEMBER], columns) && all_of(&m[LEADS_MEMBER], columns) &&
           m[WEIGHTS_MEMBER].count == (m[ORDER_MEMBER].numbers[0] == 3 ? columns : 0);
}

int reference_document(const uint8_t *text, size_t length, struct document *d)
{
    char *copied = malloc(length + 1), *again = malloc(length + 1);
    make_empty(d);
    if (copied == NULL || again == NULL)
        abort();
    if (length > 0)
        memcpy(copied, text, length);
    copied[length] = '~';
    struct source s = {copied, 0};
    for (int i = 0; i < JSON_MEMBERS; i++) {
        skip(&s, form[i].before);
        take_member(&s, form[i].depth, &d->member[i]);
    }
    const int same = reference_written(d, again, length) == length && memcmp(again, copied, length) == 0;
    free(copied);
    free(again);
    return same && is_formed(d) ? 0 : 19;
}
