/* JSON of a sheet in plain C: one pass over the tables, or over the text. */
#include "plain_json.h"

#include <string.h>

static inline uint8_t *put_number(uint8_t *at, unsigned number)
{
    if (number >= 100)
        *at++ = (uint8_t)('0' + number / 100);
    if (number >= 10)
        *at++ = (uint8_t)('0' + number / 10 % 10);
    *at++ = (uint8_t)('0' + number % 10);
    return at;
}

static inline uint8_t *put_word(uint8_t *at, const char *word)
{
    const size_t length = strlen(word);
    memcpy(at, word, length);
    return at + length;
}

static inline uint8_t *put_list(uint8_t *at, const uint8_t *numbers, uint64_t count)
{
    *at++ = '[';
    for (uint64_t i = 0; i < count; i++) {
        if (i > 0)
            *at++ = ',';
        at = put_number(at, numbers[i]);
    }
    *at++ = ']';
    return at;
}

static inline uint8_t *put_rows(uint8_t *at, const uint8_t *table, size_t width, uint64_t rows, uint64_t columns)
{
    *at++ = '[';
    for (uint64_t i = 0; i < rows; i++) {
        if (i > 0)
            *at++ = ',';
        at = put_list(at, table + width * i, columns);
    }
    *at++ = ']';
    return at;
}

size_t plain_write_json(const struct input *in, uint8_t *out)
{
    const struct lent *l = &in->whole;
    uint8_t weights[8], *at = out;
    for (int k = 0; k < 8; k++)
        weights[k] = (uint8_t)(in->weights >> 8 * k);
    at = put_rows(put_word(at, "{\"coefficients\":"), l->coefficients, 64, l->r, l->n);
    at = put_list(put_word(at, ",\"counts\":"), l->counts, l->n);
    at = put_rows(put_word(at, ",\"leads\":"), l->leads, 8, l->r, in->m);
    at = put_number(put_word(at, ",\"modulus\":"), (unsigned)in->p);
    at = put_number(put_word(at, ",\"order\":"), (unsigned)in->order);
    at = put_rows(put_word(at, ",\"points\":"), l->states, 8, l->n, in->m);
    at = put_rows(put_word(at, ",\"standard\":"), l->standard, 8, l->n, in->m);
    at = put_number(put_word(at, ",\"variables\":"), (unsigned)in->m);
    at = put_list(put_word(at, ",\"weights\":"), weights, in->order == MISQAFUR_WEIGHT ? in->m : 0);
    *at++ = '}';
    return (size_t)(at - out);
}

/* A place in a text, and its end; behind a fault it stands at the end. */
struct cursor {
    const uint8_t *at, *end;
    int fault;
};

static inline int is_next(struct cursor *c, char byte)
{
    if (c->at == c->end || *c->at != (uint8_t)byte)
        return 0;
    c->at++;
    return 1;
}

static inline void need(struct cursor *c, int holds)
{
    if (holds)
        return;
    c->fault = 1;
    c->at = c->end;
}

static inline void need_word(struct cursor *c, const char *word)
{
    const size_t length = strlen(word);
    const int here = (size_t)(c->end - c->at) >= length && memcmp(c->at, word, length) == 0;
    if (here)
        c->at += length;
    need(c, here);
}

static inline unsigned read_number(struct cursor *c)
{
    const uint8_t *first = c->at;
    unsigned number = 0;
    while (c->at < c->end && (unsigned)(*c->at - '0') < 10 && number < 256)
        number = 10 * number + (unsigned)(*c->at++ - '0');
    need(c, first < c->at && number < 256 && (*first != '0' || c->at == first + 1));
    return number;
}

/* A list behind its name: so many numbers, room at most. */
static inline uint64_t read_list(struct cursor *c, uint8_t *to, uint64_t room)
{
    uint64_t count = 0;
    need(c, is_next(c, '['));
    if (is_next(c, ']'))
        return 0;
    do {
        const unsigned number = read_number(c);
        need(c, count < room);
        if (count < room)
            to[count++] = (uint8_t)number;
    } while (is_next(c, ','));
    need(c, is_next(c, ']'));
    return count;
}

/* Lists of one length, so many rows at most. */
static inline uint64_t read_rows(struct cursor *c, uint8_t *table, uint64_t width, uint64_t room, uint64_t *columns)
{
    uint64_t rows = 0;
    need(c, is_next(c, '['));
    if (is_next(c, ']'))
        return 0;
    do {
        need(c, rows < room);
        if (rows == room)
            return 0;
        const uint64_t count = read_list(c, table + width * rows, width);
        need(c, rows == 0 || count == *columns);
        *columns = count;
        rows++;
    } while (is_next(c, ','));
    need(c, is_next(c, ']'));
    return rows;
}

/* Into tables of zeros. */
static int read_document(const uint8_t *text, size_t length, struct json_read *to)
{
    struct cursor c = {text, text + length, 0};
    struct lent *l = &to->lent;
    uint64_t across[4] = {0};
    need_word(&c, "{\"coefficients\":");
    l->r = read_rows(&c, l->coefficients, 64, 449, &across[0]);
    need_word(&c, ",\"counts\":");
    l->n = read_list(&c, l->counts, 64);
    need_word(&c, ",\"leads\":");
    const uint64_t leads = read_rows(&c, l->leads, 8, 449, &across[1]);
    need_word(&c, ",\"modulus\":");
    to->p = read_number(&c);
    need_word(&c, ",\"order\":");
    to->order = read_number(&c);
    need_word(&c, ",\"points\":");
    const uint64_t points = read_rows(&c, l->states, 8, 64, &across[2]);
    need_word(&c, ",\"standard\":");
    const uint64_t standard = read_rows(&c, l->standard, 8, 64, &across[3]);
    need_word(&c, ",\"variables\":");
    to->m = read_number(&c);
    need_word(&c, ",\"weights\":");
    const uint64_t weights = read_list(&c, to->weights, 8);
    need_word(&c, "}");
    const int fits = leads == l->r && points == l->n && standard == l->n && (l->r == 0 || (across[0] == l->n && across[1] == to->m)) &&
                     (l->n == 0 || (across[2] == to->m && across[3] == to->m)) && weights == (to->order == MISQAFUR_WEIGHT ? to->m : 0);
    return c.fault || c.at != c.end || !fits ? 19 : 0;
}

int plain_read_json(const uint8_t *text, size_t length, struct json_read *to)
{
    struct json_read own;
    memset(&own, 0, sizeof own);
    const int refusal = read_document(text, length, &own);
    if (refusal == 0)
        *to = own;
    return refusal;
}
