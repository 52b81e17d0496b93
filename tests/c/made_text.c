/* Random texts for the reader, and what they share with those of time courses. */
#include "made_text.h"

#include <stdio.h>
#include <string.h>

void put_bytes(struct made *made, const char *bytes, size_t length)
{
    struct bytes *text = &made->call.buffer[GIVEN];
    if (text->length + length > ROOM - 600)
        return;
    memcpy(text->at + text->length, bytes, length);
    text->length += length;
}

void put_field(struct made *made, const char *content)
{
    int quoted = once_in(&made->chance, 8);
    if (quoted)
        put_bytes(made, "\"", 1);
    put_bytes(made, content, strlen(content));
    if (quoted)
        put_bytes(made, "\"", 1);
}

static void put_name(struct made *made)
{
    static const char *const names[] = {"g1",          "",           "\"a\"\"b\"",   "\"a,b\"",
                                        "\"x\r\ny\"", "\"\"\"\"", "\xef\xbb\xbf", "long name"};
    const char *name = names[below(&made->chance, sizeof names / sizeof *names)];
    put_bytes(made, name, strlen(name));
    put_bytes(made, ",", 1);
}

void put_break(struct made *made)
{
    if (once_in(&made->chance, 2))
        put_bytes(made, "\r", 1);
    put_bytes(made, "\n", 1);
}

/* A name so long that the text comes near the limit, and past it. */
static void put_long_name(struct made *made)
{
    size_t length = MISQAFUR_MAX_TEXT - below(&made->chance, 400);
    for (size_t i = 0; i < length; i++)
        put_bytes(made, "n", 1);
    put_bytes(made, ",", 1);
}

/* ` weight` and a weight for each name, of one digit or two; now and then one is 0, or there are others than names. */
static void weigh(struct chance *c, size_t m, char *word, size_t room)
{
    const uint64_t packed = random_weights(c, 8), none = once_in(c, 12) ? below(c, m + 1) : m;
    size_t count = once_in(c, 20) ? below(c, m + 3) : m, length = (size_t)snprintf(word, room, " weight");
    for (size_t k = 0; k < count; k++)
        length += (size_t)snprintf(word + length, room - length, " %0*d", once_in(c, 6) ? 2 : 1,
                                   k == none ? 0 : (int)(packed >> 8 * (k % 8) & 255));
}

void put_header(struct made *made, size_t m, int p)
{
    static const char *const words[] = {"", " lex", " grlex", " grevlex"};
    struct chance *c = &made->chance;
    char content[96], word[64];
    int odd = once_in(c, 30) ? (int)below(c, 1100) : p;
    for (size_t k = 0; k < m; k++) {
        if (k == 0 && once_in(c, 40))
            put_long_name(made);
        else
            put_name(made);
    }
    if (once_in(c, 3))
        weigh(c, m, word, sizeof word);
    else
        snprintf(word, sizeof word, "%s", words[below(c, 4)]);
    snprintf(content, sizeof content, "mod %0*d%s", once_in(c, 6) ? 3 : 1, odd, word);
    put_field(made, content);
}

void put_level(struct made *made, int p, uint8_t residue, uint64_t times)
{
    struct chance *c = &made->chance;
    char content[16];
    int level = (int8_t)random_level(c, p, residue);
    if (once_in(c, times))
        level = once_in(c, 2) ? (int)below(c, 1999) - 999 : once_in(c, 2) ? p : -p;
    snprintf(content, sizeof content, "%s%0*d", level < 0 || once_in(c, 60) ? "-" : "", once_in(c, 10) ? 3 : 1,
             level < 0 ? -level : level);
    put_field(made, content);
}

static size_t random_records(struct chance *c)
{
    if (once_in(c, 30))
        return 60 + below(c, 8);
    return below(c, 12);
}

void mistype_by(struct made *made, const char *bytes, size_t count)
{
    struct chance *c = &made->chance;
    struct bytes *text = &made->call.buffer[GIVEN];
    size_t at = below(c, text->length + 1);
    char byte = bytes[below(c, count)];
    int insert = once_in(c, 2), drop = !insert && once_in(c, 2);
    if (insert) {
        memmove(text->at + at + 1, text->at + at, text->length - at);
        text->length++;
    }
    if (at == text->length)
        return;
    text->at[at] = (uint8_t)byte;
    if (drop) {
        memmove(text->at + at, text->at + at + 1, text->length - at - 1);
        text->length--;
    }
}

void mistype(struct made *made)
{
    static const char bytes[] = ",\"\r\n-0123456789 modlexgrvwiht+\0\xff";
    mistype_by(made, bytes, sizeof bytes);
}

/* A record of a point that was chosen, or of any. */
static void put_record(struct made *made, size_t m, int p, const uint8_t *point, uint8_t value, uint64_t times)
{
    put_break(made);
    for (size_t k = 0; k < m; k++) {
        put_level(made, p, point == NULL ? (uint8_t)below(&made->chance, (uint64_t)p) : k < 8 ? point[k] : 0, times);
        put_bytes(made, ",", 1);
    }
    put_level(made, p, value, times);
}

/* Records of so many points, each once; then perhaps replicates, some of which may have another value, or so many of one
 * point that it is at the most or beyond; and behind many points perhaps some more that are new. */
static void put_records(struct made *made, size_t m, int p, size_t records)
{
    struct chance *c = &made->chance;
    uint8_t points[512], values[64];
    size_t found = random_points(c, p, m < 8 ? (int)m : 8, records < 64 ? records : 64, points);
    size_t again = found == 0 || once_in(c, 2) ? 0 : once_in(c, 12) ? 250 + below(c, 10) : below(c, 9);
    const uint64_t never = UINT64_MAX, outside = once_in(c, 4) ? 100 : never, others = once_in(c, 4) ? 8 : never;
    const int of_one = again > 9;
    const uint64_t first = found == 0 ? 0 : below(c, found);
    for (size_t i = 0; i < found; i++) {
        values[i] = (uint8_t)below(c, (uint64_t)p);
        put_record(made, m, p, points + 8 * i, values[i], outside);
    }
    for (; again > 0; again--) {
        size_t i = of_one ? first : below(c, found);
        put_record(made, m, p, points + 8 * i, once_in(c, others) ? (uint8_t)below(c, (uint64_t)p) : values[i], outside);
    }
    for (size_t news = found > 60 ? below(c, 6) : 0; news > 0; news--)
        put_record(made, m, p, NULL, (uint8_t)below(c, (uint64_t)p), outside);
}

void lend_for_text(struct made *made, enum kind kind)
{
    struct chance *c = &made->chance;
    made->call = (struct call){.kind = kind};
    made->call.buffer[GIVEN] = (struct bytes){made->bytes[GIVEN], 0};
    for (int i = 0; i < BUFFERS; i++) {
        size_t size = buffer_size(kind, (enum buffer)i);
        if (size == 0)
            continue;
        memset(made->bytes[i], 170, size + 200);
        lend(made, (enum buffer)i, once_in(c, 40) ? below(c, size) : size + below(c, 200));
    }
}

void make_text(struct made *made)
{
    struct chance *c = &made->chance;
    int p = primes[below(c, 18)];
    size_t m = once_in(c, 30) ? below(c, 12) : 1 + below(c, 8);
    lend_for_text(made, READ_TEXT);
    put_header(made, m, p);
    put_records(made, m, p, random_records(c));
    if (once_in(c, 2))
        put_break(made);
    while (once_in(c, 3))
        mistype(made);
}
