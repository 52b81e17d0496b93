/* Part "json": texts of sheets damaged byte by byte. */
#include "json.h"

#include <stdlib.h>
#include <string.h>

/* A text of which a byte was changed, left out or put in: 19, or what the reference says; and never the sheet that it was. */
static void other_text(struct json *j, const char *what, uint64_t at, const uint8_t *text, size_t length)
{
    const uint64_t number = read_json(j, what, at, text, length);
    const int taken = (number & 255) == 0;
    say_json(j, what, at, !taken || memcmp(&j->back, &j->sheet, sizeof j->sheet) != 0);
}

/* Every change of one byte, every byte left out, and every byte put in at every place. */
static void each_byte(struct json *j, uint64_t which)
{
    static uint8_t text[1024], damaged[1024];
    const size_t length = json_there_and_back(j, "a text to be damaged", which);
    if (length == 0 || length > sizeof text - 1)
        abort();
    memcpy(text, j->text, length);
    for (size_t at = 0; at <= length; at++) {
        memcpy(damaged, text, length);
        for (int byte = 0; byte < 256 && at < length; byte++)
            if (byte != text[at]) {
                damaged[at] = (uint8_t)byte;
                other_text(j, "a byte changed", at, damaged, length);
            }
        memcpy(damaged, text, at);
        memcpy(damaged + at + 1, text + at, length - at);
        for (int byte = 0; byte < 256; byte++) {
            damaged[at] = (uint8_t)byte;
            other_text(j, "a byte put in", at, damaged, length + 1);
        }
        if (at == length)
            break;
        memcpy(damaged + at, text + at + 1, length - at - 1);
        other_text(j, "a byte left out", at, damaged, length - 1);
        other_text(j, "a text cut", at, text, at);
    }
}

/* Ten texts: no point, one, several, with replicates, the greatest modulus, every order, eight variables. */
void json_each_byte(struct json *j, size_t texts)
{
    static const uint8_t levels[12] = {0, 0, 1, 2, 2, 1, 0, 1, 1, 1, 0, 1};
    static const struct {
        uint64_t p, m, order, weights;
        size_t n;
    } ten[10] = {{2, 1, 0, 0, 1},      {5, 2, 1, 0, 0},      {5, 2, 1, 0, 3},  {3, 2, 3, 0x6302, 2}, {61, 1, 2, 0, 2},
                 {7, 3, 0, 0, 2},      {3, 4, 3, 0x01010101, 1}, {11, 2, 2, 0, 3}, {13, 8, 0, 0, 1},     {2, 1, 3, 0x0a, 2}};
    for (uint64_t i = 0; i < texts; i++) {
        json_begin(j, ten[i].p, ten[i].m, ten[i].order, ten[i].weights);
        json_draw_up(j, levels, ten[i].m * ten[i].n);
        for (size_t k = 0; k < j->sheet.n; k++)
            j->sheet.counts[k] = (uint8_t)(1 + 127 * (i + k) % 255);
        each_byte(j, i);
    }
}

/* Random sheets' texts, and of each up to 250 with one to three bytes changed, left out or put in. */
void json_random_damage(struct json *j, uint64_t texts)
{
    static uint8_t text[MISQAFUR_JSON_SIZE];
    struct made *made = malloc(sizeof *made);
    size_t length = 0;
    if (made == NULL)
        abort();
    made->chance.state = any_number(&j->made.chance);
    for (uint64_t i = 0; i < texts; i++) {
        if (i % 250 == 0) {
            put_sheet_text(made);
            length = made->call.buffer[GIVEN].length;
            memcpy(text, made->bytes[GIVEN], length);
            const uint64_t number = read_json(j, "a random sheet", i, text, length);
            say_json(j, "a random sheet taken", i, (number & 255) == 0);
        }
        memcpy(made->bytes[GIVEN], text, length);
        lend(made, GIVEN, length);
        for (uint64_t bytes = 1 + below(&made->chance, 3); bytes > 0; bytes--)
            mistype_json(made);
        read_json(j, "a random text damaged", i, made->bytes[GIVEN], made->call.buffer[GIVEN].length);
    }
    free(made);
}
