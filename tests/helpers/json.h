/* A sheet as JSON by the header's helpers and by the plain calls. */
#ifndef JSON_H
#define JSON_H

#include "courses.h"

/* The sheet as it is, or now and then a damaged copy, into a buffer that is long enough, or not. Gives the refusal. */
static uint32_t try_write_json(long index, const struct misqafur_sheet *sheet)
{
    static struct misqafur_sheet copy;
    static uint8_t ours[MISQAFUR_JSON_SIZE + 2], theirs[MISQAFUR_JSON_SIZE + 2];
    const size_t room = MISQAFUR_JSON_SIZE - rarely() + below(3);
    size_t length = 12345;
    uint32_t due, refusal;
    copy = *sheet;
    if (rarely())
        damage(&copy);
    if (rarely())
        copy.n = 65 + below(300);
    memset(ours, 170, sizeof ours);
    memset(theirs, 170, sizeof theirs);
    due = misqafur_write_json(copy.modulus, copy.variables, copy.order, copy.weights, copy.n, copy.r, copy.states, 512, copy.standard, 512,
                              copy.leads, 3592, copy.coefficients, 28736, copy.counts, 64, theirs, room);
    refusal = misqafur_sheet_write_json(&copy, ours, room, &length);
    expect(refusal == (due & 255u) && memcmp(ours, theirs, sizeof ours) == 0, "a sheet written as JSON", index);
    expect(length == (refusal == 0 ? due >> 8 : 12345), "the length of its text", index);
    return refusal;
}

/* The text of the sheet, and now and then another word or number in it, bytes more, or the form of a sheet of no variables or too many
 * points. Gives its length. */
static size_t make_json_text(const struct misqafur_sheet *sheet, uint8_t text[2 * MISQAFUR_JSON_SIZE])
{
    static const char *const words[4][2] = {{"\"modulus\":", "\"modulus\":4"}, {"\"order\":", "\"order\":9"}, {"\"order\":", "\"order\": "},
                                            {"\"weights\":[", "\"weights\":[1"}};
    static const char none[] = "{\"coefficients\":[[]],\"counts\":[],\"leads\":[[]],\"modulus\":5,\"order\":1,\"points\":[],\"standard\":[],"
                               "\"variables\":0,\"weights\":[]}";
    static const char many[] = "{\"coefficients\":[],\"counts\":[0";
    const uint32_t style = below(10);
    char *at, *end = (char *)text;
    size_t length = 0, k;
    uint32_t i;
    if (misqafur_sheet_write_json(sheet, text, MISQAFUR_JSON_SIZE, &length) != 0)
        return 0;
    text[length] = 0;
    if (style < 4 && (at = strstr((char *)text, words[style][0])) != NULL) {
        const size_t old = strlen(words[style][0]), longer = strlen(words[style][1]);
        memmove(at + longer, at + old, length - (size_t)(at - (char *)text) - old + 1);
        memcpy(at, words[style][1], longer);
        return length + longer - old;
    }
    if (style == 4)
        text[below((uint32_t)length)] ^= 1;
    if (style == 5) {
        memset(text + length, ' ', MISQAFUR_JSON_SIZE);
        return MISQAFUR_JSON_SIZE + below(2);
    }
    if (style == 6)
        return (size_t)sprintf(end, "%s", none);
    if (style != 7)
        return length;
    end += sprintf(end, "%s", many);
    for (i = 1; i < 66; i++)
        end += sprintf(end, ",0");
    end += sprintf(end, "],\"leads\":[],\"modulus\":%d,\"order\":%d", (int)sheet->modulus, (int)(sheet->order == 3 ? 0 : sheet->order));
    for (k = 0; k < 2; k++) {
        end += sprintf(end, ",\"%s\":[[0]", k == 0 ? "points" : "standard");
        for (i = 1; i < 66; i++)
            end += sprintf(end, ",[0]");
        end += sprintf(end, "]");
    }
    return (size_t)(end + sprintf(end, ",\"variables\":1,\"weights\":[]}") - (char *)text);
}

/* What the helper is to leave, by the plain call with its arguments written out. Gives the number. */
static uint64_t read_plainly(struct misqafur_sheet *to, const uint8_t *text, size_t length)
{
    uint8_t w[8];
    const uint64_t answer = misqafur_read_json(text, length, to->states, 512, to->standard, 512, to->leads, 3592, to->coefficients, 28736,
                                               to->counts, 64, w, 8);
    int k;
    if ((answer & 255u) != 0)
        return answer;
    to->n = answer >> 8 & 255u;
    to->modulus = answer >> 16 & 255u;
    to->variables = answer >> 24 & 255u;
    to->order = answer >> 32 & 15u;
    to->r = answer >> 36;
    to->weights = 0;
    for (k = 7; k >= 0; k--)
        to->weights = to->weights << 8 | w[k];
    return answer;
}

/* A text of the sheet, or another; where it is as it was written, the sheet comes back. Gives the refusal. */
static uint32_t try_read_json(long index, const struct misqafur_sheet *sheet)
{
    static struct misqafur_sheet ours, theirs;
    static uint8_t text[2 * MISQAFUR_JSON_SIZE], again[MISQAFUR_JSON_SIZE];
    const size_t length = make_json_text(sheet, text);
    size_t written = 0;
    uint64_t due;
    uint32_t refusal;
    memset(&ours, 170, sizeof ours);
    theirs = ours;
    due = read_plainly(&theirs, text, length);
    refusal = misqafur_sheet_read_json(&ours, text, length);
    expect(refusal == (due & 255u) && (refusal == 0 || due == refusal) && memcmp(&ours, &theirs, sizeof ours) == 0, "a sheet read from JSON", index);
    if (refusal == 0)
        expect(misqafur_sheet_write_json(&ours, again, sizeof again, &written) == 0 && written == length && memcmp(again, text, length) == 0,
               "a text written again", index);
    return refusal;
}

#endif
