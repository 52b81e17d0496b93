/* Part "json": texts as they stand, with the numbers that are due for them. */
#include "json.h"

#include <stdio.h>
#include <stdlib.h>
#include <string.h>

/* The examples of docs/SCOPE.md: one point, and none. */
#define ONE                                                                                                                  \
    "{\"coefficients\":[[1]],\"counts\":[1],\"leads\":[[1]],\"modulus\":2,\"order\":0,\"points\":[[1]],\"standard\":[[0]]," \
    "\"variables\":1,\"weights\":[]}"
#define NONE                                                                                                                   \
    "{\"coefficients\":[[]],\"counts\":[],\"leads\":[[0,0]],\"modulus\":5,\"order\":1,\"points\":[],\"standard\":[],\"variables\":2," \
    "\"weights\":[]}"
#define WEIGHED                                                                                                                         \
    "{\"coefficients\":[[0],[0]],\"counts\":[255],\"leads\":[[0,1],[1,0]],\"modulus\":61,\"order\":3,\"points\":[[0,0]],\"standard\":[[0,0]]," \
    "\"variables\":2,\"weights\":[99,1]}"

/* What is answered for a sheet that is taken. */
static uint64_t taken(uint64_t n, uint64_t p, uint64_t m, uint64_t order, uint64_t r)
{
    return n << 8 | p << 16 | m << 24 | order << 32 | r << 36;
}

void json_examples(struct json *j)
{
    uint8_t one[1] = {1};
    size_t length = 0;
    due_json(j, "one point", 0, ONE, strlen(ONE), taken(1, 2, 1, 0, 1));
    due_json(j, "no point", 0, NONE, strlen(NONE), taken(0, 5, 2, 1, 1));
    due_json(j, "by weight", 0, WEIGHED, strlen(WEIGHED), taken(1, 61, 2, 3, 2));
    say_json(j, "its weights", 0, j->back.weights == 0x0163);
    if (misqafur_sheet_init(&j->sheet, 2, 1, MISQAFUR_LEX, 0) != 0 || misqafur_sheet_add(&j->sheet, one, 1) != 0)
        abort();
    const uint32_t refusal = misqafur_sheet_write_json(&j->sheet, j->text, sizeof j->text, &length);
    say_json(j, "the text of one point", 0, refusal == 0 && length == strlen(ONE) && memcmp(j->text, ONE, length) == 0);
    for (uint64_t i = 0; i < 1000; i++) { /* what the header takes out of a number: r from its own bits */
        const uint64_t number = i < 64 ? (uint64_t)1 << i : any_number(&j->made.chance);
        say_json(j, "a part of a number", i, misqafur_json_elements(number) == (number >> 36 & 1023) &&
                                                 misqafur_json_length((uint32_t)number) == (uint32_t)number >> 8);
    }
}

/* ONE with some words in place of others, wherever they stand first. */
static void due_instead(struct json *j, const char *from, const char *old, const char *new, uint64_t due)
{
    static char text[4096];
    const char *at = strstr(from, old);
    if (at == NULL)
        abort();
    const int length = snprintf(text, sizeof text, "%.*s%s%s", (int)(at - from), from, new, at + strlen(old));
    due_json(j, new, due, text, (size_t)length, due);
}

/* What other programs write, and what says the same in other words: 19. */
void json_other_words(struct json *j)
{
    static const char *const words[][2] = {
        {"{", " {"}, {"{", "{ "}, {"{", "\n{"}, {"{", "\xef\xbb\xbf{"}, {"{", "[{"}, {"{", ""}, {"{", "{{"}, {"{", "{,"}, {"{", "\xc2\xa0{"},
        {"}", "}\n"}, {"}", "}\r\n"}, {"}", "} "}, {"}", " }"}, {"}", "\n}"}, {"}", ""}, {"}", "}}"}, {"}", ",}"}, {"}", "}]"}, {"}", "},"}, {"}", "}{}"},
        {":2,", ": 2,"}, {":2,", " :2,"}, {":2,", ":2 ,"}, {":2,", ":2, "}, {":2,", ":2,\n"}, {":2,", ":2,,"}, {":2,", ":2"}, {":2,", ":2;"},
        {":2,", ":02,"}, {":2,", ":2.0,"}, {":2,", ":2e0,"}, {":2,", ":2E0,"}, {":2,", ":+2,"}, {":2,", ":-2,"}, {":2,", ":-0,"}, {":2,", ":00,"},
        {":2,", ":0x2,"}, {":2,", ":\"2\","}, {":2,", ":[2],"}, {":2,", ":true,"}, {":2,", ":null,"}, {":2,", ":,"}, {":2,", ":256,"},
        {":2,", ":258,"}, {":2,", ":1000,"}, {":2,", ":65538,"}, {":2,", ":4294967298,"}, {":2,", ":18446744073709551618,"},
        {":2,", ":2,\"modulus\":2,"}, {":2,", ":\xd9\xa2,"}, {":2,", ":\xef\xbc\x92,"}, {":2,", ":2/**/,"}, {":2,", ":.2,"}, {":2,", ":2.,"},
        {"\"modulus\"", "\"Modulus\""}, {"\"modulus\"", "'modulus'"}, {"\"modulus\"", "modulus"}, {"\"modulus\"", "\"\\u006dodulus\""},
        {"\"modulus\"", "\"modulus \""}, {"\"modulus\"", "\"modulu\""}, {"\"modulus\":2,", ""}, {"\"modulus\":2,", "\"name\":\"x\",\"modulus\":2,"},
        {"\"modulus\":2,\"order\":0", "\"order\":0,\"modulus\":2"}, {"\"counts\":[1],\"leads\":[[1]]", "\"leads\":[[1]],\"counts\":[1]"},
        {"[[1]],\"c", "[[1],],\"c"}, {"[[1]],\"c", "[,[1]],\"c"}, {"[[1]],\"c", "[[1,]],\"c"}, {"[[1]],\"c", "[[,1]],\"c"}, {"[[1]],\"c", "[[1]]],\"c"},
        {"[[1]],\"c", "[[[1]]],\"c"}, {"[[1]],\"c", "[1],\"c"}, {"[[1]],\"c", "1,\"c"}, {"[[1]],\"c", "[],\"c"}, {"[[1]],\"c", "[[]],\"c"},
        {"[[1]],\"c", "[[1][1]],\"c"}, {"[[1]],\"c", "[[1],[1]],\"c"}, {"[[1]],\"c", "[[1,1]],\"c"}, {"[[1]],\"c", "[ [1]],\"c"}, {"[[1]],\"c", "{},\"c"},
        {"[1],\"l", "[],\"l"}, {"[1],\"l", "[1,1],\"l"}, {"[1],\"l", "[[1]],\"l"}, {"[1],\"l", "1,\"l"}, {"[1],\"l", "[1 ],\"l"}, {"[1],\"l", "[256],\"l"},
        {"[[1]],\"m", "[],\"m"}, {"[[1]],\"m", "[[]],\"m"}, {"[[1]],\"m", "[[1,0]],\"m"}, {"[[1]],\"m", "[[1],[2]],\"m"}, {"[[1]],\"m", "[1],\"m"},
        {"[[1]],\"s", "[],\"s"}, {"[[1]],\"s", "[[]],\"s"}, {"[[1]],\"s", "[[1,0]],\"s"}, {"[[1]],\"s", "[[1],[0]],\"s"},
        {"[[0]]", "[]"}, {"[[0]]", "[[]]"}, {"[[0]]", "[[0,0]]"}, {"[[0]]", "[[0],[1]]"},
        {"s\":1", "s\":0"}, {"s\":1", "s\":2"}, {"s\":1", "s\":9"}, {"[]}", "[0]}"}, {"[]}", "[1]}"}, {"[]}", "[[]]}"}, {"[]}", "0}"}, {"[]}", "null}"},
        {"\"order\":0", "\"order\":3"}, {"\"order\":0", "\"order\":\"lex\""}, {ONE, ""}, {ONE, "{}"}, {ONE, "[]"}, {ONE, "0"}, {ONE, "null"}, {ONE, " "}};
    for (size_t i = 0; i < sizeof words / sizeof *words; i++)
        due_instead(j, ONE, words[i][0], words[i][1], 19);
    due_instead(j, WEIGHED, "[99,1]", "[99]", 19);
    due_instead(j, WEIGHED, "[99,1]", "[99,1,0]", 19);
    due_instead(j, WEIGHED, "[99,1]", "[]", 19);
    due_instead(j, WEIGHED, "\"order\":3", "\"order\":4", 19);
    due_json(j, "a NUL behind a text", 0, ONE, sizeof ONE, 19);
    due_json(j, "a NUL in front of a text", 0, "\0" ONE, sizeof ONE, 19);
    static char wide[2 * sizeof ONE];
    for (size_t i = 0; i < sizeof ONE; i++)
        wide[2 * i] = ONE[i];
    due_json(j, "a text in UTF-16", 0, wide, 2 * strlen(ONE), 19);
    /* well formed, and no sheet */
    due_instead(j, ONE, ":2,", ":4,", 3);
    due_instead(j, ONE, ":2,", ":0,", 3);
    due_instead(j, ONE, "\"order\":0", "\"order\":4", 5);
    due_instead(j, ONE, "\"counts\":[1]", "\"counts\":[0]", 10);
    due_instead(j, ONE, "\"points\":[[1]]", "\"points\":[[0]]", 10);
    due_instead(j, ONE, "\"points\":[[1]]", "\"points\":[[2]]", 10);
    due_instead(j, ONE, "\"leads\":[[1]]", "\"leads\":[[2]]", 10);
    due_instead(j, ONE, "\"standard\":[[0]]", "\"standard\":[[1]]", 10);
    due_instead(j, ONE, "\"coefficients\":[[1]]", "\"coefficients\":[[255]]", 10);
    due_instead(j, WEIGHED, "[99,1]", "[0,1]", 15);
    due_instead(j, WEIGHED, "[99,1]", "[99,100]", 15);
    due_instead(j, WEIGHED, "[99,1]", "[1,99]", 10);
    due_instead(j, WEIGHED, "[99,1]", "[1,1]", taken(1, 61, 2, 3, 2));
    due_instead(j, WEIGHED, "\"counts\":[255]", "\"counts\":[7]", taken(1, 61, 2, 3, 2));
}

/* So many bytes: a beginning, one byte again and again, an end. */
static void due_long(struct json *j, const char *what, const char *before, char byte, const char *behind, size_t length, uint64_t due)
{
    static char text[ROOM];
    const size_t first = strlen(before), last = strlen(behind);
    memset(text, byte, length);
    memcpy(text, before, first);
    memcpy(text + length - last, behind, last);
    due_json(j, what, length, text, length, due);
}

/* Texts of as many bytes as may be, one less and one more; deep ones; numbers of very many digits; a million bytes. */
void json_lengths(struct json *j)
{
    static char million[1000000];
    static const char digits[] = "0123456789";
    for (size_t length = MISQAFUR_JSON_SIZE - 1; length <= MISQAFUR_JSON_SIZE + 1; length++) {
        const uint64_t due = length > MISQAFUR_JSON_SIZE ? 1 : 19;
        due_long(j, "blanks behind", ONE, ' ', "", length, due);
        due_long(j, "blanks in front", "", ' ', ONE, length, due);
        due_long(j, "breaks behind", ONE, '\n', "", length, due);
        due_long(j, "NULs behind", ONE, 0, "", length, due);
        due_long(j, "lists in lists", "{\"coefficients\":", '[', "", length, due);
        due_long(j, "lists alone", "", '[', "", length, due);
        due_long(j, "ends of lists", "{\"coefficients\":[", ']', "", length, due);
        due_long(j, "objects in objects", "", '{', "", length, due);
        due_long(j, "commas", "{\"coefficients\":[[1", ',', "", length, due);
        due_long(j, "quotes", "{", '"', "}", length, due);
        for (const char *digit = digits; *digit != 0; digit++) {
            due_long(j, "digits alone", "", *digit, "", length, due);
            due_long(j, "a long number", "{\"coefficients\":[[", *digit, ONE + 17, length, due);
            due_long(j, "a long modulus", "{\"coefficients\":[[1]],\"counts\":[1],\"leads\":[[1]],\"modulus\":", *digit,
                     ",\"order\":0,\"points\":[[1]],\"standard\":[[0]],\"variables\":1,\"weights\":[]}", length, due);
        }
    }
    memset(million, '0', sizeof million);
    memset(&j->back, 170, sizeof j->back);
    j->sheet = j->back;
    say_json(j, "a million zeros", 0, misqafur_sheet_read_json(&j->back, (uint8_t *)million, sizeof million) == 1);
    say_json(j, "no byte of the sheet", 0, memcmp(&j->sheet, &j->back, sizeof j->sheet) == 0);
}

/* The form of a sheet, by its numbers. */
static void due_shape(struct json *j, const char *what, struct shape s, uint64_t due)
{
    static struct made made;
    put_shape(j->document, &j->made.chance, &s);
    put_document(&made, j->document);
    due_json(j, what, s.n + 1000 * s.r, made.bytes[GIVEN], made.call.buffer[GIVEN].length, due);
}

static int is_prime(int number)
{
    for (int i = 0; i < 18; i++)
        if (primes[i] == number)
            return 1;
    return 0;
}

/* Well-formed texts of no sheet: every number as modulus, variables, order, weight; points and elements more than there is room for, also by
 * 256 and more, so that a count of fewer bits would fit; no elements. */
void json_shapes(struct json *j)
{
    static const size_t few[] = {0, 1, 2, 63, 64}, many[] = {65, 66, 127, 128, 255, 256, 257, 320, 1000, 3000};
    static const size_t elements[] = {0, 2, 448, 449, 450, 451, 511, 512, 513, 1023, 1024, 1025, 1026, 2050, 5000};
    for (int number = 0; number < 256; number++) {
        const int known = is_prime(number);
        due_shape(j, "a modulus", (struct shape){number, 0, 1, 2, 1, 1}, known ? 10 : 3);
        due_shape(j, "variables", (struct shape){5, 1, (size_t)number, 2, 1, 1}, 1 <= number && number <= 8 ? 10 : 4);
        due_shape(j, "an order", (struct shape){5, number, 2, 2, 1, 1}, number > 3 ? 5 : 10);
        due_shape(j, "3 before 4", (struct shape){number, 4, 9, 70, 1, 1}, known ? 4 : 3);
        due_shape(j, "4 before 5", (struct shape){5, 255, (size_t)number, 70, 1, 1}, 1 <= number && number <= 8 ? 5 : 4);
        for (int k = 0; k < 2; k++) {
            char weights[16];
            snprintf(weights, sizeof weights, k == 0 ? "[%d,1]" : "[99,%d]", number);
            due_instead(j, WEIGHED, "[99,1]", weights, 1 <= number && number <= 99 ? taken(1, 61, 2, 3, 2) : 15);
        }
    }
    for (size_t i = 0; i < sizeof few / sizeof *few; i++)
        for (size_t k = 0; k < sizeof elements / sizeof *elements; k++)
            if (few[i] * elements[k] < 40000)
                due_shape(j, "few points", (struct shape){5, 2, 1, few[i], elements[k], 1}, 10);
    for (size_t i = 0; i < sizeof many / sizeof *many; i++)
        for (size_t k = 0; k < sizeof elements / sizeof *elements; k++)
            if (many[i] * elements[k] < 40000)
                due_shape(j, "many points", (struct shape){5, 2, 1, many[i], elements[k], 1}, 8);
}
