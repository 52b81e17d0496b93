/* What the files of part "json" share. */
#ifndef JSON_H
#define JSON_H

#include "made_json.h"
#include "parts.h"

struct json {
    struct score score;
    struct guard *guard;
    struct made made;
    struct misqafur_sheet sheet, back;
    uint8_t text[MISQAFUR_JSON_SIZE], again[MISQAFUR_JSON_SIZE];
    struct document *document;
};

void say_json(struct json *j, const char *what, uint64_t at, int holds);

/* Has the archive read a text: against the reference in every byte; where it is taken, written again it is the same text. Gives the
 * number. */
uint64_t read_json(struct json *j, const char *what, uint64_t at, const void *text, size_t length);

/* The same, and this number is due. */
void due_json(struct json *j, const char *what, uint64_t at, const void *text, size_t length, uint64_t due);

/* Makes the sheet of no points under these settings, and that of some. */
void json_begin(struct json *j, uint64_t p, uint64_t m, uint64_t order, uint64_t weights);
void json_draw_up(struct json *j, const uint8_t *levels, size_t length);

/* Writes the sheet, by the archive and the reference, and reads it back: every byte of the struct comes back, and the text is written
 * again. Gives the text's length, 0 if it is refused. */
size_t json_there_and_back(struct json *j, const char *what, uint64_t at);

/* Every byte of so many texts, up to ten, changed, left out, put in; bytes of so many random texts. */
void json_each_byte(struct json *j, size_t texts);
void json_random_damage(struct json *j, uint64_t texts);

/* Texts as they stand: those of docs/SCOPE.md and the readings taken of it; the same in other words; long ones and deep ones; settings,
 * points and elements that no sheet has. */
void json_examples(struct json *j);
void json_other_words(struct json *j);
void json_lengths(struct json *j);
void json_shapes(struct json *j);

#endif
