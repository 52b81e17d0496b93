/* A text by docs/SCOPE.md: the records and the contents of their fields, then their form. */
#include "reference_records.h"

#include <stdlib.h>
#include <string.h>

/* Reads on in a quoted field, behind its opening quote; says whether it is closed. */
static int read_quoted(struct records *to, const uint8_t *text, size_t length, size_t *at)
{
    while (*at < length) {
        uint8_t byte = text[(*at)++];
        if (byte == '"') {
            if (*at == length || text[*at] != '"')
                return 1;
            ++*at;
        }
        to->bytes[to->used++] = byte;
    }
    return 0;
}

static void read_unquoted(struct records *to, const uint8_t *text, size_t length, size_t *at)
{
    while (*at < length && text[*at] != ',' && text[*at] != '"' && text[*at] != '\r' && text[*at] != '\n')
        to->bytes[to->used++] = text[(*at)++];
}

/* Reads the field at *at; says whether it is whole. */
static int read_field(struct records *to, const uint8_t *text, size_t length, size_t *at)
{
    struct field *field = &to->fields[to->field_count++];
    int whole = 1;
    field->start = to->used;
    if (*at < length && text[*at] == '"') {
        ++*at;
        whole = read_quoted(to, text, length, at);
    } else {
        read_unquoted(to, text, length, at);
    }
    field->length = to->used - field->start;
    return whole;
}

/* Steps over the end of a record at *at, and says whether there is one. */
static int read_end(const uint8_t *text, size_t length, size_t *at)
{
    if (*at == length)
        return 1;
    if (text[*at] == '\r' && *at + 1 < length && text[*at + 1] == '\n')
        ++*at;
    else if (text[*at] != '\n')
        return 0;
    ++*at;
    return 1;
}

static int read_record(struct records *to, const uint8_t *text, size_t length, size_t *at)
{
    for (;;) {
        if (!read_field(to, text, length, at))
            return 0;
        if (*at == length || text[*at] != ',')
            return read_end(text, length, at);
        ++*at;
    }
}

struct records *reference_records(const uint8_t *text, size_t length)
{
    struct records *to = malloc(sizeof *to);
    size_t at = 0;
    if (to == NULL)
        abort();
    to->used = to->field_count = to->count = 0;
    to->broken = length == 0;
    to->first_field[0] = 0;
    while (at < length && !to->broken) {
        if (read_record(to, text, length, &at))
            to->first_field[++to->count] = to->field_count;
        else
            to->broken = 1;
    }
    return to;
}

int reference_read_level(const struct records *from, size_t field, int *level)
{
    const uint8_t *bytes = from->bytes + from->fields[field].start;
    size_t length = from->fields[field].length;
    int negative = length > 0 && bytes[0] == '-';
    int number = reference_digits(bytes + negative, length - (size_t)negative, 3);
    *level = negative ? -number : number;
    return number >= 0;
}

static int record_is_good(const struct records *from, size_t record, size_t header_fields)
{
    int level;
    if (from->first_field[record + 1] - from->first_field[record] != header_fields)
        return 0;
    for (size_t i = from->first_field[record]; i < from->first_field[record + 1]; i++)
        if (!reference_read_level(from, i, &level))
            return 0;
    return 1;
}

uint64_t reference_refused(uint64_t refusal, uint64_t record)
{
    return refusal + 256 * record;
}

/* Reads the header's last field, the others being names; says whether it is one. */
static int read_last_field(const struct records *from, struct header *header)
{
    header->names = from->first_field[1] - 1;
    const struct field *last = &from->fields[header->names];
    return reference_header(from->bytes + last->start, last->length, header);
}

size_t reference_fault_of_form(const struct records *from, struct header *header,
                               int (*good)(const struct records *, size_t record))
{
    if (from->count == 0 || !read_last_field(from, header))
        return 1;
    for (size_t record = 1; record < from->count; record++)
        if (!record_is_good(from, record, from->first_field[1]) || (good != NULL && !good(from, record)))
            return record + 1;
    return from->broken ? from->count + 1 : 0;
}

int reference_read_point(const struct records *from, size_t record, int p, int m, uint8_t point[8])
{
    memset(point, 0, 8);
    for (int k = 0; k < m; k++) {
        int level;
        reference_read_level(from, from->first_field[record] + (size_t)k, &level);
        if (!reference_in_range(p, level))
            return 0;
        point[k] = reference_residue(p, level);
    }
    return 1;
}
