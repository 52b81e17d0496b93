/* The last field of a text's header, by docs/SCOPE.md: `mod`, a space, one to three digits; then nothing, which is grevlex, or
 * a space and an order's word; behind `weight` a number of one or two digits for each name, a space before each. */
#include "reference_header.h"

#include <string.h>

int reference_digits(const uint8_t *bytes, size_t length, size_t most)
{
    int number = 0;
    if (length < 1 || length > most)
        return -1;
    for (size_t i = 0; i < length; i++) {
        if (bytes[i] < '0' || bytes[i] > '9')
            return -1;
        number = 10 * number + bytes[i] - '0';
    }
    return number;
}

/* How many bytes stand before the next space, or the end. */
static size_t before_space(const uint8_t *bytes, size_t length)
{
    size_t count = 0;
    while (count < length && bytes[count] != ' ')
        count++;
    return count;
}

/* As many weights as names, and nothing else. */
static int read_weights(const uint8_t *bytes, size_t length, struct header *header)
{
    for (size_t k = 0; k < header->names; k++) {
        if (length == 0 || *bytes != ' ')
            return 0;
        size_t wide = before_space(bytes + 1, length - 1);
        int weight = reference_digits(bytes + 1, wide, 2);
        if (weight < 0)
            return 0;
        if (k < 8)
            header->packed |= (uint64_t)weight << 8 * k;
        bytes += 1 + wide;
        length -= 1 + wide;
    }
    return length == 0;
}

int reference_header(const uint8_t *bytes, size_t length, struct header *header)
{
    static const char *const words[4] = {" lex", " grlex", " grevlex", ""};
    static const uint64_t orders[4] = {0, 1, 2, 2};
    static const char by_weight[] = " weight";
    if (length < 4 || memcmp(bytes, "mod ", 4) != 0)
        return 0;
    size_t wide = before_space(bytes + 4, length - 4), rest = length - 4 - wide, word = strlen(by_weight);
    const uint8_t *behind = bytes + 4 + wide;
    header->modulus = reference_digits(bytes + 4, wide, 3);
    header->packed = 0;
    if (header->modulus < 0)
        return 0;
    for (int i = 0; i < 4; i++)
        if (rest == strlen(words[i]) && memcmp(behind, words[i], rest) == 0) {
            header->order = orders[i];
            return 1;
        }
    header->order = 3;
    return rest >= word && memcmp(behind, by_weight, word) == 0 && read_weights(behind + word, rest - word, header);
}
