/* The plain list of points, and one call beside it. */
#include "plain_list.h"

#include <string.h>

void list_begin(struct list *list, struct made *made, int p, int m, uint64_t order)
{
    *list = (struct list){.p = p, .m = m};
    made->call = (struct call){.modulus = (uint64_t)p, .variables = (uint64_t)m, .order = order, .r = 1};
    if (order == MISQAFUR_WEIGHT)
        made->call.weights = random_weights(&made->chance, (uint64_t)m);
    for (int t = 0; t < TABLES; t++)
        lend(made, (enum buffer)t, table_sizes[t]);
}

/* The place of a point in the list; its length if it is not there. */
static size_t place_of(const struct list *list, const uint8_t *point)
{
    size_t i = 0;
    while (i < list->n && memcmp(list->points + 8 * i, point, 8) != 0)
        i++;
    return i;
}

/* Whether these are levels; then point has their residues. */
static int residues(const struct list *list, const uint8_t *levels, uint8_t point[8])
{
    memset(point, 0, 8);
    for (int k = 0; k < list->m; k++) {
        int level = (int8_t)levels[k];
        if (level <= -list->p || level >= list->p)
            return 0;
        point[k] = (uint8_t)(level < 0 ? level + list->p : level);
    }
    return 1;
}

size_t list_arrivals(const struct list *list)
{
    size_t sum = 0;
    for (size_t i = 0; i < list->n; i++)
        sum += list->counts[i];
    return sum;
}

static uint32_t list_add(struct list *list, const uint8_t *levels, size_t length)
{
    uint8_t point[8];
    if (length != (size_t)list->m)
        return 7;
    if (!residues(list, levels, point))
        return 9;
    size_t place = place_of(list, point);
    if (place == list->n && list->n == 64)
        return 8;
    if (place < list->n && list->counts[place] == 255)
        return 13;
    if (place == list->n)
        memcpy(list->points + 8 * list->n++, point, 8);
    list->counts[place]++;
    return 0;
}

static uint32_t list_withdraw(struct list *list, const uint8_t *levels, size_t length)
{
    uint8_t point[8];
    if (length != (size_t)list->m)
        return 7;
    if (!residues(list, levels, point))
        return 9;
    size_t place = place_of(list, point);
    if (place == list->n)
        return 12;
    if (--list->counts[place] > 0)
        return 0;
    uint8_t *at = list->points + 8 * place, *count = list->counts + place;
    memmove(at, at + 8, 8 * (--list->n - place));
    memmove(count, count + 1, list->n - place);
    memset(list->points + 8 * list->n, 0, 8);
    list->counts[list->n] = 0;
    return 0;
}

uint32_t list_without(const struct list *list, uint64_t variable, struct list *left)
{
    unsigned sums[64] = {0};
    *left = (struct list){.p = list->p, .m = list->m - 1};
    if (list->m == 1)
        return 16;
    for (size_t i = 0; i < list->n; i++) {
        uint8_t point[8] = {0};
        memcpy(point, list->points + 8 * i, variable - 1);
        memcpy(point + variable - 1, list->points + 8 * i + variable, 8 - variable);
        size_t place = place_of(left, point);
        if (place == left->n)
            memcpy(left->points + 8 * left->n++, point, 8);
        sums[place] += list->counts[i];
        left->counts[place] = (uint8_t)sums[place];
        if (sums[place] > 255)
            return 13;
    }
    return 0;
}

int operation(struct made *made, struct list *list, uint32_t *answer)
{
    struct call *call = &made->call;
    const struct bytes *levels = &call->buffer[GIVEN];
    *answer = (call->kind == ADD_POINT ? list_add : list_withdraw)(list, levels->at, levels->length);
    uint32_t number = (uint32_t)perform(&archive, call);
    if (misqafur_refusal(number) != *answer || (*answer != 0 && number != *answer))
        return 0;
    if (*answer == 0) {
        call->n = misqafur_points(number);
        call->r = misqafur_elements(number);
    }
    return call->n == list->n && memcmp(made->bytes[STATES], list->points, 512) == 0 &&
           memcmp(made->bytes[COUNTS], list->counts, 64) == 0;
}
