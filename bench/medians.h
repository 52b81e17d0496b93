/* Ratios of times, and their median and ends. */
#ifndef MEDIANS_H
#define MEDIANS_H

#include <stdio.h>
#include <stdlib.h>

#define MOST_RATIOS 512

struct ratios {
    size_t count;
    double of[MOST_RATIOS];
};

static inline void keep_ratio(struct ratios *list, double ratio)
{
    list->of[list->count++] = ratio;
}

static inline int increasing(const void *a, const void *b)
{
    double x = *(const double *)a, y = *(const double *)b;
    return (x > y) - (x < y);
}

/* Says of what, against what, and the median and the ends; of no ratios nothing. */
static inline void print_median(const char *of, const char *against, struct ratios *list)
{
    if (list->count == 0)
        return;
    qsort(list->of, list->count, sizeof *list->of, increasing);
    printf("median ratio, %s against %s: %.2f (%.2f to %.2f, %zu inputs)\n", of, against, list->of[list->count / 2],
           list->of[0], list->of[list->count - 1], list->count);
}

#endif
