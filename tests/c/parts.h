/* The parts of the test program. */
#ifndef PARTS_H
#define PARTS_H

#include <stdint.h>

#define MOST_THREADS 64

struct options {
    const char *data;   /* the folder of stored results */
    uint64_t seed;      /* of the random calls */
    uint64_t cases;     /* random calls of each kind */
    int threads;        /* that make them at once */
};

struct score {
    long passed, failed;
};

static inline void count(struct score *score, int holds)
{
    if (holds)
        score->passed++;
    else
        score->failed++;
}

struct score stored_calls(const struct options *options);
struct score stored_texts(const struct options *options);
struct score stored_changes(const struct options *options);
struct score examples(const struct options *options);
struct score names(const struct options *options);
struct score lists(const struct options *options);
struct score emptied(const struct options *options);
struct score random_calls(const struct options *options);
struct score short_buffers(const struct options *options);
struct score long_buffers(const struct options *options);
struct score stack_depth(const struct options *options);
struct score levels(const struct options *options);
struct score past_sizes(const struct options *options);
struct score overlapping(const struct options *options);
struct score all_faults(const struct options *options);
struct score changed_bytes(const struct options *options);
struct score wrong_numbers(const struct options *options);
struct score packed_drawing(const struct options *options);
struct score replicates(const struct options *options);
struct score weights(const struct options *options);
struct score leaving(const struct options *options);
struct score courses(const struct options *options);
struct score json(const struct options *options);

#endif
