/* The test program: test DATA SEED CASES THREADS PART.. runs the named parts, prints a line for each,
 * and ends with the sum. */
#include "guard.h"
#include "parts.h"

#include <stdio.h>
#include <stdlib.h>
#include <string.h>

static const struct {
    const char *name;
    struct score (*run)(const struct options *);
} parts[] = {{"calls", stored_calls}, {"changes", stored_changes}, {"texts", stored_texts}, {"examples", examples},
             {"levels", levels},       {"short", short_buffers}, {"long", long_buffers},   {"past", past_sizes},
             {"overlap", overlapping}, {"faults", all_faults},   {"bytes", changed_bytes}, {"numbers", wrong_numbers},
             {"names", names},
             {"replicates", replicates}, {"packed", packed_drawing}, {"weights", weights}, {"leaving", leaving},
             {"courses", courses},     {"json", json},           {"stack", stack_depth},   {"lists", lists},
             {"emptied", emptied},     {"random", random_calls}};

static struct score run_part(const char *name, const struct options *options)
{
    for (size_t i = 0; i < sizeof parts / sizeof *parts; i++)
        if (strcmp(name, parts[i].name) == 0)
            return parts[i].run(options);
    fprintf(stderr, "no part %s\n", name);
    exit(2);
}

int main(int count, char **words)
{
    if (count < 6) {
        fprintf(stderr, "usage: test DATA SEED CASES THREADS PART..\n");
        return 2;
    }
    struct options options = {words[1], strtoull(words[2], NULL, 10), strtoull(words[3], NULL, 10), atoi(words[4])};
    struct score sum = {0, 0};
    if (options.threads < 1 || options.threads > MOST_THREADS)
        return 2;
    guard_watch();
    for (int i = 5; i < count; i++) {
        struct score score = run_part(words[i], &options);
        if (score.passed + score.failed == 0) {
            fprintf(stderr, "%s: nothing was tried\n", words[i]);
            score.failed = 1;
        }
        printf("%s: %ld passed, %ld failed\n", words[i], score.passed, score.failed);
        fflush(stdout);
        sum.passed += score.passed;
        sum.failed += score.failed;
    }
    printf("%ld passed, %ld failed\n", sum.passed, sum.failed);
    return sum.failed == 0 ? 0 : 1;
}
