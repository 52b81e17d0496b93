/* Part "changes": the stored calls in data/changes, a file for each change request, those of before M-106 with counts
 * of 1 (tools/replicates.py), those of before M-109 without weights (tools/weights.py). A file begins with
 * `landed K`; each block ends with `end` and is a call or a run of calls, what it is handed, and after it the
 * number returned and the FNV-1a hash of every lent table and answer buffer. */
#define _DEFAULT_SOURCE
#include "changes_block.h"
#include "parts.h"
#include "stored.h"

#include <glob.h>
#include <stdio.h>
#include <stdlib.h>
#include <string.h>

/* The request after which the file at hand was stored. */
static long landed;

/* A number of drawing up that was stored before M-105 has no cancellations: it is the low half. */
static int number_holds(const struct block *b, uint64_t number)
{
    if (b->call.kind == DRAW_UP && landed < 105)
        number = (uint32_t)number;
    return number == b->returned;
}

/* Five tables from this buffer on. */
static int tables_hold(const struct call *call, enum buffer first, const uint64_t hashes[TABLES])
{
    for (int t = 0; t < TABLES; t++)
        if (hash(&call->buffer[(int)first + t]) != hashes[t])
            return 0;
    return 1;
}

static int answers_hold(const struct call *call, const struct block *b)
{
    enum buffer which[READ];
    const size_t due = answer_buffers(call->kind, which);
    for (size_t i = 0; i < due; i++)
        if (hash(&call->buffer[which[i]]) != b->answers[i])
            return 0;
    return 1;
}

static int call_holds(struct guard *guard, const struct block *b, uint64_t choice)
{
    struct call lent = guard_lend(guard, &b->call, choice);
    performing = "a block of a change request";
    if (!number_holds(b, perform(&archive, &lent)) || !guard_intact(guard))
        return 0;
    if (!answers_hold(&lent, b) || (b->call.kind != READ_TEXT && !tables_hold(&lent, STATES, b->tables)))
        return 0;
    if (b->call.kind == LEAVE_OUT && !tables_hold(&lent, NEW_STATES, b->resulted))
        return 0;
    for (int i = GIVEN; i <= EXPONENTS; i++)
        if (hash(&lent.buffer[i]) != hash(&b->call.buffer[i]))
            return 0;
    return 1;
}

/* One step of a run on guarded copies of the call's tables; then the call has the tables and counts left. */
static int step_holds(struct guard *guard, struct call *call, const struct step *step, uint64_t choice)
{
    call->kind = step->kind;
    call->buffer[GIVEN] = (struct bytes){(uint8_t *)step->levels, step->count};
    struct call lent = guard_lend(guard, call, choice);
    uint32_t answer = (uint32_t)perform(&archive, &lent);
    if (answer != step->returned || !guard_intact(guard) || hash(&lent.buffer[GIVEN]) != hash(&call->buffer[GIVEN]))
        return 0;
    for (int t = 0; t < TABLES; t++)
        memcpy(call->buffer[t].at, lent.buffer[t].at, call->buffer[t].length);
    if (misqafur_refusal(answer) == 0) {
        call->n = misqafur_points(answer);
        call->r = misqafur_elements(answer);
    }
    return 1;
}

static int run_holds(struct guard *guard, const struct block *b, uint64_t choice)
{
    static uint8_t tables[TABLES][ROOM];
    struct call call = b->call;
    performing = "a run of a change request";
    memcpy(tables, b->bytes, sizeof tables);
    for (int t = 0; t < TABLES; t++)
        call.buffer[t].at = tables[t];
    for (size_t i = 0; i < b->steps_read; i++)
        if (!step_holds(guard, &call, &b->steps[i], choice))
            return 0;
    return call.n == b->finally[0] && call.r == b->finally[1] && tables_hold(&call, STATES, b->tables);
}

static int block_holds(struct guard *guard, const struct block *b, uint64_t choice)
{
    return b->run ? run_holds(guard, b, choice) : call_holds(guard, b, choice);
}

/* Each block of a file; one without a block, or that ends inside one, has been cut. */
static void read_file(const char *path, struct guard *guard, struct score *score)
{
    static struct block block;
    char *line = NULL;
    size_t room = 0;
    int whole = 0;
    FILE *file = fopen(path, "r");
    if (file == NULL) {
        perror(path);
        exit(2);
    }
    for (long at = 1; getline(&line, &room, file) > 0; at++) {
        line[strcspn(line, "\n")] = 0;
        char *rest = line + strcspn(line, " ");
        if (*rest != 0)
            *rest++ = 0;
        if (strcmp(line, "landed") == 0) {
            landed = strtol(rest, NULL, 10);
            continue;
        }
        whole = strcmp(line, "end") == 0;
        if (!whole) {
            block_take(&block, line, rest);
            continue;
        }
        int holds = block.known && block_holds(guard, &block, 0) && block_holds(guard, &block, UINT64_MAX);
        if (!holds)
            fprintf(stderr, "%s: the block that ends at line %ld %s\n", path, at,
                    block.known ? "does not hold" : "is not known");
        count(score, holds);
    }
    if (!whole)
        fprintf(stderr, "%s: cut\n", path);
    count(score, whole);
    free(line);
    fclose(file);
}

struct score stored_changes(const struct options *options)
{
    struct score score = {0, 0};
    struct guard *guard = guard_new();
    char pattern[4096];
    glob_t found;
    snprintf(pattern, sizeof pattern, "%s/changes/*.txt", options->data);
    if (glob(pattern, 0, NULL, &found) != 0) {
        perror(pattern);
        exit(2);
    }
    for (size_t i = 0; i < found.gl_pathc; i++)
        read_file(found.gl_pathv[i], guard, &score);
    globfree(&found);
    guard_free(guard);
    return score;
}
