/* Parts "short", "long" and "stack": every length below a size, lengths above 4 GiB, and how much stack
 * a call takes. */
#define _DEFAULT_SOURCE
#include "guard.h"
#include "made.h"
#include "parts.h"

#include <inttypes.h>
#include <stdio.h>
#include <stdlib.h>
#include <string.h>
#include <sys/mman.h>
#include <ucontext.h>

/* A call that is to succeed, but for the length of a buffer. */
static void make_good(struct made *made, enum kind kind)
{
    static const char records[] = "g1,mod 5 weight 7\n1,2\n";
    static const char json[] = "{\"coefficients\":[[1]],\"counts\":[1],\"leads\":[[1]],\"modulus\":2,\"order\":0,\"points\":[[1]],"
                               "\"standard\":[[0]],\"variables\":1,\"weights\":[]}";
    const char *text = kind == READ_JSON ? json : records;
    memset(made, 0, sizeof *made);
    made->chance.state = 7;
    make_call(made, is_handed_text(kind) ? INTERPOLATE : kind);
    made->call.kind = kind;
    if (is_handed_text(kind)) {
        memcpy(made->bytes[GIVEN], text, strlen(text));
        made->call.buffer[GIVEN].length = strlen(text);
        made->call.course = 2;
        lend(made, OUT, buffer_size(kind, OUT));
        lend(made, WEIGHTS, MISQAFUR_WEIGHTS_SIZE);
    }
}

/* Every length of one buffer below its size is refused with 6, and nothing changes. */
static int all_short(struct guard *guard, struct made *made, enum buffer which, size_t size)
{
    uint64_t kept = made->call.buffer[which].length;
    int holds = 1;
    for (size_t length = 0; length < size && holds; length++) {
        made->call.buffer[which].length = length;
        holds = refuses(guard, &made->call, length, 6, kind_names[made->call.kind]);
        if (!holds)
            fprintf(stderr, "short: that was with %zu bytes\n", length);
    }
    made->call.buffer[which].length = kept;
    return holds;
}

struct score short_buffers(const struct options *options)
{
    struct score score = {0, 0};
    struct guard *guard = guard_new();
    struct made *made = malloc(sizeof *made);
    (void)options;
    if (made == NULL)
        abort();
    for (int kind = 0; kind < KINDS; kind++) {
        make_good(made, (enum kind)kind);
        for (int i = 0; i < BUFFERS; i++) {
            size_t size = buffer_size((enum kind)kind, (enum buffer)i);
            if (size > 0)
                count(&score, all_short(guard, made, (enum buffer)i, size));
        }
    }
    free(made);
    guard_free(guard);
    return score;
}

#define FOUR_GIB ((size_t)1 << 32)

/* A call on zeros: the basis of no points, with one long region in the place of some buffers. */
static void long_call(struct score *score, uint8_t *zeros, enum kind kind, size_t given, size_t exponents,
                      uint64_t n, uint32_t expected)
{
    struct call call = {.kind = kind, .modulus = kind == DRAW_UP_PACKED ? 2 : 5, .variables = 8, .n = n, .r = 1};
    static uint8_t tables[2 * TABLES][MISQAFUR_COEFFICIENTS_SIZE], out[MISQAFUR_JSON_SIZE];
    call.variable = 8;
    for (int t = 0; t < TABLES; t++) {
        call.buffer[t] = (struct bytes){tables[t], table_sizes[t]};
        call.buffer[NEW_STATES + t] = (struct bytes){tables[TABLES + t], table_sizes[t]};
    }
    if (!is_handed_levels(kind))
        for (int t = 0; t < TABLES; t++)
            call.buffer[t] = (struct bytes){zeros, FOUR_GIB + 100 * (size_t)t};
    call.buffer[GIVEN] = (struct bytes){zeros, given};
    call.buffer[EXPONENTS] = (struct bytes){zeros, exponents};
    call.buffer[OUT] = (struct bytes){out, sizeof out};
    uint64_t number = perform(&archive, &call);
    if (number != expected)
        fprintf(stderr, "long: %s of %zu bytes returned %" PRIx64 " (hex)\n", kind_names[kind], given, number);
    count(score, number == expected);
}

/* The region is reserved and never written, so it takes no memory. Drawing up takes any number of levels: it reads them
 * all, and one point so many times is too often. */
struct score long_buffers(const struct options *options)
{
    struct score score = {0, 0};
    size_t length = FOUR_GIB + 65536;
    uint8_t *zeros = mmap(NULL, length, PROT_READ, MAP_PRIVATE | MAP_ANONYMOUS | MAP_NORESERVE, -1, 0);
    (void)options;
    if (zeros == MAP_FAILED) {
        perror("long: no address room of 4 GiB");
        count(&score, 0);
        return score;
    }
    long_call(&score, zeros, DRAW_UP, FOUR_GIB + 8, 0, 0, 13);
    long_call(&score, zeros, DRAW_UP, FOUR_GIB + 1, 0, 0, 7);
    long_call(&score, zeros, DRAW_UP_PACKED, FOUR_GIB + 8, 0, 0, 13);
    long_call(&score, zeros, DRAW_UP_PACKED, FOUR_GIB + 1, 0, 0, 7);
    long_call(&score, zeros, ADD_POINT, FOUR_GIB + 8, 0, 0, 7);
    long_call(&score, zeros, WITHDRAW_POINT, FOUR_GIB + 8, 0, 0, 7);
    long_call(&score, zeros, CHECK, 0, 0, 0, 0);
    long_call(&score, zeros, LEAVE_OUT, 0, 0, 0, 1 << 16);
    long_call(&score, zeros, WRITE_JSON, 0, 0, 0, 136 << 8);
    long_call(&score, zeros, INTERPOLATE, FOUR_GIB, 0, 0, 7);
    long_call(&score, zeros, INTERPOLATE, FOUR_GIB, 0, FOUR_GIB, 8);
    long_call(&score, zeros, WIRING, FOUR_GIB, 0, 0, 7);
    long_call(&score, zeros, WIRING, FOUR_GIB, 0, FOUR_GIB, 8);
    long_call(&score, zeros, REMAINDER, FOUR_GIB + 2, 16, 0, 7);
    long_call(&score, zeros, REMAINDER, 2, FOUR_GIB + 16, 0, 7);
    long_call(&score, zeros, REMAINDER, FOUR_GIB / 8, FOUR_GIB, 0, 8);
    long_call(&score, zeros, READ_TEXT, FOUR_GIB + 14, 0, 0, 1);
    long_call(&score, zeros, TIME_COURSE, FOUR_GIB + 14, 0, 0, 1);
    long_call(&score, zeros, READ_JSON, FOUR_GIB + 14, 0, 0, 1);
    munmap(zeros, length);
    return score;
}

#define PAINTED (4 << 20)
#define PAINT 0xA7

/* What the painted stack's context runs, and where it goes back. */
static struct call painted_call;
static ucontext_t back;

static void run_painted(void)
{
    perform(&archive, &painted_call);
}

/* How many bytes of stack the call takes, counted from the last painted byte. */
static size_t depth_of(const struct call *call)
{
    uint8_t *stack = malloc(PAINTED);
    ucontext_t context;
    size_t clean = 0;
    if (stack == NULL || getcontext(&context) != 0)
        abort();
    memset(stack, PAINT, PAINTED);
    painted_call = *call;
    context.uc_stack.ss_sp = stack;
    context.uc_stack.ss_size = PAINTED;
    context.uc_link = &back;
    makecontext(&context, run_painted, 0);
    if (swapcontext(&back, &context) != 0)
        abort();
    while (clean < PAINTED && stack[clean] == PAINT)
        clean++;
    free(stack);
    return PAINTED - clean;
}

_Static_assert(MISQAFUR_STACK <= 163840, "any call is to do with 160 KiB of stack");

/* The deepest of many calls of each kind, against what the header promises. */
struct score stack_depth(const struct options *options)
{
    struct score score = {0, 0};
    struct made *made = malloc(sizeof *made);
    size_t deepest[KINDS] = {0};
    if (made == NULL)
        abort();
    for (int i = 0; i < 20 * KINDS; i++) {
        enum kind kind = (enum kind)(i % KINDS);
        memset(made, 0, sizeof *made);
        made->chance.state = options->seed + (uint64_t)i;
        make_any(made, kind);
        size_t depth = depth_of(&made->call);
        deepest[kind] = depth > deepest[kind] ? depth : deepest[kind];
    }
    free(made);
    for (int kind = 0; kind < KINDS; kind++) {
        printf("  %-14s took %zu bytes of stack; the header promises %d\n", kind_names[kind], deepest[kind],
               MISQAFUR_STACK);
        count(&score, 0 < deepest[kind] && deepest[kind] <= MISQAFUR_STACK);
    }
    return score;
}
