/* Guarded memory and comparison. */
#define _DEFAULT_SOURCE
#include "guard.h"

#include <inttypes.h>
#include <signal.h>
#include <stdio.h>
#include <stdlib.h>
#include <string.h>
#include <sys/mman.h>
#include <unistd.h>

#define EDGE (1 << 20) /* bytes that cannot be touched, on either side of a room */
#define MARGIN 64
#define MARK 0xC3

struct guard {
    uint8_t *room[BUFFERS]; /* ROOM bytes between two edges that cannot be touched */
    struct bytes lent[BUFFERS];
    uint8_t plain[BUFFERS][ROOM]; /* the reference's copies */
};

static const char *const buffer_names[BUFFERS] = {"states", "standard", "leads",     "coefficients",
                                                  "counts", "given",    "exponents", "out",
                                                  "weights", "new states", "new standard", "new leads",
                                                  "new coefficients", "new counts"};

_Thread_local const char *performing = "a call";

static void touched(int signal)
{
    static const char text[] = ": touched memory outside its buffers\n";
    (void)signal;
    if (write(2, performing, strlen(performing)) < 0 || write(2, text, sizeof text - 1) < 0)
        _exit(4);
    _exit(3);
}

void guard_watch(void)
{
    struct sigaction action = {.sa_handler = touched};
    sigaction(SIGSEGV, &action, NULL);
    sigaction(SIGBUS, &action, NULL);
}

struct guard *guard_new(void)
{
    struct guard *guard = malloc(sizeof *guard);
    if (guard == NULL)
        abort();
    for (int i = 0; i < BUFFERS; i++) {
        uint8_t *at = mmap(NULL, ROOM + 2 * EDGE, PROT_NONE, MAP_PRIVATE | MAP_ANONYMOUS, -1, 0);
        if (at == MAP_FAILED || mprotect(at + EDGE, ROOM, PROT_READ | PROT_WRITE) != 0)
            abort();
        guard->room[i] = at + EDGE;
        guard->lent[i] = (struct bytes){NULL, 0};
    }
    return guard;
}

void guard_free(struct guard *guard)
{
    for (int i = 0; i < BUFFERS; i++)
        munmap(guard->room[i] - EDGE, ROOM + 2 * EDGE);
    free(guard);
}

/* The marked bytes beside a buffer: the side that has no forbidden page. */
static struct bytes margin(const struct guard *guard, int i)
{
    const struct bytes *lent = &guard->lent[i];
    size_t room = ROOM - lent->length, length = room < MARGIN ? room : MARGIN;
    if (lent->at == guard->room[i])
        return (struct bytes){lent->at + lent->length, length};
    return (struct bytes){lent->at - length, length};
}

static void copy(uint8_t *to, const struct bytes *from)
{
    if (from->length > ROOM)
        abort();
    if (from->length > 0)
        memcpy(to, from->at, from->length);
}

struct call guard_lend(struct guard *guard, const struct call *call, uint64_t choice)
{
    struct call lent = *call;
    for (int i = 0; i < BUFFERS; i++) {
        size_t length = call->buffer[i].length;
        int first = (int)(choice >> i & 1);
        guard->lent[i].at = first ? guard->room[i] : guard->room[i] + ROOM - length;
        guard->lent[i].length = length;
        copy(guard->lent[i].at, &call->buffer[i]);
        struct bytes beside = margin(guard, i);
        memset(beside.at, MARK, beside.length);
        lent.buffer[i] = guard->lent[i];
        if (length == 0 && first)
            lent.buffer[i].at = NULL;
    }
    return lent;
}

int guard_intact(const struct guard *guard)
{
    for (int i = 0; i < BUFFERS; i++) {
        struct bytes beside = margin(guard, i);
        for (size_t k = 0; k < beside.length; k++)
            if (beside.at[k] != MARK)
                return 0;
    }
    return 1;
}

int same_bytes(const struct call *a, const struct call *b, const char *name)
{
    for (int i = 0; i < BUFFERS; i++) {
        const uint8_t *left = a->buffer[i].at, *right = b->buffer[i].at;
        size_t length = a->buffer[i].length, k = 0;
        if (length == 0 || memcmp(left, right, length) == 0)
            continue;
        while (left[k] == right[k])
            k++;
        fprintf(stderr, "%s: %s byte %zu is %d, expected %d\n", name, buffer_names[i], k, left[k], right[k]);
        return 0;
    }
    return 1;
}

/* Performs the call with its buffers claimed to be longer; they are as long as before afterwards. */
static uint64_t perform_claiming(const struct calls *by, const struct call *call, const size_t more[BUFFERS])
{
    struct call claimed = *call;
    for (int i = 0; i < BUFFERS; i++)
        claimed.buffer[i].length += more[i];
    return perform(by, &claimed);
}

static int compare_with_reference(struct guard *guard, const struct call *call, uint64_t choice,
                                  const size_t more[BUFFERS], const char *name, uint64_t *number)
{
    struct call tested = guard_lend(guard, call, choice), expected = *call;
    for (int i = 0; i < BUFFERS; i++) {
        copy(guard->plain[i], &call->buffer[i]);
        expected.buffer[i].at = guard->plain[i];
    }
    uint64_t wanted = perform_claiming(&reference, &expected, more);
    performing = name;
    *number = perform_claiming(&archive, &tested, more);
    if (*number != wanted) {
        fprintf(stderr, "%s: returned %" PRIx64 " (hex), the reference %" PRIx64 "\n", name, *number, wanted);
        return 0;
    }
    if (!guard_intact(guard)) {
        fprintf(stderr, "%s: bytes beside a buffer have changed\n", name);
        return 0;
    }
    return same_bytes(&tested, &expected, name);
}

int agrees(struct guard *guard, const struct call *call, uint64_t choice, const char *name, uint64_t *number)
{
    static const size_t none[BUFFERS] = {0};
    return compare_with_reference(guard, call, choice, none, name, number);
}

int agrees_claiming(struct guard *guard, const struct call *call, const size_t more[BUFFERS], const char *name,
                    uint64_t *number)
{
    return compare_with_reference(guard, call, 0, more, name, number);
}

int refuses(struct guard *guard, const struct call *call, uint64_t choice, uint64_t due, const char *name)
{
    struct call lent = guard_lend(guard, call, choice);
    performing = name;
    uint64_t number = perform(&archive, &lent);
    if (number != due || !guard_intact(guard)) {
        fprintf(stderr, "%s: returned %" PRIx64 " (hex), due is %" PRIx64 "\n", name, number, due);
        return 0;
    }
    return same_bytes(&lent, call, name);
}
