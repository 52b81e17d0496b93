/* Guarded memory: a call's buffers, each at the edge of a page that cannot be touched, with known
 * bytes on its other side; and the comparison of two performed calls. */
#ifndef GUARD_H
#define GUARD_H

#include "call.h"

/* No buffer in a test is longer than this: a sheet's text as JSON and some bytes more. */
#define ROOM 135168

/* Nor than this, but for such a text. */
#define USUAL_ROOM 32768

struct guard;

struct guard *guard_new(void);
void guard_free(struct guard *guard);

/* The same call on guarded copies of its buffers. Each bit of the choice places a buffer before or
 * behind its forbidden page; an empty buffer there is NULL. */
struct call guard_lend(struct guard *guard, const struct call *call, uint64_t choice);

/* Whether the bytes around the buffers last lent are as they were. */
int guard_intact(const struct guard *guard);

/* Has the archive and the reference perform the call, each on copies of its own: whether the
 * numbers, every lent byte and the bytes around agree. If not, it says on standard error how.
 * *number is what the archive returned. */
int agrees(struct guard *guard, const struct call *call, uint64_t choice, const char *name, uint64_t *number);

/* The same, but each buffer is claimed to be longer by so many bytes than it is: the forbidden page stands at
 * its true end, so that a byte past it is not touched unnoticed. */
int agrees_claiming(struct guard *guard, const struct call *call, const size_t more[BUFFERS], const char *name,
                    uint64_t *number);

/* Whether the archive answers just this number, on copies of the buffers, and no lent byte changes. */
int refuses(struct guard *guard, const struct call *call, uint64_t choice, uint64_t due, const char *name);

/* Whether every buffer of the first call has the bytes of the second's. If not, it says on standard error where. */
int same_bytes(const struct call *a, const struct call *b, const char *name);

/* From now on a call that touches a forbidden page ends the program with a line that names the call. */
void guard_watch(void);

/* What this thread performs, for that line. */
extern _Thread_local const char *performing;

#endif
