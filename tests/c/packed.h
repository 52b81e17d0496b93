/* Drawing up in both ways: the general one, and packed. */
#ifndef PACKED_H
#define PACKED_H

#include "guard.h"

/* Has the archive draw up what a call of either kind hands over, in both ways and each on guarded copies of its own. Modulo 2
 * n, r or the refusal and every lent byte have to be the same; with any other modulus the packed call answers 3 and changes
 * nothing. If not, it says on standard error how. */
int drawn_both_ways(struct guard *general, struct guard *packed, const struct call *call, uint64_t choice, const char *name);

#endif
