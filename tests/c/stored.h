/* What the readers of stored results share. */
#ifndef STORED_H
#define STORED_H

#include "call.h"

/* All numbers of a line; gives how many. */
size_t numbers(const char *line, long *to, size_t most);

/* FNV-1a, 64 bits. */
uint64_t hash(const struct bytes *bytes);

#endif
