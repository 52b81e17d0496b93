/* Drawing up modulo 2: the archive's packed call beside its general one, and beside plain packed C. */
#ifndef PACKED_RATIOS_H
#define PACKED_RATIOS_H

/* Whether all three leave the same on every input; gives how many do not. */
int packed_compare(void);

/* Their times and ratios, a line for each kind of input; gives how many results differ. */
int packed_measure(void);

#endif
