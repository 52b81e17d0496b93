/* One block of the stored calls in data/changes, as it is read:
 *   call KIND                        settings P M ORDER W          claim N R
 *   base P M ORDER W N, then N lines state V..: the tables are the basis of these residues
 *   counts C..: of these states; without it 1 each
 *   lengths A B C D E: of the tables, bytes past their sizes 170; without a base all bytes are 170
 *   poke T AT BYTE                   levels, values, coefficients or exponents K v..
 *   gene G: the variable to be left out
 *   results A B C D E: the lengths of the tables without it, filled with 170
 *   course C: that is to be run forward
 *   text SEG..: hexadecimal, HH*COUNT for a run of one byte, - for none
 *   buffers L..: the answer buffers in the order of the arguments, filled with 170
 *   number .. and shown .. are for the reader of the file
 *   returned U                       tables H..   resulted H..    answers H..
 * W is the number of the weights. With the kind run, the tables are at first those of no points, and the calls stand in steps:
 *   do add K v.. returns U           do withdraw K v.. returns U   finally N R
 * A block with a kind or a word that is not known is marked as such. */
#ifndef CHANGES_BLOCK_H
#define CHANGES_BLOCK_H

#include "guard.h"

#define STEPS 1024
#define STEP_LEVELS 16

/* The answer buffers of a call of this kind, in the order of its arguments, READ at most; gives how many. */
#define READ 4
size_t answer_buffers(enum kind kind, enum buffer which[READ]);

/* One call of a run. */
struct step {
    enum kind kind;
    uint64_t returned;
    uint8_t levels[STEP_LEVELS];
    size_t count;
};

struct block {
    struct call call;
    int known;        /* its kind and every word so far */
    int based;        /* the tables are those of a basis */
    uint64_t base[4]; /* modulus, variables, order, weights */
    uint8_t points[512];
    size_t points_read;
    uint8_t counts[MISQAFUR_COUNTS_SIZE];
    size_t counts_read;
    int run;          /* it is no single call: the steps are performed one after the other */
    struct step steps[STEPS];
    size_t steps_read;
    uint64_t finally[2]; /* n and r after the last step that was taken */
    uint64_t returned, tables[TABLES], resulted[TABLES], answers[READ];
    uint8_t bytes[BUFFERS][ROOM];
};

/* Takes in one line: its first word, and the rest of it. */
void block_take(struct block *b, const char *word, const char *rest);

#endif
