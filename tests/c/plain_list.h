/* The plain list of points with their counts that lists of additions and withdrawals are held against, and tables
 * beside it. */
#ifndef PLAIN_LIST_H
#define PLAIN_LIST_H

#include "made.h"

/* The plain list: it is fed settings and levels alone. */
struct list {
    int p, m;
    size_t n;
    uint8_t points[512], counts[64];
};

/* The most points, each as often as its count, that a list may have for its levels to find room in a call's buffer. */
#define MOST_ARRIVALS (ROOM / 8)

/* How many points that are, each as often as its count. */
size_t list_arrivals(const struct list *list);

/* An empty list modulo p in m variables, and a call on fresh tables under these settings; by weight with random weights. */
void list_begin(struct list *list, struct made *made, int p, int m, uint64_t order);

/* Has the archive add or withdraw, by the call's kind, and keeps n and r. Whether the list's own answer came back,
 * which is *answer, and the states and counts are the list's. */
int operation(struct made *made, struct list *list, uint32_t *answer);

/* Whether drawing up the list's points, each as often as its count, in another order, gives n, r and three tables of the
 * call, and each point its count; and drawing up each of them once or twice n, r and these tables. */
int drawn_alike(struct made *made, struct made *drawn, const struct list *list);

/* The list without the level of a variable: points that become equal are one, at the place of the first, with their counts
 * added. Gives the refusal due, 13 or 16, and then there is none. */
uint32_t list_without(const struct list *list, uint64_t variable, struct list *left);

/* Whether leaving out a variable of either set of tables has the number due, which is *due; then states and counts of the first
 * are the list's without it, and n, r and three tables of both are the same, and each point's count. With other counts over the
 * second, n, r and these tables still are. */
int left_alike(struct made *made, struct made *drawn, const struct list *list, uint32_t *due);

/* Whether a remainder over either set of tables has the number due, which is *due, and leaves the same bytes. */
int remainders_alike(struct made *made, struct made *drawn, uint32_t *due);

/* Whether the wiring call, handed values that are equal at each point, each in the order of its own points, answers
 * the same over either set of tables, and as the reference does; values of another number than the points, too. */
int wirings_alike(struct guard *guard, struct made *made, struct made *drawn, const struct list *list);

#endif
