/* Five of the calls in plain C, tuned for speed and with no proof: the measure that the archive is
 * held against. Each has the type of the exported call; settings and lengths must be good ones, and
 * of the refusals only 8 (distinct points), 10, 12 and 13 are looked for. By exchange steps there are no cancellations to
 * count: drawing up answers none. */
#ifndef PLAIN_H
#define PLAIN_H

#include "misqafur.h"

__typeof__(misqafur_draw_up) plain_draw_up;
__typeof__(misqafur_add_point) plain_add_point;
__typeof__(misqafur_withdraw_point) plain_withdraw_point;
__typeof__(misqafur_check) plain_check;
__typeof__(misqafur_remainder) plain_remainder;

/* Drawing up once more, by the method that the archive has; it counts the cancellations. */
__typeof__(misqafur_draw_up) rows_draw_up;

#endif
