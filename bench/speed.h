/* Whether the core runs at its full speed, or is slowed by what shares it: a neighbour on the same core of the machine
 * that carries this one does not show in the load. */
#ifndef SPEED_H
#define SPEED_H

#include <stdbool.h>

/* By the time of some fixed work, beside the least time that it ever took. */
bool is_at_full_speed(void);

/* False: the core has not been at full speed for a long time. */
bool wait_for_full_speed(void);

#endif
