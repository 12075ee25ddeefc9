/* What the rows are measured in. */
#ifndef CLOCK_H
#define CLOCK_H

/* Nanoseconds of a clock that only goes forward; in bench/count, instructions. */
double now(void);

#endif
