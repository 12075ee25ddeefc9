/* How cost grows: with the number of words in a list, and with VL. */
#ifndef GROWTH_H
#define GROWTH_H

#include "table.h"

enum { LENGTHS = 3 };
extern const uint32_t lengths[LENGTHS]; /* of VL */

/* Prints the straight line through the times of lists of n words, and how far from it they lie at most. */
void print_line(const char *side, const uint32_t *n, const double *times, int count);

/* Prints, for each kind whose execute rows were timed at every VL, the time for a byte that it moves. */
void print_bytes(void);

/* The name of the row of this kind at this VL, in room of MOST_NAME bytes. */
void name_execute_row(char *name, const struct kind *kind, uint32_t vl);

#endif
