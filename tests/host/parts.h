/* The parts of the comparison. Each chooses what it gives, makes its calls on both sides and has them judged. */
#ifndef PARTS_H
#define PARTS_H

#include <stdint.h>

/* decode, encode, partner */
void compare_words(void);

/* execute, percent */
void compare_steps(void);

/* execute, on the second program's cases, and with partner on its sweeps: they are made with this seed and those after
 * it. Each says how many there were, and returns 0 where they are too few. */
int compare_cases(uint32_t seed);
int compare_sweeps(uint32_t seed);

/* run: the lists are made with this seed and those after it. It says how many were accepted with the shortest report,
 * and returns 0 where they are too few. */
int compare_runs(uint32_t seed);

/* print, read. It says how many there were, and returns 0 where they are too few. */
int compare_texts(void);

#endif
