/* The upper part of a V write: whatever a word of A or B multiplies, its register is zero from byte 16 on after it. The
 * bytes are looked at here, and neither by the library nor by the second program. */
#ifndef UPPER_H
#define UPPER_H

#include "judge.h"

/* Of an execution at this VL that was judged: a word of A or B that was accepted has left zeros from byte 16 on, has
 * written VL bits, and has among its falls the ones that were there. Where that is not so, though both sides are alike,
 * it ends the program with 1. */
void look_above(const struct call *call, uint32_t vl, uint32_t word, const struct room *z, const uint32_t *counts);

/* Prints how many words have cleared something. Returns 0 where they are too few. */
int print_above(void);

#endif
