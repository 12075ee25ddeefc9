/* The balance: whatever is called, ones of Z and ZA after it plus falls is ones before it plus rises. The ones are
 * counted here, and neither by the library nor by the second program. */
#ifndef BALANCE_H
#define BALANCE_H

#include "judge.h"

uint64_t ones_of(const uint8_t *bytes, size_t length);

/* The two tests below end the program with 1 where numbers are wrong, though both sides have given the same ones. */

/* Of an execution that was judged: the balance, and that rises and falls are as many as the bits that differ. Where it
 * was refused there are no rises and no falls. */
void weigh_execution(const struct call *call, const struct room *z, const struct room *za, const uint32_t *counts);

/* Of a run that was judged: the balance, from so many ones at its start; and that the totals are the report's sums. */
void weigh_run(const struct call *call, const struct room *z, const struct room *za, uint64_t ones_at_start,
               const uint32_t *report, const uint32_t *totals);

/* Prints how many were weighed. Returns 0 where they are too few. */
int print_balance(void);

#endif
