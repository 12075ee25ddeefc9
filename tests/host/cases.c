/* The second program's cases, through the library. */
#include "cases.h"

#include "calls.h"
#include "parts.h"

#include <stdio.h>

/* Each seed makes the same kinds of cases, with other choices. */
enum { SEEDS = 16, LEAST_EXECUTED = 20000 };

static unsigned long executed;

static void count_case(const struct one_case *c)
{
    compare_case(c);
    executed++;
}

int compare_cases(uint32_t seed)
{
    for (uint32_t turn = 0; turn < SEEDS; turn++)
        make_cases(seed + turn, count_case);
    printf("cases: %lu executions\n", executed);
    return executed >= LEAST_EXECUTED;
}
