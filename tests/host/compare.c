/* Holds the C interface of the library to the second program: every call, on random and damaged inputs.
 *
 *     compare [SEED]
 *
 * It ends with 0 where all is alike, with 1 at the first difference, which it prints, and with 2 where it is called
 * wrongly. */
#include "balance.h"
#include "callinglamp.h"
#include "calls.h"
#include "choices.h"
#include "judge.h"
#include "parts.h"
#include "upper.h"

#include <stdio.h>
#include <stdlib.h>

static int compare_version(void)
{
    if (callinglamp_version() == CALLINGLAMP_VERSION)
        return 1;
    printf("the library has version %u, and the header %d\n", (unsigned)callinglamp_version(), CALLINGLAMP_VERSION);
    return 0;
}

static uint32_t seed_of(const char *text)
{
    char *end;
    unsigned long seed = strtoul(text, &end, 10);
    if (*end != '\0' || seed == 0 || seed > 1000000000) {
        fprintf(stderr, "compare: the seed is not a number from 1 to 1,000,000,000\n");
        exit(2);
    }
    return (uint32_t)seed;
}

int main(int argc, char **argv)
{
    if (argc > 2) {
        fprintf(stderr, "usage: compare [SEED]\n");
        return 2;
    }
    uint32_t seed = seed_of(argc == 2 ? argv[1] : "20020301");
    printf("seed %u\n", (unsigned)seed);
    start_choosing(seed);
    make_rooms();
    compare_words();
    compare_steps();
    int enough = compare_version();
    enough &= compare_cases(seed) & compare_sweeps(seed);
    enough &= compare_runs(seed);
    enough &= compare_texts();
    enough &= print_balance();
    enough &= print_above();
    enough &= print_summary();
    if (!enough)
        return 1;
    return fflush(stdout) == 0 ? 0 : 1;
}
