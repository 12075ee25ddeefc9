/* Cases: single executions, good and bad, for the C interface to be held to. README.md says what they go through. */
#ifndef CASES_H
#define CASES_H

#include "second.h"

/* What Z or ZA holds: a kind of contents, its seed, and how many bytes are lent. */
struct contents {
    uint32_t kind, seed, length;
};

struct one_case {
    struct second_settings s;
    uint32_t word;
    struct contents z, za;
};

/* Takes one case, which is lent until the call returns. */
typedef void take_case(const struct one_case *c);

/* Makes all cases: the same ones in the same order at each call with the same seed, which is not 0. With another seed
 * the choices that README.md's list leaves open are others. */
enum { CASES_SEED = 20010831 };
void make_cases(uint32_t seed, take_case *take);

#endif
