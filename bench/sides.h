/* The two sides: each call of the library beside the second program's, over all words of a work. */
#ifndef SIDES_H
#define SIDES_H

#include "work.h"

#include <stdbool.h>

/* What one side answered: the registers at the end, for each word its last answer, and sums over all answers. */
struct answers {
    struct registers registers;
    uint32_t report[SECOND_PER_WORD * SECOND_MOST_WORDS]; /* refusal, rises, falls, written */
    uint32_t words[SECOND_MOST_WORDS];      /* of encode, partner and read; of print the lengths */
    union fields fields[SECOND_MOST_WORDS]; /* of decode */
    uint64_t answer;                        /* of run: the refusal, and above it the place */
    uint32_t totals[4];                     /* of run: n, and the sums of the report's other columns */
    uint64_t sums[SECOND_PER_WORD];         /* of execute: the report's columns */
    _Alignas(64) char texts[SECOND_MOST_WORDS][TEXT_ROOM]; /* of print */
};

typedef void burst(const struct work *work, uint32_t passes, struct answers *answers);

/* `library` and `second` make the same calls: `passes` times one for each word, or one for the list. */
struct call {
    const char *name;
    burst *library, *second;
};

extern const struct call execute_call, decode_call, encode_call, partner_call, run_call, print_call, read_call;

/* The name of something in which the two differ, or NULL. */
const char *difference(const struct answers *library, const struct answers *second);

#endif
