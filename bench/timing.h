/* Times both sides of a call on one work, in turns. */
#ifndef TIMING_H
#define TIMING_H

#include "sides.h"

/* Nanoseconds for one of what is counted: the medians over the rounds, their ratio (library / second), and between
 * which ratios the middle half of the rounds lies. Times that are not steady tell little: the machine was at something
 * else, or changed its speed. */
struct times {
    double library, second, ratio, low, high;
    bool steady;
    uint32_t attempts; /* of which only the last is told */
};

enum { MOST_ROUNDS = 99 };

struct effort {
    uint32_t rounds;    /* at most MOST_ROUNDS */
    uint32_t attempts;  /* at most, until the times are steady */
    double nanoseconds; /* that a sample takes at least, on the faster side */
    bool patient;       /* takes each round at the core's full speed */
};

void pin_to_one_core(void);

/* How many rounds were taken again since the core did not keep its full speed. */
uint32_t rounds_again(void);

/* Both sides once from each start. Ends the program where their answers differ. */
void check(const char *name, const struct call *call, const struct work *work);

/* Times bursts of `passes`, which have `things` of what is counted, and compares the answers afterwards. */
struct times measure(const char *name, const struct call *call, const struct work *work, uint32_t passes,
                     uint32_t things, struct effort effort);

#endif
