#define _GNU_SOURCE
#include "speed.h"

#include "clock.h"

#include <stdint.h>
#include <time.h>

/* Four chains of simple steps keep all of a core at work, so that any sharing of it shows in the time. */
static double time_of_fixed_work(void)
{
    uint64_t a = 1, b = 2, c = 3, d = 4;
    double begun = now();
    for (uint64_t i = 0; i < 10000; i++) {
        a += a << 5 ^ i;
        b ^= b >> 3 | i;
        c -= c << 7 ^ i;
        d ^= d >> 9 | i;
    }
    volatile uint64_t result = a + b + c + d; /* else the loop might be left out */
    (void)result;
    return now() - begun;
}

/* The least of some times, since an interrupt falls into one. */
static double probe(int times)
{
    double least = time_of_fixed_work();
    for (int i = 1; i < times; i++) {
        double time = time_of_fixed_work();
        least = time < least ? time : least;
    }
    return least;
}

bool is_at_full_speed(void)
{
    static double least;
    double time = probe(3);
    if (least == 0)
        least = probe(5000);
    if (time < least)
        least = time;
    return time <= 1.05 * least;
}

bool wait_for_full_speed(void)
{
    const struct timespec pause = {.tv_nsec = 5000000};
    for (int i = 0; i < 2000; i++) {
        if (is_at_full_speed())
            return true;
        nanosleep(&pause, NULL);
    }
    return false;
}
