#define _GNU_SOURCE
#include "timing.h"

#include "clock.h"
#include "speed.h"

#include <sched.h>
#include <stdio.h>
#include <stdlib.h>
#include <string.h>

enum { LEAST_BURSTS = 5, MOST_BURSTS = 4096, MOST_TRIES = 200 };

static struct answers library, second;
static uint32_t again;

uint32_t rounds_again(void)
{
    return again;
}

/* Elsewhere it would meet cold caches. Where it is not allowed, the times only spread more. */
void pin_to_one_core(void)
{
    cpu_set_t core;
    int here = sched_getcpu();
    CPU_ZERO(&core);
    if (here >= 0)
        CPU_SET((size_t)here, &core);
    if (here < 0 || sched_setaffinity(0, sizeof core, &core) != 0)
        puts("not pinned to one core");
}

static void start(const struct work *work, struct answers *answers, uint32_t i)
{
    memcpy(answers->registers.z, work->starts[i % STARTS].z, work->z_length);
    memcpy(answers->registers.za, work->starts[i % STARTS].za, work->za_length);
}

/* A benchmark of a wrong answer is worth nothing. */
static void compare(const char *name, const struct call *call)
{
    const char *what = difference(&library, &second);
    if (what == NULL)
        return;
    fflush(stdout);
    fprintf(stderr, "bench: %s %s: the library and the second program differ in: %s\n", call->name, name, what);
    exit(1);
}

static void forget(void)
{
    memset(&library, 0, sizeof library);
    memset(&second, 0, sizeof second);
}

void check(const char *name, const struct call *call, const struct work *work)
{
    forget();
    for (uint32_t i = 0; i < STARTS; i++) {
        start(work, &library, i);
        start(work, &second, i);
        call->library(work, 1, &library);
        call->second(work, 1, &second);
        compare(name, call);
    }
}

static int by_size(const void *a, const void *b)
{
    double x = *(const double *)a, y = *(const double *)b;
    return (x > y) - (x < y);
}

/* The number with `share` of the others below it. Sorts them. */
static double quantile(double *numbers, uint32_t count, double share)
{
    qsort(numbers, count, sizeof *numbers, by_size);
    return numbers[(uint32_t)(share * (count - 1) + 0.5)];
}

struct side {
    burst *burst;
    struct answers *answers;
    double times[MOST_BURSTS], median;
};

/* The registers are put back before each burst, outside the time: else the sums of C would soon all stay clamped. */
static void time_bursts(struct side *side, const struct work *work, uint32_t passes, uint32_t from, uint32_t to)
{
    for (uint32_t i = from; i < to; i++) {
        start(work, side->answers, i);
        double begun = now();
        side->burst(work, passes, side->answers);
        side->times[i] = now() - begun;
    }
}

/* A sample of each side: the median time of its bursts, so that one during which another process had the core does not
 * count. The sides take turns inside a sample too, since the machine's speed can change from one to the next. */
static void sample(struct side *one, struct side *other, const struct work *work, uint32_t passes, uint32_t bursts)
{
    for (uint32_t i = 0; i < bursts; i += STARTS) {
        uint32_t to = i + STARTS < bursts ? i + STARTS : bursts;
        time_bursts(one, work, passes, i, to);
        time_bursts(other, work, passes, i, to);
    }
    one->median = quantile(one->times, bursts, 0.5);
    other->median = quantile(other->times, bursts, 0.5);
}

/* How many bursts take both sides long enough; finding it warms both up. */
static uint32_t enough_bursts(struct side *a, struct side *b, const struct work *work, uint32_t passes,
                              double nanoseconds)
{
    for (uint32_t bursts = LEAST_BURSTS;; bursts += bursts / 4) {
        sample(a, b, work, passes, bursts);
        double shorter = a->median < b->median ? a->median : b->median;
        if (bursts * shorter >= nanoseconds || bursts + bursts / 4 > MOST_BURSTS)
            return bursts;
    }
}

/* The ratio of the medians leaves the quartiles when the machine changes its speed between rounds. */
static bool is_steady(const struct times *t)
{
    return t->high - t->low <= 0.1 * t->ratio && t->low - 0.02 <= t->ratio && t->ratio <= t->high + 0.02;
}

/* A sample at full speed from before to after. Which samples are dropped does not hang on their times. */
static bool sample_at_full_speed(struct side *one, struct side *other, const struct work *work, uint32_t passes,
                                 uint32_t bursts)
{
    for (uint32_t i = 0; i < MOST_TRIES; i++, again++) {
        bool waited = wait_for_full_speed();
        sample(one, other, work, passes, bursts);
        if (!waited)
            return false;
        if (is_at_full_speed())
            return true;
    }
    return false;
}

static struct times measure_once(struct side *a, struct side *b, const struct work *work, uint32_t passes,
                                 uint32_t things, struct effort effort)
{
    bool patient = effort.patient;
    double library_times[MOST_ROUNDS], second_times[MOST_ROUNDS], ratios[MOST_ROUNDS];
    uint32_t rounds = effort.rounds, bursts = enough_bursts(a, b, work, passes, effort.nanoseconds);
    for (uint32_t i = 0; i < rounds; i++) {
        struct side *one = i % 2 == 0 ? a : b, *other = i % 2 == 0 ? b : a;
        if (patient)
            patient = sample_at_full_speed(one, other, work, passes, bursts);
        else
            sample(one, other, work, passes, bursts);
        library_times[i] = a->median / things;
        second_times[i] = b->median / things;
        ratios[i] = a->median / b->median;
    }
    struct times t = {0};
    t.library = quantile(library_times, rounds, 0.5);
    t.second = quantile(second_times, rounds, 0.5);
    t.ratio = t.library / t.second;
    t.low = quantile(ratios, rounds, 0.25);
    t.high = quantile(ratios, rounds, 0.75);
    t.steady = is_steady(&t) && patient == effort.patient;
    return t;
}

struct times measure(const char *name, const struct call *call, const struct work *work, uint32_t passes,
                     uint32_t things, struct effort effort)
{
    static struct side a, b;
    struct times t = {0};
    uint32_t attempts = 0;
    forget();
    a.burst = call->library;
    a.answers = &library;
    b.burst = call->second;
    b.answers = &second;
    for (; attempts < effort.attempts && !t.steady; attempts++)
        t = measure_once(&a, &b, work, passes, things, effort);
    t.attempts = attempts;
    compare(name, call);
    return t;
}
