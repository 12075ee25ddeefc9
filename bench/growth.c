#include "growth.h"

#include <stdio.h>

const uint32_t lengths[LENGTHS] = {128, 256, 512};

struct line {
    double fixed, word;
};

/* Least squares of the deviations as shares of the times: else the longest list alone would decide. */
static struct line fit(const uint32_t *n, const double *times, int count)
{
    double w = 0, wx = 0, wy = 0, wxx = 0, wxy = 0;
    for (int i = 0; i < count; i++) {
        double weight = 1 / (times[i] * times[i]);
        w += weight;
        wx += weight * n[i];
        wy += weight * times[i];
        wxx += weight * n[i] * n[i];
        wxy += weight * n[i] * times[i];
    }
    double word = (w * wxy - wx * wy) / (w * wxx - wx * wx);
    return (struct line){(wy - word * wx) / w, word};
}

static double deviation(struct line line, uint32_t n, double time)
{
    double share = (line.fixed + line.word * n) / time - 1;
    return share < 0 ? -share : share;
}

void print_line(const char *side, const uint32_t *n, const double *times, int count)
{
    struct line line = fit(n, times, count);
    int most = 0;
    for (int i = 1; i < count; i++)
        if (deviation(line, n[i], times[i]) > deviation(line, n[most], times[most]))
            most = i;
    printf("    %-8s %10.1f + %8.2f n, largest deviation %4.1f %% (n = %u)\n", side, line.fixed, line.word,
           100 * deviation(line, n[most], times[most]), (unsigned)n[most]);
}

void name_execute_row(char *name, const struct kind *kind, uint32_t vl)
{
    snprintf(name, MOST_NAME, "%s/%u", kind->name, (unsigned)vl);
}

static bool are_timed(const struct kind *kind, const struct times *times[LENGTHS])
{
    for (int i = 0; i < LENGTHS; i++) {
        char name[MOST_NAME];
        name_execute_row(name, kind, lengths[i]);
        times[i] = times_of(name);
        if (times[i] == NULL)
            return false;
    }
    return true;
}

static void print_kind(const struct kind *kind, const struct times *times[LENGTHS])
{
    printf("%-18s", kind->name);
    for (int i = 0; i < LENGTHS; i++)
        printf(" %5u", (unsigned)bytes_moved(kind, lengths[i]));
    for (int i = 0; i < LENGTHS; i++)
        printf(" %s%6.3f", i == 0 ? "   " : "", times[i]->library / bytes_moved(kind, lengths[i]));
    for (int i = 0; i < LENGTHS; i++)
        printf(" %s%6.3f", i == 0 ? "   " : "", times[i]->second / bytes_moved(kind, lengths[i]));
    puts("");
}

void print_bytes(void)
{
    const struct times *times[LENGTHS];
    puts("\ngrowth with VL (128, 256, 512): bytes of Z and ZA that a word reads and writes, and ns for each of them");
    printf("%-18s %-21s%-24s%s\n", "kind", "bytes", "library", "second");
    for (int i = 0; i < KINDS; i++)
        if (are_timed(&kinds[i], times))
            print_kind(&kinds[i], times);
}
