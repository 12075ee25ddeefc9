#include "balance.h"

#include "callinglamp.h"

#include <stdio.h>

enum { LEAST_EXECUTED = 100000, LEAST_RUN = 1000 };

static struct {
    unsigned long all, accepted, unequal; /* unequal: an exchange of rises and falls would show */
} executions, runs;

static uint8_t ones_of_byte[256];

static void make_table(void)
{
    for (int byte = 1; byte < 256; byte++)
        ones_of_byte[byte] = (uint8_t)(ones_of_byte[byte / 2] + byte % 2);
}

uint64_t ones_of(const uint8_t *bytes, size_t length)
{
    uint64_t ones = 0;
    if (ones_of_byte[1] == 0)
        make_table();
    for (size_t i = 0; i < length; i++)
        ones += ones_of_byte[bytes[i]];
    return ones;
}

static uint64_t ones_before(const struct room *room)
{
    return ones_of(bytes_before(room), room->length);
}

static uint64_t ones_after(const struct room *room)
{
    return ones_of(bytes_of(room), room->length);
}

/* How many bits differ. It is called after ones_of, so that the table is made. */
static uint64_t differing(const struct room *room)
{
    uint64_t bits = 0;
    for (size_t i = 0; i < room->length; i++)
        bits += ones_of_byte[bytes_before(room)[i] ^ bytes_of(room)[i]];
    return bits;
}

void weigh_execution(const struct call *call, const struct room *z, const struct room *za, const uint32_t *counts)
{
    int accepted = callinglamp_ok(call->answer);
    uint64_t rises = accepted ? counts[0] : 0, falls = accepted ? counts[1] : 0;
    if (ones_after(z) + ones_after(za) + falls != ones_before(z) + ones_before(za) + rises)
        breaks_law(call, "ones after it and falls are not ones before it and rises");
    if (differing(z) + differing(za) != rises + falls)
        breaks_law(call, "rises and falls are not as many as the bits that differ");
    executions.all++;
    executions.accepted += accepted;
    executions.unequal += rises != falls;
}

void weigh_run(const struct call *call, const struct room *z, const struct room *za, uint64_t ones_at_start,
               const uint32_t *report, const uint32_t *totals)
{
    int accepted = callinglamp_ok(call->answer);
    uint64_t rises = 0, falls = 0, written = 0;
    for (uint32_t i = 0; accepted && i < totals[0]; i++) {
        const uint32_t *row = report + CALLINGLAMP_PER_WORD * (size_t)i;
        rises += row[1];
        falls += row[2];
        written += row[3];
        if (row[0] != 0 && (row[1] != 0 || row[2] != 0 || row[3] != 0))
            breaks_law(call, "a word that is refused has counts");
    }
    if (ones_after(z) + ones_after(za) + falls != ones_at_start + rises)
        breaks_law(call, "ones at its end and falls are not ones at its start and rises");
    if (accepted && (totals[1] != rises || totals[2] != falls || totals[3] != written))
        breaks_law(call, "the totals are not the report's sums");
    runs.all++;
    runs.accepted += accepted;
    runs.unequal += rises != falls;
}

int print_balance(void)
{
    printf("rises and falls: compared in %lu executions, unequal in %lu of them; the balance holds in %lu executions "
           "and %lu runs, refused ones too\n",
           executions.accepted, executions.unequal, executions.all, runs.all);
    printf("rises and falls: compared in %lu runs, unequal in %lu of them\n", runs.accepted, runs.unequal);
    int enough = executions.accepted >= LEAST_EXECUTED && executions.unequal >= LEAST_EXECUTED / 2 &&
                 runs.accepted >= LEAST_RUN && runs.unequal >= LEAST_RUN / 2;
    if (!enough)
        printf("that is fewer than %d executions and %d runs, or than half of them unequal\n", LEAST_EXECUTED,
               LEAST_RUN);
    return enough;
}
