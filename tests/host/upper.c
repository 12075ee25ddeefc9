#include "upper.h"

#include "balance.h"
#include "callinglamp.h"

#include <stdio.h>

enum { LEAST_CLEARED = 5000, LEAST_CLEAR = 1000 };

static struct {
    unsigned long all, with_upper, cleared; /* words of A and B that ran; at VL above 128; that cleared something */
    unsigned long long bits;
} words;

/* Of the words that are accepted those of A and B alone have these bits: 0, then 0111 in bits 28 to 25. */
static int is_ab(uint32_t word)
{
    return (word >> 31) == 0 && (word >> 25 & 15) == 7;
}

void look_above(const struct call *call, uint32_t vl, uint32_t word, const struct room *z, const uint32_t *counts)
{
    if (!callinglamp_ok(call->answer) || !is_ab(word))
        return;
    size_t length = vl / 8 - 16, start = (word & 31) * (vl / 8) + 16;
    uint64_t cleared = ones_of(bytes_before(z) + start, length);
    if (ones_of(bytes_of(z) + start, length) != 0)
        breaks_law(call, "the destination is not zero from byte 16 on");
    if (counts[2] != vl)
        breaks_law(call, "written is not VL");
    if (counts[1] < cleared)
        breaks_law(call, "the falls are fewer than the bits that were cleared");
    words.all++;
    words.with_upper += length > 0;
    words.cleared += cleared > 0;
    words.bits += cleared;
}

int print_above(void)
{
    unsigned long clear = words.with_upper - words.cleared;
    printf("upper parts: %lu executions of A and B, %lu of them at VL 256 or 512; %lu of these cleared %llu bits, and "
           "%lu found nothing to clear\n",
           words.all, words.with_upper, words.cleared, words.bits, clear);
    int enough = words.cleared >= LEAST_CLEARED && clear >= LEAST_CLEAR;
    if (!enough)
        printf("that is fewer than %d and %d\n", LEAST_CLEARED, LEAST_CLEAR);
    return enough;
}
