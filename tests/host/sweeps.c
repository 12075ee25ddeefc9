/* The second program's sweeps, through the library: there by the words, and back by the partners that it gives. Open
 * sweeps too, whose words of A and B find ones above byte 16 of their destinations: these alone must not come back. */
#include "sweeps.h"

#include "callinglamp.h"
#include "calls.h"
#include "choices.h"
#include "parts.h"

#include <stdio.h>
#include <stdlib.h>
#include <string.h>

/* Each seed makes 30 sweeps, and 8 open ones. */
enum { SEEDS = 34, LEAST_SWEPT = 1000, LEAST_OPEN = 250 };

static unsigned long swept, words, open_swept, open_words;

/* A sweep on its way, and where it began. */
static struct execution e, began;

/* What each word has answered, and how many ones it has cleared. */
static uint32_t counts[MOST_SWEPT][CALLINGLAMP_COUNTS], cleared[MOST_SWEPT];

static void start(const struct sweep *w)
{
    began.s = w->s;
    began.z_length = second_z_length(w->s.vl);
    began.za_length = second_za_length(w->s.vl);
    start_sweep(w, began.z, began.za);
    e = began;
}

static int is_back(void)
{
    return memcmp(e.z, began.z, e.z_length) == 0 && memcmp(e.za, began.za, e.za_length) == 0;
}

/* Both sides have given the same answers up to here, so this is a fault of both. */
static void does_not_close(const struct sweep *w, uint32_t at, const char *why)
{
    printf("sweep %lu, VL %u: %s, at word %u of %u, %08X\n", swept + open_swept + 1, (unsigned)w->s.vl, why,
           (unsigned)(at + 1), (unsigned)w->count, (unsigned)w->words[at]);
    exit(1);
}

static void go(const struct sweep *w)
{
    for (uint32_t i = 0; i < w->count; i++) {
        e.word = w->words[i];
        cleared[i] = ones_to_clear(&w->s, e.word, e.z);
        if (compare_execute(&e) != CALLINGLAMP_ACCEPTED)
            does_not_close(w, i, "a word is refused");
        memcpy(counts[i], e.counts, sizeof e.counts);
    }
}

static void go_back(const struct sweep *w)
{
    for (uint32_t i = w->count; i-- > 0;) {
        uint64_t answer = compare_partner(&w->s, w->words[i]);
        e.word = callinglamp_value(answer);
        if (callinglamp_refusal(answer) != CALLINGLAMP_ACCEPTED || compare_execute(&e) != CALLINGLAMP_ACCEPTED)
            does_not_close(w, i, "the partner is refused");
        if (e.counts[0] + cleared[i] != counts[i][1])
            does_not_close(w, i, "the partner's rises are not its word's falls, without what that cleared");
        if (e.counts[1] != counts[i][0])
            does_not_close(w, i, "the partner's falls are not its word's rises");
        if (e.counts[2] != counts[i][2])
            does_not_close(w, i, "the partner writes another number of bits");
    }
}

/* Where all comes back nothing was cleared, so that a partner's rises were just its word's falls. */
static void compare_sweep(const struct sweep *w)
{
    start(w);
    go(w);
    go_back(w);
    if (!is_back())
        does_not_close(w, 0, "Z or ZA does not come back");
    swept++;
    words += w->count;
}

static void compare_open_sweep(const struct sweep *w)
{
    start(w);
    go(w);
    go_back(w);
    if (is_back())
        does_not_close(w, 0, "what a word has cleared comes back");
    close_sweep(w, began.z);
    if (!is_back())
        does_not_close(w, 0, "Z or ZA does not come back to all but what was cleared");
    open_swept++;
    open_words += w->count;
}

int compare_sweeps(uint32_t seed)
{
    for (uint32_t turn = 0; turn < SEEDS; turn++)
        make_sweeps(seed + turn, compare_sweep);
    for (uint32_t turn = 0; turn < SEEDS; turn++)
        make_open_sweeps(seed + turn, compare_open_sweep);
    printf("sweeps: %lu there and back, %lu words; %lu open ones, %lu words, to all but what they cleared\n", swept,
           words, open_swept, open_words);
    return swept >= LEAST_SWEPT && open_swept >= LEAST_OPEN;
}
