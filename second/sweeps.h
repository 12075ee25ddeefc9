/* Sweeps: words that are executed one after the other, and then their partners in reverse order, which must lead back
 * to where the words began. A word of A or B clears its destination from byte 16 on, and no partner brings that back:
 * where these bytes are not zero before the word, the sweep is open, and leads back to all but them. */
#ifndef SWEEPS_H
#define SWEEPS_H

#include "second.h"

enum { MOST_SWEPT = 200 };

/* Which words a sweep has. */
enum mix { ONLY_A, ONLY_B, A_AND_B, ONLY_D_8, ONLY_D, ONLY_E, D_AND_E, MIXES };

struct sweep {
    struct second_settings s;
    uint32_t z_kind, z_seed, za_kind, za_seed;
    uint32_t clear; /* bit r: Z register r starts with zeros from byte 16 on */
    uint32_t count;
    uint32_t words[MOST_SWEPT];
};

/* Words of the mix and settings that permit them, with random contents. No word of A or B names its destination as a
 * source, and each destination of A and B is clear: words write nothing but zeros there, so that what is clear at the
 * start is clear before each word. Other registers are as they are drawn. */
struct sweep choose_sweep(uint32_t vl, enum mix mix, uint32_t count);

/* Z and ZA before the first word. */
void start_sweep(const struct sweep *sweep, uint8_t *z, uint8_t *za);

/* How many ones of Z the word would clear: of A or B, those of its destination from byte 16 on. */
uint32_t ones_to_clear(const struct second_settings *s, uint32_t word, const uint8_t *z);

/* Makes of Z at the start what it must be after the last partner: zero from byte 16 on in each destination of A and B.
 * Where the sweep is not open, that is what it was. */
void close_sweep(const struct sweep *sweep, uint8_t *z);

/* Whether every word and then every partner is accepted, each partner rises where its word falls and falls where it
 * rises, ones and falls after each of them are ones before it and rises, and every byte of Z and ZA comes back. */
int leads_back(const struct sweep *sweep);

/* The same of an open sweep: the ones that a word has cleared do not rise by its partner, and Z comes back as
 * `close_sweep` says, which is not as it began. */
int leads_back_open(const struct sweep *sweep);

/* Takes one sweep, which is lent until the call returns. */
typedef void take_sweep(const struct sweep *sweep);

/* Makes 30 sweeps, the same ones in the same order at each call with the same seed, which is not 0. README.md says
 * which. */
void make_sweeps(uint32_t seed, take_sweep *take);

/* Makes 8 open sweeps in the same way. */
void make_open_sweeps(uint32_t seed, take_sweep *take);

#endif
