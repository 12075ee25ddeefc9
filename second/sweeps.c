/* Sweeps. README.md says which there are. */
#include "sweeps.h"

#include "choices.h"

#include <string.h>

/* Choosing */

/* The families and lanes of each mix. Settings that permit the last pair permit the others too. */
static const struct {
    uint32_t count;
    uint32_t pairs[5][2];
} mixes[MIXES] = {
    [ONLY_A] = {2, {{SECOND_FAMILY_A, 16}, {SECOND_FAMILY_A, 32}}},
    [ONLY_B] = {3, {{SECOND_FAMILY_B, 8}, {SECOND_FAMILY_B, 16}, {SECOND_FAMILY_B, 32}}},
    [A_AND_B] = {5,
                 {{SECOND_FAMILY_A, 16}, {SECOND_FAMILY_A, 32}, {SECOND_FAMILY_B, 8}, {SECOND_FAMILY_B, 16},
                  {SECOND_FAMILY_B, 32}}},
    [ONLY_D_8] = {1, {{SECOND_FAMILY_D, 8}}},
    [ONLY_D] = {2, {{SECOND_FAMILY_D, 8}, {SECOND_FAMILY_D, 16}}},
    [ONLY_E] = {1, {{SECOND_FAMILY_E, 16}}},
    [D_AND_E] = {3, {{SECOND_FAMILY_E, 16}, {SECOND_FAMILY_D, 8}, {SECOND_FAMILY_D, 16}}},
};

static struct second_fields fields_of(const uint32_t *pair)
{
    return (struct second_fields){.family = pair[0], .lane = pair[1], .group = 1};
}

static int is_own_source(const struct second_fields *f)
{
    return f->family <= SECOND_FAMILY_B && (f->destination == f->first || f->destination == f->second);
}

/* About half of the words of A and B read what the word before them wrote. */
static struct second_fields choose_fields(enum mix mix, const struct second_fields *before)
{
    struct second_fields f = fields_of(mixes[mix].pairs[choose(mixes[mix].count)]);
    f.is_unsigned = choose(2);
    do {
        choose_rest(&f);
        uint32_t way = f.family <= SECOND_FAMILY_B ? choose(4) : 0;
        if (way == 2)
            f.first = before->destination;
        if (way == 3 && before->destination < second_below(&f))
            f.second = before->destination;
    } while (is_own_source(&f));
    return f;
}

/* A select register that is random, or so near 2^32 that an offset takes the sum past it. */
static uint32_t choose_select(void)
{
    return choose(3) == 0 ? UINT32_MAX - choose(6) : choose_any();
}

struct sweep choose_sweep(uint32_t vl, enum mix mix, uint32_t count)
{
    struct sweep sweep = {.s.vl = vl, .z_kind = FILL_RANDOM, .za_kind = FILL_RANDOM, .count = count};
    struct second_fields f = fields_of(mixes[mix].pairs[mixes[mix].count - 1]);
    choose_permitting(&f, &sweep.s);
    for (int i = 0; i < 4; i++)
        sweep.s.w[i] = choose_select();
    sweep.z_seed = choose_any();
    sweep.za_seed = choose_any();
    for (uint32_t i = 0; i < count; i++) {
        f = choose_fields(mix, &f);
        sweep.words[i] = word_of(&f);
        if (f.family <= SECOND_FAMILY_B)
            sweep.clear |= 1u << f.destination;
    }
    return sweep;
}

/* Running */

struct registers {
    uint8_t z[SECOND_MOST_Z], za[SECOND_MOST_ZA];
};

/* What a word of A or B sets to zero, of the register that it writes. */
static size_t upper_start(uint32_t vl, uint32_t r)
{
    return r * (vl / 8) + 16;
}

static size_t upper_length(uint32_t vl)
{
    return vl / 8 - 16;
}

static void clear_upper(uint8_t *z, uint32_t vl, uint32_t r)
{
    memset(z + upper_start(vl, r), 0, upper_length(vl));
}

/* Whether the word is of A or B, and which register it writes. */
static int writes_v(const struct second_settings *s, uint32_t word, uint32_t *destination)
{
    struct second_fields f;
    int is_word = second_decode(s, word, &f) == SECOND_ACCEPTED;
    *destination = f.destination;
    return is_word && f.family <= SECOND_FAMILY_B;
}

void start_sweep(const struct sweep *sweep, uint8_t *z, uint8_t *za)
{
    uint32_t vl = sweep->s.vl;
    fill(z, second_z_length(vl), sweep->z_kind, sweep->z_seed);
    fill(za, second_za_length(vl), sweep->za_kind, sweep->za_seed);
    for (uint32_t r = 0; r < 32; r++)
        if ((sweep->clear >> r & 1) != 0)
            clear_upper(z, vl, r);
}

void close_sweep(const struct sweep *sweep, uint8_t *z)
{
    uint32_t r;
    for (uint32_t i = 0; i < sweep->count; i++)
        if (writes_v(&sweep->s, sweep->words[i], &r))
            clear_upper(z, sweep->s.vl, r);
}

uint32_t ones_to_clear(const struct second_settings *s, uint32_t word, const uint8_t *z)
{
    uint32_t r;
    return writes_v(s, word, &r) ? ones_in(z + upper_start(s->vl, r), upper_length(s->vl)) : 0;
}

/* Whether the word is accepted, and the ones that it leaves are those that its counts say. */
static int steps(const struct sweep *sweep, uint32_t word, struct registers *r, struct second_counts *c)
{
    size_t z = second_z_length(sweep->s.vl), za = second_za_length(sweep->s.vl);
    uint32_t before = ones_in(r->z, z) + ones_in(r->za, za);
    if (second_execute(&sweep->s, word, r->z, z, r->za, za, c) != SECOND_ACCEPTED)
        return 0;
    return ones_in(r->z, z) + ones_in(r->za, za) + c->falls == before + c->rises;
}

static int steps_back(const struct sweep *sweep, uint32_t word, struct registers *r, struct second_counts *c)
{
    uint32_t partner;
    return second_partner(&sweep->s, word, &partner) == SECOND_ACCEPTED && steps(sweep, partner, r, c);
}

/* Of the word's falls those that it has cleared are left out. */
static int are_turned(const struct second_counts *there, uint32_t cleared, const struct second_counts *back)
{
    return back->rises == there->falls - cleared && back->falls == there->rises && back->written == there->written;
}

/* Goes there and back from the start, and leaves where that leads. */
static int goes(const struct sweep *sweep, struct registers *now)
{
    static struct second_counts there[MOST_SWEPT];
    static uint32_t cleared[MOST_SWEPT];
    for (uint32_t i = 0; i < sweep->count; i++) {
        cleared[i] = ones_to_clear(&sweep->s, sweep->words[i], now->z);
        if (!steps(sweep, sweep->words[i], now, &there[i]))
            return 0;
    }
    for (uint32_t i = sweep->count; i-- > 0;) {
        struct second_counts back;
        if (!steps_back(sweep, sweep->words[i], now, &back) || !are_turned(&there[i], cleared[i], &back))
            return 0;
    }
    return 1;
}

static int are_alike(const struct sweep *sweep, const struct registers *x, const struct registers *y)
{
    return memcmp(x->z, y->z, second_z_length(sweep->s.vl)) == 0 &&
           memcmp(x->za, y->za, second_za_length(sweep->s.vl)) == 0;
}

/* Where every byte comes back no word has cleared a one, so that each partner has just its word's counts. */
int leads_back(const struct sweep *sweep)
{
    static struct registers start, now;
    start_sweep(sweep, start.z, start.za);
    now = start;
    return goes(sweep, &now) && are_alike(sweep, &now, &start);
}

int leads_back_open(const struct sweep *sweep)
{
    static struct registers start, due, now;
    start_sweep(sweep, start.z, start.za);
    now = due = start;
    close_sweep(sweep, due.z);
    return goes(sweep, &now) && are_alike(sweep, &now, &due) && !are_alike(sweep, &now, &start);
}

/* Making */

/* Random, mixed and extreme by turns. Z of zeros is left out: products of zeros change nothing. */
static uint32_t choose_kind(uint32_t turn, int zeros)
{
    static const uint32_t extremes[] = {1, 2, 3, 5, 6, 7, 8, 4};
    if (turn % 3 == 0)
        return FILL_RANDOM;
    if (turn % 3 == 1)
        return FILL_MIXED;
    return extremes[choose(zeros ? 8 : 7)];
}

/* There are ten lengths, one more than a multiple of three, so each has other kinds of contents at each VL. */
void make_sweeps(uint32_t seed, take_sweep *take)
{
    static const struct {
        enum mix mix;
        uint32_t count;
    } lengths[] = {{ONLY_A, 90},  {ONLY_B, 60},   {A_AND_B, MOST_SWEPT}, {ONLY_D_8, 60}, {ONLY_D, 70},
                   {ONLY_E, 120}, {D_AND_E, MOST_SWEPT}, {A_AND_B, 1},   {D_AND_E, 1},   {A_AND_B, 2}};
    uint32_t turn = 0;
    start_choosing(seed);
    for (uint32_t v = 0; v < 3; v++)
        for (size_t i = 0; i < sizeof lengths / sizeof *lengths; i++, turn++) {
            struct sweep sweep = choose_sweep(vls[v], lengths[i].mix, lengths[i].count);
            sweep.z_kind = choose_kind(turn, 0);
            sweep.za_kind = choose_kind(turn + 1, 1);
            take(&sweep);
        }
}

/* The first word's destination is not clear, and of the others about half. Z is random or of one extreme, so that there
 * are ones in each register that is not clear. */
void make_open_sweeps(uint32_t seed, take_sweep *take)
{
    static const struct {
        enum mix mix;
        uint32_t count;
    } lengths[] = {{ONLY_A, 20}, {ONLY_B, 30}, {A_AND_B, 60}, {A_AND_B, 1}};
    uint32_t turn = 0, first;
    start_choosing(seed);
    for (uint32_t v = 1; v < 3; v++)
        for (size_t i = 0; i < sizeof lengths / sizeof *lengths; i++, turn++) {
            struct sweep sweep = choose_sweep(vls[v], lengths[i].mix, lengths[i].count);
            sweep.z_kind = turn % 2 == 0 ? FILL_RANDOM : 1 + choose(3);
            sweep.za_kind = FILL_MIXED;
            sweep.clear &= choose_any();
            if (writes_v(&sweep.s, sweep.words[0], &first))
                sweep.clear &= ~(1u << first);
            take(&sweep);
        }
}
