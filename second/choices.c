/* Contents, and words by choice. */
#include "choices.h"

#include <stdlib.h>

const uint32_t vls[3] = {128, 256, 512};

/* Contents */

static uint32_t next_state(uint32_t x)
{
    return x * 1664525 + 1013904223;
}

static uint8_t extreme_byte(uint32_t kind, size_t place)
{
    switch (kind) {
    case 1:
        return 0xFF;
    case 2:
        return 0x80;
    case 3:
        return 0x7F;
    case 5:
        return place % 2 == 1 ? 0x80 : 0;
    case 6:
        return place % 4 == 3 ? 0x80 : 0;
    case 7:
        return place % 2 == 1 ? 0x7F : 0xFF;
    case 8:
        return place % 4 == 3 ? 0x7F : 0xFF;
    default:
        return 0;
    }
}

/* Most bytes are zero, so that a register often has few that are not. */
static uint8_t sparse_byte(uint32_t x)
{
    return (x >> 16) % 32 == 0 ? (uint8_t)(x >> 24) : 0;
}

void fill(uint8_t *bytes, size_t length, uint32_t kind, uint32_t seed)
{
    uint32_t x = seed;
    for (size_t i = 0; i < length; i++) {
        if (kind == FILL_RANDOM || kind == FILL_SPARSE || i % 4 == 0)
            x = next_state(x);
        if (kind == FILL_RANDOM)
            bytes[i] = (uint8_t)(x >> 24);
        else if (kind == FILL_SPARSE)
            bytes[i] = sparse_byte(x);
        else
            bytes[i] = extreme_byte(kind == FILL_MIXED ? 1 + (x >> 24) % 8 : kind, i);
    }
}

uint32_t ones_in(const uint8_t *bytes, size_t length)
{
    uint32_t ones = 0;
    for (size_t i = 0; i < length; i++)
        for (unsigned byte = bytes[i]; byte != 0; byte >>= 1)
            ones += byte & 1;
    return ones;
}

/* Choices. Their generator is not the contents' one, so that the two do not run in step. */

static uint32_t chooser;

void start_choosing(uint32_t seed)
{
    chooser = seed;
}

uint32_t choose(uint32_t below)
{
    chooser ^= chooser << 13;
    chooser ^= chooser >> 17;
    chooser ^= chooser << 5;
    return chooser % below;
}

uint32_t choose_any(void)
{
    uint32_t high = choose(65536);
    return high << 16 | choose(65536);
}

/* Words */

uint32_t word_of(const struct second_fields *f)
{
    static const struct second_settings all = {.vl = 128, .features = 31};
    uint32_t word;
    if (second_encode(&all, f, &word) != SECOND_ACCEPTED)
        abort();
    return word;
}

uint32_t second_below(const struct second_fields *f)
{
    if (f->family == SECOND_FAMILY_A)
        return f->lane == 16 ? 16 : 32;
    if (f->family == SECOND_FAMILY_C)
        return f->lane == 16 ? 8 : 16;
    return 32;
}

void choose_registers(struct second_fields *f)
{
    if (f->family >= SECOND_FAMILY_D) {
        f->first = choose(32 / f->group) * f->group;
        f->second = choose(32 / f->group) * f->group;
        return;
    }
    f->destination = choose(32);
    f->first = choose(32);
    f->second = choose(second_below(f));
}

void choose_rest(struct second_fields *f)
{
    f->subtract = choose(2);
    if (f->family <= SECOND_FAMILY_C)
        f->part = choose(2);
    if (f->family == SECOND_FAMILY_A || f->family == SECOND_FAMILY_C)
        f->index = choose(f->lane == 16 ? 8 : 4);
    if (f->family >= SECOND_FAMILY_D) {
        f->group = choose(2) == 0 ? 2 : 4;
        f->select = 8 + choose(4);
        f->offset = f->family == SECOND_FAMILY_D ? 4 * choose(2) : 2 * choose(4);
    }
    choose_registers(f);
}

void choose_permitting(const struct second_fields *f, struct second_settings *s)
{
    static const uint32_t ab[][2] = {{1, 0}, {3, 0}, {5, 2}, {31, 2}, {13, 0}};
    static const uint32_t c[][2] = {{2, 0}, {4, 1}, {6, 0}, {6, 3}, {12, 3}, {31, 2}};
    static const uint32_t d[][2] = {{12, 3}, {13, 3}, {14, 3}, {31, 3}};
    static const uint32_t d_wide[][2] = {{28, 3}, {29, 3}, {30, 3}, {31, 3}};
    const uint32_t *pick;
    if (f->family <= SECOND_FAMILY_B)
        pick = ab[choose(5)];
    else if (f->family == SECOND_FAMILY_C)
        pick = c[choose(6)];
    else if (f->family == SECOND_FAMILY_D && f->lane == 16)
        pick = d_wide[choose(4)];
    else
        pick = d[choose(4)];
    s->features = pick[0];
    s->modes = pick[1];
}
