#include "work.h"

#include <stdbool.h>
#include <stdlib.h>
#include <string.h>

_Static_assert((int)TEXT_ROOM >= (int)SECOND_LONGEST_TEXT, "a text's room is long enough");

const struct kind kinds[KINDS] = {
    {"A16", SECOND_FAMILY_A, 16, 1},   {"A32", SECOND_FAMILY_A, 32, 1},   {"B8", SECOND_FAMILY_B, 8, 1},
    {"B16", SECOND_FAMILY_B, 16, 1},   {"B32", SECOND_FAMILY_B, 32, 1},   {"C16", SECOND_FAMILY_C, 16, 1},
    {"C32", SECOND_FAMILY_C, 32, 1},   {"D8x2", SECOND_FAMILY_D, 8, 2},   {"D8x4", SECOND_FAMILY_D, 8, 4},
    {"D16x2", SECOND_FAMILY_D, 16, 2}, {"D16x4", SECOND_FAMILY_D, 16, 4}, {"E16x2", SECOND_FAMILY_E, 16, 2},
    {"E16x4", SECOND_FAMILY_E, 16, 4},
};

/* Random numbers: splitmix64. Its start is fixed, so that two runs time the same data. */

static uint64_t next_random(uint64_t *seed)
{
    uint64_t x = *seed += 0x9E3779B97F4A7C15;
    x = (x ^ x >> 30) * 0xBF58476D1CE4E5B9;
    x = (x ^ x >> 27) * 0x94D049BB133111EB;
    return x ^ x >> 31;
}

static uint32_t below(uint64_t *seed, uint32_t bound)
{
    return (uint32_t)((next_random(seed) >> 32) * bound >> 32);
}

static void fill(uint64_t *seed, uint8_t *bytes, size_t length)
{
    for (size_t i = 0; i < length; i++)
        bytes[i] = (uint8_t)next_random(seed);
}

/* Words */

static void choose_abc(uint64_t *seed, struct second_fields *f)
{
    bool a = f->family == SECOND_FAMILY_A, b = f->family == SECOND_FAMILY_B;
    f->part = below(seed, 2);
    f->index = b ? 0 : below(seed, 128 / f->lane);
    f->destination = below(seed, 32);
    f->first = below(seed, 32);
    f->second = below(seed, b ? 32 : a ? f->lane : f->lane / 2);
}

static void choose_de(uint64_t *seed, struct second_fields *f)
{
    f->first = f->group * below(seed, 32 / f->group);
    f->second = f->group * below(seed, 32 / f->group);
    f->select = 8 + below(seed, 4);
    f->offset = f->family == SECOND_FAMILY_D ? 4 * below(seed, 2) : 2 * below(seed, 4);
}

static struct second_fields choose_fields(uint64_t *seed, const struct kind *kind)
{
    struct second_fields f = {.family = kind->family, .lane = kind->lane, .group = kind->group};
    f.is_unsigned = f.family == SECOND_FAMILY_C ? 0 : below(seed, 2);
    f.subtract = below(seed, 2);
    if (f.family <= SECOND_FAMILY_C)
        choose_abc(seed, &f);
    else
        choose_de(seed, &f);
    return f;
}

static bool is_among(const uint32_t *words, uint32_t count, uint32_t word)
{
    for (uint32_t i = 0; i < count; i++)
        if (words[i] == word)
            return true;
    return false;
}

/* Only the second program encodes here: were the library to encode its own work, a fault could hide itself. */
static void choose_word(struct work *work, uint64_t *seed, const struct kind *kind, uint32_t i)
{
    do
        work->fields[i].named = choose_fields(seed, kind);
    while (second_encode(&work->settings.named, &work->fields[i].named, &work->words[i]) != SECOND_ACCEPTED ||
           is_among(work->words, i, work->words[i]));
}

static struct second_settings choose_settings(uint64_t *seed, uint32_t vl, uint32_t family)
{
    struct second_settings s = {.vl = vl, .features = 31};
    s.modes = family <= SECOND_FAMILY_B ? 0 : SECOND_SM | SECOND_ZA;
    for (int i = 0; i < 4; i++)
        s.w[i] = (uint32_t)next_random(seed);
    return s;
}

void make_work(struct work *work, uint32_t vl, const struct kind *first, size_t kinds_given, uint32_t count)
{
    uint64_t seed = vl + (uint64_t)(first - kinds);
    memset(work, 0, sizeof *work);
    work->settings.named = choose_settings(&seed, vl, first->family);
    work->z_length = second_z_length(vl);
    work->za_length = second_za_length(vl);
    for (int i = 0; i < STARTS; i++) {
        fill(&seed, work->starts[i].z, work->z_length);
        fill(&seed, work->starts[i].za, work->za_length);
    }
    work->count = count;
    for (uint32_t i = 0; i < count; i++)
        choose_word(work, &seed, &first[i % kinds_given], i);
}

void make_unknown_words(struct work *work)
{
    uint64_t seed = work->count;
    struct second_fields none;
    memset(work->fields, 0, sizeof work->fields);
    for (uint32_t i = 0; i < work->count; i++)
        do
            work->words[i] = (uint32_t)next_random(&seed);
        while (second_decode(&work->settings.named, work->words[i], &none) != SECOND_UNKNOWN_WORD);
}

/* Lists */

static void put_number(struct work *work, uint32_t number)
{
    for (; number >= 128; number /= 128)
        work->list[work->list_length++] = (uint8_t)(128 + number % 128);
    work->list[work->list_length++] = (uint8_t)number;
}

void make_list(struct work *work, uint32_t count)
{
    work->list_length = 0;
    for (int i = 0; i < 7; i++)
        put_number(work, work->settings.numbers[i]);
    memcpy(work->list + work->list_length, work->starts[0].z, work->z_length);
    work->list_length += work->z_length;
    put_number(work, count);
    for (uint32_t i = 0; i < count; i++)
        put_number(work, work->words[i]);
}

/* Texts */

/* A text of D or E without ", vgx2" or ", vgx4". The others have none. */
static void leave_out_vgx(char *text, size_t *length)
{
    static const char start[] = ", vgx";
    size_t cut = sizeof ", vgx2" - 1;
    for (size_t i = 0; i + cut <= *length; i++)
        if (memcmp(text + i, start, sizeof start - 1) == 0) {
            *length -= cut;
            memmove(text + i, text + i + cut, *length - i);
            return;
        }
}

/* Only the second program prints here, as only it encodes above. */
void make_texts(struct work *work)
{
    for (uint32_t i = 0; i < work->count; i++) {
        if (second_print(&work->settings.named, work->words[i], work->texts[i], TEXT_ROOM, &work->text_lengths[i]) !=
            SECOND_ACCEPTED)
            abort();
        if ((i / KINDS + i % KINDS) % 2 == 1)
            leave_out_vgx(work->texts[i], &work->text_lengths[i]);
    }
}

uint32_t bytes_moved(const struct kind *kind, uint32_t vl)
{
    uint32_t vector = vl / 8, lane = kind->lane / 8;
    switch (kind->family) {
    case SECOND_FAMILY_A: /* half of a V register, one element, the destination there and back: its rest is cleared */
        return 8 + lane + 2 * vector;
    case SECOND_FAMILY_B:
        return 8 + 8 + 2 * vector;
    case SECOND_FAMILY_C: /* every other element of the first source, one element for each 16 bytes of the second */
        return vector / 2 + vector / 16 * lane + 2 * vector;
    case SECOND_FAMILY_D: /* for each register of the group both sources, and four vectors there and back */
        return kind->group * (2 + 2 * 4) * vector;
    default:
        return kind->group * (2 + 2 * 2) * vector;
    }
}
