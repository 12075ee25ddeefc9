#include "second.h"

#include <stdbool.h>
#include <string.h>

enum { MOST_VECTOR_BYTES = 64 };

/* Settings */

static bool valid_settings(const struct second_settings *s)
{
    if (s->vl != 128 && s->vl != 256 && s->vl != 512)
        return false;
    if (s->features > 31 || s->modes > 3)
        return false;
    bool asks_for_sme = (s->features & (SECOND_SME2 | SECOND_I16I64)) != 0 || s->modes != 0;
    return !asks_for_sme || (s->features & SECOND_SME) != 0;
}

size_t second_z_length(uint32_t vl)
{
    return 32 * ((size_t)vl / 8);
}

size_t second_za_length(uint32_t vl)
{
    return ((size_t)vl / 8) * ((size_t)vl / 8);
}

/* Layouts. Each row's fixed bits are a mask and the value under it; the field places are those of document 01. */

enum layout { A_ROW, B_ROW, C16_ROW, C32_ROW, D2_ROW, D4_ROW, E2_ROW, E4_ROW, ROWS };

static const struct {
    uint32_t mask, value;
} fixed_bits[ROWS] = {
    [A_ROW] = {0x9F00B400, 0x0F002000},   /* 0 Q U 01111 ss L M mmmm 0 S 1 0 H 0 nnnnn ddddd */
    [B_ROW] = {0x9F20DC00, 0x0E208000},   /* 0 Q U 01110 ss 1 mmmmm 1 0 S 0 0 0 nnnnn ddddd */
    [C16_ROW] = {0xFFE0E000, 0x44A02000}, /* 01000100 10 1 ii mmm 001 S i T nnnnn ddddd */
    [C32_ROW] = {0xFFE0E000, 0x44E02000}, /* 01000100 11 1 i mmmm 001 S i T nnnnn ddddd */
    [D2_ROW] = {0xFFA19C26, 0xC1A00000},  /* 110000011 z 1 mmmm 0 0 vv 000 nnnn 0 U S 0 0 o */
    [D4_ROW] = {0xFFA39C66, 0xC1A10000},  /* 110000011 z 1 mmm 0 1 0 vv 000 nnn 0 0 U S 0 0 o */
    [E2_ROW] = {0xFFE19C24, 0xC1E00800},  /* 110000011 1 1 mmmm 0 0 vv 010 nnnn 0 U S 0 oo */
    [E4_ROW] = {0xFFE39C64, 0xC1E10800},  /* 110000011 1 1 mmm 0 1 0 vv 010 nnn 0 0 U S 0 oo */
};

static uint32_t bits(uint32_t word, unsigned low, unsigned count)
{
    return (word >> low) & ((1u << count) - 1);
}

static enum layout layout_of(uint32_t word)
{
    for (int row = A_ROW; row < ROWS; row++)
        if ((word & fixed_bits[row].mask) == fixed_bits[row].value)
            return (enum layout)row;
    return ROWS;
}

/* Fields of A, of either size that is not reserved. */
static bool read_a(uint32_t word, struct second_fields *f)
{
    uint32_t size = bits(word, 22, 2), h = bits(word, 11, 1), l = bits(word, 21, 1), m = bits(word, 20, 1);
    if (size != 1 && size != 2)
        return false;
    f->family = SECOND_FAMILY_A;
    f->is_unsigned = bits(word, 29, 1);
    f->subtract = bits(word, 14, 1);
    f->lane = 8u << size;
    f->part = bits(word, 30, 1);
    f->index = size == 1 ? 4 * h + 2 * l + m : 2 * h + l;
    f->second = size == 1 ? bits(word, 16, 4) : bits(word, 16, 5);
    return true;
}

static bool read_b(uint32_t word, struct second_fields *f)
{
    uint32_t size = bits(word, 22, 2);
    if (size == 3)
        return false;
    f->family = SECOND_FAMILY_B;
    f->is_unsigned = bits(word, 29, 1);
    f->subtract = bits(word, 13, 1);
    f->lane = 8u << size;
    f->part = bits(word, 30, 1);
    f->second = bits(word, 16, 5);
    return true;
}

static void read_c(uint32_t word, uint32_t lane, struct second_fields *f)
{
    uint32_t high = lane == 16 ? bits(word, 19, 2) : bits(word, 20, 1);
    f->family = SECOND_FAMILY_C;
    f->subtract = bits(word, 12, 1);
    f->lane = lane;
    f->part = bits(word, 10, 1);
    f->index = 2 * high + bits(word, 11, 1);
    f->second = lane == 16 ? bits(word, 16, 3) : bits(word, 16, 4);
}

/* D and E differ in the size bit, which E has fixed, and in the offset's width and unit. */
static void read_de(uint32_t word, uint32_t family, uint32_t group, struct second_fields *f)
{
    f->family = family;
    f->is_unsigned = bits(word, 4, 1);
    f->subtract = bits(word, 3, 1);
    f->lane = bits(word, 22, 1) ? 16 : 8;
    /* The zero bits under a group's number are fixed, so the five bits are already the first register's number. */
    f->first = bits(word, 6, 4) * 2;
    f->second = bits(word, 17, 4) * 2;
    f->group = group;
    f->select = 8 + bits(word, 13, 2);
    f->offset = family == SECOND_FAMILY_D ? 4 * bits(word, 0, 1) : 2 * bits(word, 0, 2);
}

/* The fields of a word whose layout is known and whose size is not reserved; no feature is asked for yet. */
static bool read_word(uint32_t word, struct second_fields *f)
{
    enum layout row = layout_of(word);
    memset(f, 0, sizeof *f);
    f->group = 1;
    if (row <= C32_ROW) {
        f->destination = bits(word, 0, 5);
        f->first = bits(word, 5, 5);
    }
    switch (row) {
    case A_ROW:
        return read_a(word, f);
    case B_ROW:
        return read_b(word, f);
    case C16_ROW:
    case C32_ROW:
        read_c(word, row == C16_ROW ? 16 : 32, f);
        return true;
    case D2_ROW:
    case D4_ROW:
        read_de(word, SECOND_FAMILY_D, row == D2_ROW ? 2 : 4, f);
        return true;
    case E2_ROW:
    case E4_ROW:
        read_de(word, SECOND_FAMILY_E, row == E2_ROW ? 2 : 4, f);
        return true;
    default:
        return false;
    }
}

static bool has_features(const struct second_fields *f, uint32_t features)
{
    switch (f->family) {
    case SECOND_FAMILY_A:
    case SECOND_FAMILY_B:
        return (features & SECOND_ADVSIMD) != 0;
    case SECOND_FAMILY_C:
        return (features & (SECOND_SVE2 | SECOND_SME)) != 0;
    case SECOND_FAMILY_D:
        return (features & SECOND_SME2) != 0 && (f->lane == 8 || (features & SECOND_I16I64) != 0);
    default:
        return (features & SECOND_SME2) != 0;
    }
}

/* Decode past the test of the settings, so that a run tests them once and not for each word. */
static int decode_valid(const struct second_settings *s, uint32_t word, struct second_fields *f)
{
    if (read_word(word, f) && has_features(f, s->features))
        return SECOND_ACCEPTED;
    memset(f, 0, sizeof *f);
    return SECOND_UNKNOWN_WORD;
}

int second_decode(const struct second_settings *settings, uint32_t word, struct second_fields *fields)
{
    if (!valid_settings(settings)) {
        memset(fields, 0, sizeof *fields);
        return SECOND_BAD_SETTINGS;
    }
    return decode_valid(settings, word, fields);
}

/* Encode puts each field's low bits at its place, and reads the word back: a field that is too large, that the
 * family lacks, or that belongs to a reserved size does not come back as it was given. */

static uint32_t write_abc(const struct second_fields *f)
{
    uint32_t size = f->lane == 8 ? 0 : f->lane == 16 ? 1 : f->lane == 32 ? 2 : 3;
    uint32_t word = (f->first & 31) << 5 | (f->destination & 31);
    uint32_t i = f->index;
    switch (f->family) {
    case SECOND_FAMILY_A:
        word |= fixed_bits[A_ROW].value | (f->part & 1) << 30 | (f->is_unsigned & 1) << 29 | size << 22;
        word |= (f->subtract & 1) << 14;
        if (f->lane == 16)
            return word | (i >> 2 & 1) << 11 | (i >> 1 & 1) << 21 | (i & 1) << 20 | (f->second & 15) << 16;
        return word | (i >> 1 & 1) << 11 | (i & 1) << 21 | (f->second & 31) << 16;
    case SECOND_FAMILY_B:
        word |= fixed_bits[B_ROW].value | (f->part & 1) << 30 | (f->is_unsigned & 1) << 29 | size << 22;
        return word | (f->second & 31) << 16 | (f->subtract & 1) << 13;
    default:
        word |= (f->subtract & 1) << 12 | (i & 1) << 11 | (f->part & 1) << 10;
        if (f->lane == 16)
            return word | fixed_bits[C16_ROW].value | (i >> 1 & 3) << 19 | (f->second & 7) << 16;
        return word | fixed_bits[C32_ROW].value | (i >> 1 & 1) << 20 | (f->second & 15) << 16;
    }
}

static uint32_t write_de(const struct second_fields *f)
{
    bool d = f->family == SECOND_FAMILY_D;
    uint32_t word = d ? fixed_bits[D2_ROW].value | (f->lane == 16 ? 1u << 22 : 0) : fixed_bits[E2_ROW].value;
    /* With group 4, a source that is no multiple of 4 sets a fixed bit, and the word reads back as none. */
    word |= (f->group == 4 ? 1u << 16 : 0) | (f->second >> 1 & 15) << 17 | (f->first >> 1 & 15) << 6;
    word |= (f->select & 3) << 13 | (f->is_unsigned & 1) << 4 | (f->subtract & 1) << 3;
    return word | (d ? f->offset >> 2 & 1 : f->offset >> 1 & 3);
}

int second_encode(const struct second_settings *settings, const struct second_fields *fields, uint32_t *word)
{
    *word = 0;
    if (!valid_settings(settings))
        return SECOND_BAD_SETTINGS;
    if (fields->family < SECOND_FAMILY_A || fields->family > SECOND_FAMILY_E)
        return SECOND_NO_SUCH_WORD;
    uint32_t built = fields->family <= SECOND_FAMILY_C ? write_abc(fields) : write_de(fields);
    struct second_fields back;
    /* All fields are uint32_t, so the struct has no padding and its bytes are its value. */
    if (!read_word(built, &back) || memcmp(&back, fields, sizeof back) != 0)
        return SECOND_NO_SUCH_WORD;
    if (!has_features(fields, settings->features))
        return SECOND_UNKNOWN_WORD;
    *word = built;
    return SECOND_ACCEPTED;
}

int second_partner(const struct second_settings *settings, uint32_t word, uint32_t *partner)
{
    struct second_fields f;
    *partner = 0;
    int refusal = second_decode(settings, word, &f);
    if (refusal != SECOND_ACCEPTED)
        return refusal;
    switch (f.family) {
    case SECOND_FAMILY_A:
        *partner = word ^ 1u << 14;
        return SECOND_ACCEPTED;
    case SECOND_FAMILY_B:
        *partner = word ^ 1u << 13;
        return SECOND_ACCEPTED;
    case SECOND_FAMILY_C:
        return SECOND_NO_PARTNER;
    default:
        *partner = word ^ 1u << 3;
        return SECOND_ACCEPTED;
    }
}

/* Lanes. `width` is a constant at every call once these are inlined, so each width becomes plain loads and stores. */

static inline uint64_t load(const uint8_t *p, unsigned width)
{
    uint64_t value = 0;
    switch (width) {
    case 64:
        value = (uint64_t)p[7] << 56 | (uint64_t)p[6] << 48 | (uint64_t)p[5] << 40 | (uint64_t)p[4] << 32;
        /* fall through */
    case 32:
        value |= (uint64_t)p[3] << 24 | (uint64_t)p[2] << 16;
        /* fall through */
    case 16:
        value |= (uint64_t)p[1] << 8;
        /* fall through */
    default:
        return value | p[0];
    }
}

static inline void store(uint8_t *p, unsigned width, uint64_t value)
{
    for (unsigned i = 0; i < width / 8; i++)
        p[i] = (uint8_t)(value >> 8 * i);
}

/* A lane as a number modulo 2^64: a signed one is continued by its sign, so that one product serves both signs. */
static inline uint64_t factor(const uint8_t *vector, unsigned element, unsigned lane, bool is_unsigned)
{
    uint64_t value = load(vector + element * (lane / 8), lane);
    uint64_t sign = is_unsigned ? 0 : (uint64_t)1 << (lane - 1);
    return (value ^ sign) - sign;
}

static inline int64_t signed_element(const uint8_t *vector, unsigned element, unsigned width)
{
    return (int64_t)factor(vector, element, width, false);
}

/* How many bits have become 1, and how many 0. */
struct toggles {
    uint32_t rises, falls;
};

/* Puts the new bytes in place and counts the bits that this changes: of those that differ, the ones of the new bytes
 * have risen, and the ones of the old bytes have fallen. */
static struct toggles replace(uint8_t *old, const uint8_t *new, size_t bytes)
{
    struct toggles t = {0, 0};
    for (size_t i = 0; i < bytes; i += 8) {
        uint64_t was = load(old + i, 64), is = load(new + i, 64), differ = was ^ is;
        t.rises += (uint32_t)__builtin_popcountll(differ & is);
        t.falls += (uint32_t)__builtin_popcountll(differ & was);
    }
    memcpy(old, new, bytes);
    return t;
}

/* Steps of A and B, into `new`: the destination may be a source, so it changes only when all is read. */
static inline void half_step(const struct second_fields *f, const uint8_t *n, const uint8_t *m, const uint8_t *d,
                             uint8_t *new, unsigned lane)
{
    unsigned count = 64 / lane, start = f->part * count;
    bool by_element = f->family == SECOND_FAMILY_A;
    for (unsigned e = 0; e < count; e++) {
        uint64_t a = factor(n, start + e, lane, f->is_unsigned);
        uint64_t b = factor(m, by_element ? f->index : start + e, lane, f->is_unsigned);
        uint64_t old = load(d + e * (lane / 4), 2 * lane);
        store(new + e * (lane / 4), 2 * lane, f->subtract ? old - a * b : old + a * b);
    }
}

/* A write of a V register, the low 16 bytes, sets the rest of the Z register to zero: the new register is zero above
 * the lanes, and the whole of it is put in place and counted. */
static struct toggles execute_ab(const struct second_settings *s, const struct second_fields *f, uint8_t *z)
{
    size_t bytes = s->vl / 8;
    const uint8_t *n = z + f->first * bytes, *m = z + f->second * bytes;
    uint8_t *d = z + f->destination * bytes, new[MOST_VECTOR_BYTES] = {0};
    switch (f->lane) {
    case 8:
        half_step(f, n, m, d, new, 8);
        break;
    case 16:
        half_step(f, n, m, d, new, 16);
        break;
    default:
        half_step(f, n, m, d, new, 32);
        break;
    }
    return replace(d, new, bytes);
}

/* The two clamps of C. Doubling is decided on the product before it: -2^31 squared, doubled, has no 64-bit form. Only
 * the top can be passed there, since the least product is above half of the least double-width number. */
static inline int64_t clamped_step(int64_t old, int64_t a, int64_t b, bool subtract, unsigned lane)
{
    int64_t high = lane == 16 ? INT32_MAX : INT64_MAX, low = -high - 1, sum;
    int64_t product = a * b;
    int64_t doubled = product > high / 2 ? high : 2 * product;
    bool over = subtract ? __builtin_sub_overflow(old, doubled, &sum) : __builtin_add_overflow(old, doubled, &sum);
    if (over) /* passing 64 bits is always on the side of the old number's sign */
        return old < 0 ? low : high;
    return sum < low ? low : sum > high ? high : sum;
}

static inline void segment_step(const struct second_fields *f, const uint8_t *n, const uint8_t *m, const uint8_t *d,
                                uint8_t *new, unsigned vl, unsigned lane)
{
    unsigned per_segment = 64 / lane;
    for (unsigned e = 0; e < vl / (2 * lane); e++) {
        unsigned s = e - e % per_segment;
        int64_t a = signed_element(n, 2 * e + f->part, lane);
        int64_t b = signed_element(m, 2 * s + f->index, lane);
        int64_t old = signed_element(d, e, 2 * lane);
        store(new + e * (lane / 4), 2 * lane, (uint64_t)clamped_step(old, a, b, f->subtract, lane));
    }
}

static struct toggles execute_c(const struct second_settings *s, const struct second_fields *f, uint8_t *z)
{
    size_t bytes = s->vl / 8;
    const uint8_t *n = z + f->first * bytes, *m = z + f->second * bytes;
    uint8_t *d = z + f->destination * bytes, new[MOST_VECTOR_BYTES];
    if (f->lane == 16)
        segment_step(f, n, m, d, new, s->vl, 16);
    else
        segment_step(f, n, m, d, new, s->vl, 32);
    return replace(d, new, bytes);
}

/* One vector of ZA: element e takes the product of elements k*e+i. */
static inline void outer_step(const struct second_fields *f, const uint8_t *n, const uint8_t *m, const uint8_t *old,
                              uint8_t *new, unsigned vl, unsigned k, unsigned i, unsigned lane)
{
    unsigned wide = k * lane;
    for (unsigned e = 0; e < vl / wide; e++) {
        uint64_t a = factor(n, k * e + i, lane, f->is_unsigned);
        uint64_t b = factor(m, k * e + i, lane, f->is_unsigned);
        uint64_t was = load(old + e * (wide / 8), wide);
        store(new + e * (wide / 8), wide, f->subtract ? was - a * b : was + a * b);
    }
}

static struct toggles execute_de(const struct second_settings *s, const struct second_fields *f, const uint8_t *z,
                                 uint8_t *za)
{
    uint32_t bytes = s->vl / 8, stride = bytes / f->group, k = f->family == SECOND_FAMILY_D ? 4 : 2;
    /* The paper adds numbers: at the top of 32 bits the sum must not come round before the remainder is taken. */
    uint64_t sum = (uint64_t)s->w[f->select - 8] + f->offset;
    uint32_t first = (uint32_t)(sum % stride) / k * k;
    struct toggles all = {0, 0};
    for (uint32_t r = 0; r < f->group; r++) {
        const uint8_t *n = z + (size_t)(f->first + r) * bytes, *m = z + (size_t)(f->second + r) * bytes;
        for (uint32_t i = 0; i < k; i++) {
            uint8_t *old = za + (size_t)(first + r * stride + i) * bytes, new[MOST_VECTOR_BYTES];
            if (k == 2)
                outer_step(f, n, m, old, new, s->vl, 2, i, 16);
            else if (f->lane == 8)
                outer_step(f, n, m, old, new, s->vl, 4, i, 8);
            else
                outer_step(f, n, m, old, new, s->vl, 4, i, 16);
            struct toggles t = replace(old, new, bytes);
            all.rises += t.rises;
            all.falls += t.falls;
        }
    }
    return all;
}

static bool mode_permits(const struct second_settings *s, uint32_t family)
{
    switch (family) {
    case SECOND_FAMILY_A:
    case SECOND_FAMILY_B:
        return (s->modes & SECOND_SM) == 0;
    case SECOND_FAMILY_C:
        return (s->modes & SECOND_SM) != 0 || (s->features & SECOND_SVE2) != 0;
    default:
        return s->modes == (SECOND_SM | SECOND_ZA);
    }
}

/* Execute past the tests of settings and lengths. */
static int execute_valid(const struct second_settings *s, uint32_t word, uint8_t *z, uint8_t *za,
                         struct second_counts *counts)
{
    struct second_fields f;
    struct toggles t;
    int refusal = decode_valid(s, word, &f);
    memset(counts, 0, sizeof *counts);
    if (refusal != SECOND_ACCEPTED)
        return refusal;
    if (!mode_permits(s, f.family))
        return SECOND_WRONG_MODE;
    switch (f.family) {
    case SECOND_FAMILY_A:
    case SECOND_FAMILY_B:
        t = execute_ab(s, &f, z);
        counts->written = s->vl;
        break;
    case SECOND_FAMILY_C:
        t = execute_c(s, &f, z);
        counts->written = s->vl;
        break;
    default:
        t = execute_de(s, &f, z, za);
        counts->written = s->vl * f.group * (f.family == SECOND_FAMILY_D ? 4 : 2);
        break;
    }
    counts->rises = t.rises;
    counts->falls = t.falls;
    return SECOND_ACCEPTED;
}

int second_execute(const struct second_settings *settings, uint32_t word, uint8_t *z, size_t z_len, uint8_t *za,
                   size_t za_len, struct second_counts *counts)
{
    memset(counts, 0, sizeof *counts);
    if (!valid_settings(settings))
        return SECOND_BAD_SETTINGS;
    if (z_len != second_z_length(settings->vl) || za_len != second_za_length(settings->vl))
        return SECOND_BAD_LENGTH;
    return execute_valid(settings, word, z, za, counts);
}

uint64_t second_percent(uint32_t toggled, uint32_t written)
{
    return written == 0 ? 0 : (uint64_t)100 * toggled / written;
}

/* The run list */

int second_read_number(const uint8_t *list, size_t list_len, size_t *place, uint32_t *number)
{
    uint32_t value = 0;
    for (unsigned i = 0; i < 5; i++) {
        if (list_len - *place <= i)
            return SECOND_LIST_ENDS;
        uint8_t byte = list[*place + i];
        /* Above 15 also where it says that another group follows: no sixth byte is waited for. */
        if (i == 4 && byte > 15)
            return SECOND_BAD_NUMBER;
        value |= (uint32_t)(byte & 127) << 7 * i;
        if (byte < 128) {
            if (i > 0 && byte == 0)
                return SECOND_BAD_NUMBER;
            *place += i + 1;
            *number = value;
            return SECOND_ACCEPTED;
        }
    }
    return SECOND_BAD_NUMBER;
}

/* What a list says, found before any buffer changes. */
struct heard {
    struct second_settings settings;
    size_t z_place;
    uint32_t count;
    uint32_t words[SECOND_MOST_WORDS];
};

static int hear_settings(const uint8_t *list, size_t list_len, size_t *place, struct second_settings *s)
{
    uint32_t *numbers[7] = {&s->vl, &s->features, &s->modes, &s->w[0], &s->w[1], &s->w[2], &s->w[3]};
    for (int i = 0; i < 7; i++) {
        int refusal = second_read_number(list, list_len, place, numbers[i]);
        if (refusal != SECOND_ACCEPTED)
            return refusal;
    }
    return valid_settings(s) ? SECOND_ACCEPTED : SECOND_BAD_SETTINGS;
}

/* Reads n and the words. At a fault *place is the place that document 01 gives for it. */
static int hear_words(const uint8_t *list, size_t list_len, size_t *place, size_t report_len, struct heard *h)
{
    size_t count_place = *place;
    int refusal = second_read_number(list, list_len, place, &h->count);
    if (refusal != SECOND_ACCEPTED)
        return refusal;
    if (h->count > SECOND_MOST_WORDS) {
        *place = count_place;
        return SECOND_TOO_MANY_WORDS;
    }
    if (report_len < SECOND_PER_WORD * (size_t)h->count)
        return SECOND_BAD_LENGTH;
    for (uint32_t i = 0; i < h->count; i++) {
        refusal = second_read_number(list, list_len, place, &h->words[i]);
        if (refusal != SECOND_ACCEPTED)
            return refusal;
    }
    return *place == list_len ? SECOND_ACCEPTED : SECOND_EXTRA_BYTES;
}

static int hear(const uint8_t *list, size_t list_len, size_t *place, size_t z_len, size_t za_len, size_t report_len,
                struct heard *h)
{
    int refusal = hear_settings(list, list_len, place, &h->settings);
    if (refusal != SECOND_ACCEPTED)
        return refusal;
    if (z_len != second_z_length(h->settings.vl) || za_len != second_za_length(h->settings.vl))
        return SECOND_BAD_LENGTH;
    if (list_len - *place < z_len)
        return SECOND_LIST_ENDS;
    h->z_place = *place;
    *place += z_len;
    return hear_words(list, list_len, place, report_len, h);
}

int second_run(const uint8_t *list, size_t list_len, uint8_t *z, size_t z_len, uint8_t *za, size_t za_len,
               uint32_t *report, size_t report_len, size_t *place, uint32_t *report_words)
{
    struct heard h;
    size_t at = 0;
    *place = 0;
    *report_words = 0;
    int refusal = hear(list, list_len, &at, z_len, za_len, report_len, &h);
    if (refusal != SECOND_ACCEPTED) {
        if (refusal >= SECOND_LIST_ENDS)
            *place = at;
        return refusal;
    }
    memcpy(z, list + h.z_place, z_len);
    memset(za, 0, za_len);
    for (uint32_t i = 0; i < h.count; i++) {
        uint32_t *row = report + SECOND_PER_WORD * (size_t)i;
        struct second_counts counts;
        row[0] = (uint32_t)execute_valid(&h.settings, h.words[i], z, za, &counts);
        row[1] = counts.rises;
        row[2] = counts.falls;
        row[3] = counts.written;
    }
    *report_words = h.count;
    return SECOND_ACCEPTED;
}
