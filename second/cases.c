/* Single executions. README.md says what they go through. */
#include "cases.h"

#include "choices.h"

static take_case *take;

/* Lengths of the VL, random contents and select registers. */
static struct one_case common_case(uint32_t vl, uint32_t features, uint32_t modes, uint32_t word)
{
    struct one_case c = {.s = {.vl = vl, .features = features, .modes = modes}, .word = word};
    for (int i = 0; i < 4; i++)
        c.s.w[i] = choose_any();
    c.z = (struct contents){FILL_RANDOM, choose_any(), (uint32_t)second_z_length(vl)};
    c.za = (struct contents){FILL_RANDOM, choose_any(), (uint32_t)second_za_length(vl)};
    return c;
}

/* Settings under which the fields' word runs. */
static struct one_case permitted(uint32_t vl, const struct second_fields *f)
{
    struct second_settings s;
    choose_permitting(f, &s);
    return common_case(vl, s.features, s.modes, word_of(f));
}

/* A list of all fields but the registers, in a fixed order: fields number `at` of a family, or family 0 at its end. */
static struct second_fields numbered(uint32_t family, uint32_t at)
{
    static const uint32_t a_lanes[] = {16, 16, 32}, b_lanes[] = {8, 16, 32};
    struct second_fields f = {.family = family, .group = 1};
    f.subtract = at % 2;
    at /= 2;
    if (family != SECOND_FAMILY_C) {
        f.is_unsigned = at % 2;
        at /= 2;
    }
    if (family <= SECOND_FAMILY_C) {
        f.part = at % 2;
        at /= 2;
    }
    if (family == SECOND_FAMILY_B) {
        if (at < 3)
            f.lane = b_lanes[at];
    } else if (family <= SECOND_FAMILY_C) {
        if (at < 12)
            f.lane = a_lanes[at / 4];
        f.index = at % 8;
    } else {
        f.group = at % 2 == 0 ? 2 : 4;
        f.select = 8 + at / 2 % 4;
        f.offset = family == SECOND_FAMILY_D ? 4 * (at / 8 % 2) : 2 * (at / 8 % 4);
        at /= family == SECOND_FAMILY_D ? 16 : 32;
        if (family == SECOND_FAMILY_D && at < 2)
            f.lane = 8 + 8 * at;
        if (family == SECOND_FAMILY_E && at < 1)
            f.lane = 16;
    }
    if (f.lane == 0)
        f.family = 0;
    return f;
}

/* Every sign, operation, part, lane, index, group, select register and offset, `times` over. The contents are random
 * and mixed by turns. VL goes on by one at each case and each time, so three times give every case every VL. */
static void all_fields(uint32_t family, uint32_t times)
{
    uint32_t turn = 0;
    for (uint32_t t = 0; t < times; t++)
        for (uint32_t at = 0;; at++, turn++) {
            struct second_fields f = numbered(family, at);
            if (f.family == 0)
                break;
            choose_registers(&f);
            struct one_case c = permitted(vls[(at + t) % 3], &f);
            c.z.kind = turn % 2 == 0 ? FILL_RANDOM : FILL_MIXED;
            c.za.kind = turn / 2 % 2 == 0 ? FILL_RANDOM : FILL_MIXED;
            take(&c);
        }
}

/* Each lane and sign of a family, the rest by choice. */
static uint32_t lanes_of(uint32_t family, struct second_fields *variants)
{
    uint32_t count = 0;
    for (uint32_t at = 0; numbered(family, at).family != 0; at++) {
        struct second_fields f = numbered(family, at);
        int known = 0;
        for (uint32_t i = 0; i < count; i++)
            known |= variants[i].lane == f.lane && variants[i].is_unsigned == f.is_unsigned;
        if (!known)
            variants[count++] = f;
    }
    return count;
}

/* Each kind of extreme contents, added and subtracted. */
static void extremes(uint32_t family)
{
    struct second_fields variants[8];
    uint32_t count = lanes_of(family, variants);
    for (uint32_t v = 0; v < count; v++)
        for (uint32_t kind = 1; kind < FILL_KINDS; kind++)
            for (uint32_t subtract = 0; subtract < 2; subtract++) {
                struct second_fields f = variants[v];
                choose_rest(&f);
                f.subtract = subtract;
                struct one_case c = permitted(vls[(v + kind + subtract) % 3], &f);
                c.z.kind = kind;
                c.za.kind = kind == 9 ? FILL_MIXED : choose(FILL_KINDS);
                take(&c);
            }
}

/* The destination as the first source, as the second, and as both. */
static void shared_registers(uint32_t family)
{
    struct second_fields variants[8];
    uint32_t count = lanes_of(family, variants);
    for (uint32_t v = 0; v < count; v++)
        for (uint32_t shared = 1; shared < 4; shared++)
            for (uint32_t i = 0; i < 3; i++) {
                struct second_fields f = variants[v];
                choose_rest(&f);
                f.part = (v + shared + i) % 2;
                if (shared % 2 == 1)
                    f.destination = f.first = choose(second_below(&f));
                if (shared / 2 == 1)
                    f.second = f.destination = shared == 3 ? f.destination : choose(second_below(&f));
                struct one_case c = permitted(vls[i], &f);
                c.z.kind = i == 1 ? FILL_MIXED : FILL_RANDOM;
                take(&c);
            }
}

/* The last registers of Z, which end where Z ends. */
static void top_registers(uint32_t family)
{
    struct second_fields variants[8];
    uint32_t count = lanes_of(family, variants);
    for (uint32_t v = 0; v < count; v++)
        for (uint32_t i = 0; i < 3; i++) {
            struct second_fields f = variants[v];
            choose_rest(&f);
            if (family >= SECOND_FAMILY_D)
                f.group = i == v % 3 ? 2 : 4;
            uint32_t top = 32 - f.group;
            f.first = top;
            f.second = second_below(&f) - f.group;
            f.destination = family <= SECOND_FAMILY_C ? top : 0;
            struct one_case c = permitted(vls[i], &f);
            take(&c);
        }
}

/* What a word of A or B clears: nothing, a byte here and there, every bit. */
static void upper_parts(uint32_t family)
{
    static const uint32_t held[] = {4, FILL_SPARSE, FILL_SPARSE, 1};
    struct second_fields variants[8];
    uint32_t count = lanes_of(family, variants);
    for (uint32_t v = 0; v < count; v++)
        for (uint32_t i = 0; i < sizeof held / sizeof *held; i++)
            for (uint32_t vl = 256; vl <= 512; vl *= 2) {
                struct second_fields f = variants[v];
                choose_rest(&f);
                struct one_case c = permitted(vl, &f);
                c.z.kind = held[i];
                take(&c);
            }
}

/* W at the top of 32 bits and round each stride, with each offset: the sum goes past 2^32. */
static void select_values(uint32_t family)
{
    static const uint32_t ws[] = {UINT32_MAX, UINT32_MAX - 1, UINT32_MAX - 5, 7, 15};
    for (uint32_t w = 0; w < sizeof ws / sizeof *ws; w++)
        for (uint32_t offset = 0; offset < (family == SECOND_FAMILY_D ? 2 : 4); offset++)
            for (uint32_t group = 2; group <= 4; group += 2) {
                struct second_fields f = {.family = family, .lane = 16, .group = group, .select = 8 + choose(4)};
                f.offset = offset * (family == SECOND_FAMILY_D ? 4 : 2);
                f.subtract = choose(2);
                f.is_unsigned = choose(2);
                choose_registers(&f);
                struct one_case c = permitted(vls[(w + offset + group / 2) % 3], &f);
                c.s.w[f.select - 8] = ws[w];
                take(&c);
            }
}

/* Refusals */

/* One word of each family, A to E, and of D with lane 16. */
static const uint32_t samples[] = {0x2F726820, 0x0E228020, 0x44BA3820, 0xC1A20008, 0xC1E20800, 0xC1E20008};
enum { SAMPLES = sizeof samples / sizeof *samples };

static void settings_refused(void)
{
    static const uint32_t bad_vls[] = {0, 1, 64, 127, 129, 192, 384, 511, 1024, UINT32_MAX};
    static const uint32_t bad_features[] = {8, 9, 16, 17, 24, 27, 32, 63, 0x80000000, UINT32_MAX};
    static const uint32_t bad_modes[][2] = {{31, 4}, {31, 7}, {31, UINT32_MAX}, {3, 1}, {3, 2}, {3, 3}, {0, 1}};
    for (uint32_t i = 0; i < sizeof bad_vls / sizeof *bad_vls; i++) {
        struct one_case c = common_case(128, 31, 3, samples[i % SAMPLES]);
        c.s.vl = bad_vls[i];
        take(&c);
    }
    for (uint32_t i = 0; i < sizeof bad_features / sizeof *bad_features; i++) {
        struct one_case c = common_case(vls[i % 3], bad_features[i], 0, samples[i % SAMPLES]);
        take(&c);
    }
    for (uint32_t i = 0; i < sizeof bad_modes / sizeof *bad_modes; i++) {
        struct one_case c = common_case(vls[i % 3], bad_modes[i][0], bad_modes[i][1], samples[i % SAMPLES]);
        take(&c);
    }
    struct one_case both = common_case(128, 32, 0, 0);
    both.z.length = 0;
    take(&both);
}

static void take_lengths(uint32_t vl, uint32_t modes, uint32_t word, uint32_t z, uint32_t za)
{
    struct one_case c = common_case(vl, 31, modes, word);
    c.z.length = z;
    c.za.length = za;
    take(&c);
}

static void lengths_refused(void)
{
    for (uint32_t i = 0; i < 3; i++) {
        uint32_t z = (uint32_t)second_z_length(vls[i]), za = (uint32_t)second_za_length(vls[i]);
        uint32_t other = vls[(i + 1) % 3];
        const uint32_t wrong[][2] = {{z - 1, za}, {z + 1, za}, {0, za}, {z, za - 1}, {z, za + 1}, {z, 0}, {0, 0},
                                     {(uint32_t)second_z_length(other), (uint32_t)second_za_length(other)}};
        for (uint32_t j = 0; j < sizeof wrong / sizeof *wrong; j++) {
            uint32_t word = samples[(i + j) % SAMPLES];
            take_lengths(vls[i], word >> 31 == 1 ? 3 : 0, word, wrong[j][0], wrong[j][1]);
        }
        take_lengths(vls[i], 0, 0xFFFFFFFF, z, za - 1);
        take_lengths(vls[i], 1, samples[0], z + 1, za);
    }
}

static void words_refused(void)
{
    static const uint32_t lacking[][3] = {
        {0x2F726820, 0, 0},  {0x2F726820, 30, 0}, {0x0E228020, 2, 0},  {0x0E228020, 30, 3}, {0x44BA3820, 0, 0},
        {0x44BA3820, 1, 0},  {0x44F23C20, 1, 0},  {0xC1A20008, 7, 3},  {0xC1A20008, 20, 3}, {0xC1A20008, 23, 3},
        {0xC1E20008, 12, 3}, {0xC1E20008, 15, 3}, {0xC1E50099, 12, 3}, {0xC1E50099, 20, 3}, {0xC1E20800, 4, 3},
        {0xC1E20800, 23, 0}, {0xC1E10803, 7, 2},  {0x2F026020, 31, 0}, {0x2FC26020, 31, 0}, {0x0EE28020, 31, 0},
        {0x44222020, 31, 0}, {0x44622020, 31, 0}, {0, 31, 0},          {UINT32_MAX, 31, 3}};
    static const uint32_t rows[] = {0x2F726820, 0x0E228020, 0x44BA3820, 0x44F23C20, 0xC1A20008, 0xC1A10008,
                                    0xC1E20800, 0xC1E10803};
    for (uint32_t i = 0; i < sizeof lacking / sizeof *lacking; i++) {
        struct one_case c = common_case(vls[i % 3], lacking[i][1], lacking[i][2], lacking[i][0]);
        c.z.kind = i % FILL_KINDS;
        c.za.kind = (i + 3) % FILL_KINDS;
        take(&c);
    }
    /* One bit away from a word: often none, at times another word. */
    for (uint32_t i = 0; i < sizeof rows / sizeof *rows; i++)
        for (uint32_t bit = i % 2; bit < 32; bit += 2) {
            struct one_case c = common_case(vls[(i + bit) % 3], 31, rows[i] >> 31 == 1 ? 3 : 0, rows[i] ^ 1u << bit);
            take(&c);
        }
}

/* Each family under each pair of features and modes that decides its mode. */
static void modes_tried(void)
{
    static const uint32_t pairs[][2] = {{31, 0}, {31, 1}, {31, 2}, {31, 3}, {29, 0}, {29, 1}, {29, 2}, {29, 3},
                                        {6, 0},  {6, 1},  {4, 0},  {4, 1},  {4, 2},  {4, 3},  {2, 0},  {3, 0}};
    for (uint32_t i = 0; i < SAMPLES; i++)
        for (uint32_t j = 0; j < sizeof pairs / sizeof *pairs; j++) {
            struct one_case c = common_case(vls[(i + j) % 3], pairs[j][0], pairs[j][1], samples[i]);
            take(&c);
        }
}

void make_cases(uint32_t seed, take_case *taker)
{
    take = taker;
    start_choosing(seed);
    all_fields(SECOND_FAMILY_A, 1);
    all_fields(SECOND_FAMILY_B, 3);
    all_fields(SECOND_FAMILY_C, 3);
    all_fields(SECOND_FAMILY_D, 1);
    all_fields(SECOND_FAMILY_E, 1);
    for (uint32_t family = SECOND_FAMILY_A; family <= SECOND_FAMILY_E; family++) {
        extremes(family);
        top_registers(family);
        if (family <= SECOND_FAMILY_C)
            shared_registers(family);
        else
            select_values(family);
    }
    settings_refused();
    lengths_refused();
    words_refused();
    modes_tried();
    upper_parts(SECOND_FAMILY_A);
    upper_parts(SECOND_FAMILY_B);
}
