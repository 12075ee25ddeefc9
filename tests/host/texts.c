/* Print and read. */
#include "callinglamp.h"
#include "choices.h"
#include "damages.h"
#include "judge.h"
#include "parts.h"

#include <stdio.h>
#include <stdlib.h>

_Static_assert((int)SECOND_LONGEST_TEXT == (int)CALLINGLAMP_LONGEST_TEXT, "both name the same longest text");

enum { TURNS = 32, DAMAGED_TURNS = 3, LEAST_COMPARED = 200000 };

static const struct second_settings all = {.vl = 128, .features = 31};

/* Both sides have given the same answer, so this is a fault of both. */
static void both_are_wrong(const char *due, const struct text *t, uint64_t answer)
{
    printf("\"%.*s\": %s, and both answer %016llX\n", (int)t->length, t->bytes, due, (unsigned long long)answer);
    exit(1);
}

static void compare_reading(const struct second_settings *s, const struct text *t, uint32_t word)
{
    uint64_t answer = compare_text(s, t);
    if (answer != answer_of(CALLINGLAMP_ACCEPTED, word))
        both_are_wrong("is due to be read", t, answer);
}

/* Words */

/* A family with a lane, a sign, an operation, and a part or a group: 72 kinds. The other fields are 0. */
static void for_each_kind(void (*each)(const struct second_fields *kind))
{
    static const uint32_t lanes[][2] = {{SECOND_FAMILY_A, 16}, {SECOND_FAMILY_A, 32}, {SECOND_FAMILY_B, 8},
                                        {SECOND_FAMILY_B, 16}, {SECOND_FAMILY_B, 32}, {SECOND_FAMILY_C, 16},
                                        {SECOND_FAMILY_C, 32}, {SECOND_FAMILY_D, 8},  {SECOND_FAMILY_D, 16},
                                        {SECOND_FAMILY_E, 16}};
    for (size_t i = 0; i < sizeof lanes / sizeof *lanes; i++)
        for (uint32_t bits = 0; bits < 8; bits++) {
            struct second_fields kind = {.family = lanes[i][0], .lane = lanes[i][1], .group = 1};
            kind.is_unsigned = bits & 1;
            kind.subtract = bits >> 1 & 1;
            if (kind.family <= SECOND_FAMILY_C)
                kind.part = bits >> 2;
            else
                kind.group = bits >> 2 == 0 ? 2 : 4;
            if (kind.family != SECOND_FAMILY_C || kind.is_unsigned == 0)
                each(&kind);
        }
}

/* Fields of a word of a kind. In TURNS turns with the same `shifts` each of them becomes all that it can be. */
static struct second_fields fields_in_turn(const struct second_fields *kind, uint32_t turn, uint32_t shifts)
{
    struct second_fields f = *kind;
    uint32_t registers = 32 / f.group;
    f.first = (turn + shifts / 32) % registers * f.group;
    f.second = (turn + shifts / 1024) % registers * f.group;
    if (f.family <= SECOND_FAMILY_C) {
        f.destination = (turn + shifts) % 32;
        f.second %= second_below(&f);
    } else {
        f.select = 8 + turn % 4;
        f.offset = f.family == SECOND_FAMILY_D ? turn / 4 % 2 * 4 : turn / 4 % 4 * 2;
    }
    if (f.family == SECOND_FAMILY_A || f.family == SECOND_FAMILY_C)
        f.index = (turn + shifts / 32768) % (128 / f.lane);
    return f;
}

static struct second_fields choose_fields_of(const struct second_fields *kind)
{
    uint32_t turn = choose(TURNS), shifts = choose(1u << 20);
    return fields_in_turn(kind, turn, shifts);
}

/* Rooms of every length, from none to more than any text needs. */
static void compare_rooms(const struct second_settings *s, uint32_t word)
{
    for (size_t length = 0; length <= CALLINGLAMP_LONGEST_TEXT + 2; length++)
        compare_print(s, word, length);
    compare_print(s, word, MOST_SHORT);
}

/* Each word, and the texts of it that are read. */
static void compare_kind(const struct second_fields *kind)
{
    uint32_t shifts = choose(1u << 20);
    for (uint32_t turn = 0; turn < TURNS; turn++) {
        struct second_fields f = fields_in_turn(kind, turn, shifts);
        struct second_settings s = {.vl = vls[choose(3)]};
        uint32_t word = word_of(&f);
        struct text t = text_of(word), shorter = without_group(&t);
        choose_permitting(&f, &s);
        compare_rooms(&s, word);
        compare_reading(&s, &t, word);
        compare_reading(&s, &shorter, word);
        compare_anyhow(&t);
        compare_anyhow(&shorter);
    }
}

/* Every sum of features, and each with a number that is none. */
static void compare_features(const struct second_fields *kind)
{
    struct second_fields f = choose_fields_of(kind);
    uint32_t word = word_of(&f);
    struct text t = text_of(word), shorter = without_group(&t);
    for (uint32_t features = 0; features < 64; features++) {
        struct second_settings s = {.vl = vls[choose(3)], .features = features};
        compare_print(&s, word, t.length);
        compare_text(&s, choose(2) == 0 ? &t : &shorter);
    }
}

/* Words that are refused, often, with room for most texts or hardly. */
static void compare_prints(void)
{
    for (uint32_t row = 0; row < ROWS; row++) {
        uint32_t word = choose_word_of_row(row);
        for (int bit = 0; bit < 32; bit++)
            compare_print(&all, word ^ 1u << bit, CALLINGLAMP_LONGEST_TEXT);
    }
    for (int i = 0; i < 20000; i++) {
        struct second_settings s = choose_settings();
        uint32_t length = choose(4) == 0 ? choose(MOST_SHORT + 1) : 20 + choose(45);
        compare_print(&s, choose_word(), length);
    }
}

/* Three words of each kind, one of D and E without its group. */
static void compare_damages(const struct second_fields *kind)
{
    for (uint32_t turn = 0; turn < DAMAGED_TURNS; turn++) {
        struct second_fields f = choose_fields_of(kind);
        struct text t = text_of(word_of(&f));
        if (turn % 2 == 1)
            t = without_group(&t);
        compare_places(&t);
        compare_whole(&t);
        if (turn < 2)
            compare_numbers(&t);
    }
}

/* Texts that are known */

/* Those of the request and of its issue, with the word where one is named there, else 0. */
static const struct {
    const char *text;
    uint32_t word;
} known[] = {
    {"smlsll za.s[w8, 0:3, vgx2], { z0.b-z1.b }, { z2.b-z3.b }", 0xC1A20008},
    {"smlal v1.4s, v2.4h, v3.h[5]", 0},
    {"smlal2 v1.4s, v2.8h, v3.h[5]", 0},
    {"smlal v1.2d, v2.2s, v3.s[1]", 0},
    {"smlal2 v1.2d, v2.4s, v3.s[1]", 0},
    {"umlsl v1.8h, v2.8b, v3.8b", 0},
    {"umlsl2 v1.8h, v2.16b, v3.16b", 0},
    {"umlsl v1.4s, v2.4h, v3.4h", 0},
    {"umlsl2 v1.4s, v2.8h, v3.8h", 0},
    {"umlsl v1.2d, v2.2s, v3.2s", 0},
    {"umlsl2 v1.2d, v2.4s, v3.4s", 0},
    {"sqdmlalb z1.s, z2.h, z3.h[5]", 0},
    {"sqdmlslt z1.d, z2.s, z3.s[1]", 0},
    {"smlsll za.s[w8, 0:3, vgx4], { z0.b-z3.b }, { z4.b-z7.b }", 0},
    {"umlall za.d[w9, 4:7, vgx2], { z30.h-z31.h }, { z2.h-z3.h }", 0},
    {"smlal za.s[w8, 0:1, vgx2], { z0.h-z1.h }, { z2.h-z3.h }", 0},
    {"umlsll za.s[w11, 4:7, vgx4], { z28.b-z31.b }, { z28.b-z31.b }", 0},
};

static void compare_known_texts(void)
{
    for (size_t i = 0; i < sizeof known / sizeof *known; i++) {
        struct text t = text_from(known[i].text);
        uint64_t answer = compare_text(&all, &t);
        uint32_t word = callinglamp_value(answer);
        if (callinglamp_refusal(answer) != CALLINGLAMP_ACCEPTED || (known[i].word != 0 && word != known[i].word))
            both_are_wrong("is due to be read", &t, answer);
        struct text printed = text_of(word), shorter = without_group(&t);
        if (!is_same_text(&printed, &t))
            both_are_wrong("is due to be printed for its word", &t, answer);
        compare_reading(&all, &shorter, word);
    }
}

/* One step away from texts, or as other tools and papers write them. */
static const char *const not_texts[] = {
    "",
    " ",
    "smlal",
    "smlal v1.4s",
    /* numbers that no word of the family can carry */
    "smlal v32.4s, v2.4h, v3.h[5]",
    "smlal v1.4s, v32.4h, v3.h[5]",
    "smlal v1.4s, v2.4h, v16.h[5]",
    "smlal v1.4s, v2.4h, v3.h[8]",
    "smlal v1.2d, v2.2s, v32.s[1]",
    "smlal v1.2d, v2.2s, v3.s[4]",
    "umlsl v1.8h, v2.8b, v32.8b",
    "sqdmlalb z1.s, z2.h, z8.h[5]",
    "sqdmlalb z1.s, z2.h, z3.h[8]",
    "sqdmlalb z1.d, z2.s, z16.s[1]",
    "sqdmlalb z1.d, z2.s, z3.s[4]",
    "smlsll za.s[w7, 0:3, vgx2], { z0.b-z1.b }, { z2.b-z3.b }",
    "smlsll za.s[w12, 0:3, vgx2], { z0.b-z1.b }, { z2.b-z3.b }",
    "smlsll za.s[w8, 1:4, vgx2], { z0.b-z1.b }, { z2.b-z3.b }",
    "smlsll za.s[w8, 2:5, vgx2], { z0.b-z1.b }, { z2.b-z3.b }",
    "smlsll za.s[w8, 8:11, vgx2], { z0.b-z1.b }, { z2.b-z3.b }",
    "smlsll za.s[w8, 0:1, vgx2], { z0.b-z1.b }, { z2.b-z3.b }",
    "smlal za.s[w8, 1:2, vgx2], { z0.h-z1.h }, { z2.h-z3.h }",
    "smlal za.s[w8, 8:9, vgx2], { z0.h-z1.h }, { z2.h-z3.h }",
    "smlal za.s[w8, 0:3, vgx2], { z0.h-z1.h }, { z2.h-z3.h }",
    /* groups */
    "smlsll za.s[w8, 0:3, vgx2], { z1.b-z2.b }, { z2.b-z3.b }",
    "smlsll za.s[w8, 0:3, vgx2], { z0.b-z1.b }, { z3.b-z4.b }",
    "smlsll za.s[w8, 0:3, vgx2], { z0.b-z2.b }, { z2.b-z3.b }",
    "smlsll za.s[w8, 0:3], { z0.b-z2.b }, { z2.b-z4.b }",
    "smlsll za.s[w8, 0:3, vgx2], { z31.b-z0.b }, { z2.b-z3.b }",
    "smlsll za.s[w8, 0:3, vgx2], { z32.b-z33.b }, { z2.b-z3.b }",
    "smlsll za.s[w8, 0:3, vgx4], { z2.b-z5.b }, { z4.b-z7.b }",
    "smlsll za.s[w8, 0:3, vgx4], { z0.b-z3.b }, { z30.b-z1.b }",
    "smlsll za.s[w8, 0:3, vgx4], { z0.b-z1.b }, { z2.b-z3.b }",
    "smlsll za.s[w8, 0:3, vgx2], { z0.b-z3.b }, { z4.b-z7.b }",
    "smlsll za.s[w8, 0:3, vgx1], { z0.b-z1.b }, { z2.b-z3.b }",
    "smlsll za.s[w8, 0:3], { z0.b-z3.b }, { z2.b-z3.b }",
    "smlsll za.s[w8, 0:3, ], { z0.b-z1.b }, { z2.b-z3.b }",
    /* names and sizes that do not fit */
    "smlal v1.4s, v2.8h, v3.h[5]",
    "smlal2 v1.4s, v2.4h, v3.h[5]",
    "smlal v1.2d, v2.4h, v3.h[1]",
    "smlal v1.8h, v2.8b, v3.b[1]",
    "umlsl v1.8h, v2.8b, v3.16b",
    "umlsl v1.8h, v2.16b, v3.16b",
    "umlsl v1.2d, v2.2s, v3.4s",
    "smlall v1.4s, v2.4h, v3.4h",
    "sqdmlal z1.s, z2.h, z3.h[5]",
    "uqdmlalb z1.s, z2.h, z3.h[5]",
    "sqdmlalb z1.s, z2.h, z3.h",
    "sqdmlalb z1.s, z2.s, z3.s[1]",
    "smlal za.s[w8, 0:3, vgx2], { z0.b-z1.b }, { z2.b-z3.b }",
    "smlall za.s[w8, 0:3, vgx2], { z0.h-z1.h }, { z2.h-z3.h }",
    "smlall za.d[w8, 0:3, vgx2], { z0.b-z1.b }, { z2.b-z3.b }",
    "smlall za.d[w8, 0:3, vgx2], { z0.h-z1.h }, { z2.b-z3.b }",
    "smlal za.d[w8, 0:1, vgx2], { z0.h-z1.h }, { z2.h-z3.h }",
    "smlal2 za.s[w8, 0:1, vgx2], { z0.h-z1.h }, { z2.h-z3.h }",
    /* other spelling */
    "SMLAL V1.4S, V2.4H, V3.H[5]",
    "Smlal v1.4s, v2.4h, v3.h[5]",
    "smlal V1.4s, v2.4h, v3.h[5]",
    "smlal v01.4s, v2.4h, v3.h[5]",
    "smlal v1.04s, v2.4h, v3.h[5]",
    "smlal v1.4s, v2.4h, v3.h[05]",
    "smlal v1.4s,v2.4h,v3.h[5]",
    "smlal  v1.4s, v2.4h, v3.h[5]",
    "smlal\tv1.4s, v2.4h, v3.h[5]",
    " smlal v1.4s, v2.4h, v3.h[5]",
    "smlal v1.4s, v2.4h, v3.h[5] ",
    "smlal v1.4s, v2.4h, v3.h[5]\n",
    "smlal v1.4s, v2.4h, v3.h [5]",
    "smlsll za.s[w8, 0:3, VGx2], { z0.b-z1.b }, { z2.b-z3.b }",
    "smlsll za.s[w8, 0:3, vgx2], {z0.b-z1.b}, {z2.b-z3.b}",
    "smlsll za.s[w8, 0:3, vgx2], { z0.b - z1.b }, { z2.b - z3.b }",
    "smlsll za.s[w8, 0:3, vgx2], { z0.b, z1.b }, { z2.b, z3.b }",
    "smlsll za.s[w8, 0:3,vgx2], { z0.b-z1.b }, { z2.b-z3.b }",
    "C1A20008",
};

static void compare_not_texts(void)
{
    for (size_t i = 0; i < sizeof not_texts / sizeof *not_texts; i++) {
        struct text t = text_from(not_texts[i]);
        uint64_t answer = compare_text(&all, &t);
        if (answer != answer_of(CALLINGLAMP_NOT_TEXT, 0))
            both_are_wrong("is not of the language", &t, answer);
        compare_anyhow(&t);
    }
}

int compare_texts(void)
{
    for_each_kind(compare_kind);
    for_each_kind(compare_features);
    for_each_kind(compare_damages);
    compare_prints();
    compare_crossed();
    compare_random();
    compare_long_texts();
    compare_known_texts();
    compare_not_texts();
    unsigned long prints = count_of(PRINT), reads = count_of(READ);
    printf("texts: %lu prints, %lu reads\n", prints, reads);
    if (prints + reads < LEAST_COMPARED)
        printf("that is fewer than %d\n", LEAST_COMPARED);
    return prints + reads >= LEAST_COMPARED;
}
