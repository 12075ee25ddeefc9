/* Lines for `spell`. README.md says what the kinds are. */
#include "spellings.h"

#include "choices.h"

#include <stdbool.h>
#include <stdio.h>
#include <stdlib.h>
#include <string.h>

static const struct second_settings all = {.vl = 128, .features = 31};

static struct {
    char bytes[MOST_SPELLING];
    size_t length;
} line;

static unsigned long left;
static take_spelling *taker;
static void *taker_context;

/* One line is kept for the end. */
static void give(void)
{
    if (left > 1) {
        left--;
        taker(taker_context, line.bytes, line.length);
    }
}

/* Puts bytes in place of some of the line's, which may be none. */
static void replace(size_t at, size_t length, const char *bytes, size_t put)
{
    if (line.length - length + put > sizeof line.bytes)
        abort();
    memmove(line.bytes + at + put, line.bytes + at + length, line.length - at - length);
    memcpy(line.bytes + at, bytes, put);
    line.length = line.length - length + put;
}

static void append(const char *string)
{
    replace(line.length, 0, string, strlen(string));
}

static void start(const char *string)
{
    line.length = 0;
    append(string);
}

static void append_bytes(char byte, size_t count)
{
    while (count-- > 0)
        replace(line.length, 0, &byte, 1);
}

/* A byte that is no line end. */
static char choose_byte(void)
{
    char byte = (char)choose(256);
    return byte == '\n' ? 'n' : byte;
}

/* Choices of words. No two choices are made in one expression, where a compiler may take either first. */

static const struct {
    uint32_t family, lane;
} kinds[] = {{SECOND_FAMILY_A, 16}, {SECOND_FAMILY_A, 32}, {SECOND_FAMILY_B, 8},  {SECOND_FAMILY_B, 16},
             {SECOND_FAMILY_B, 32}, {SECOND_FAMILY_C, 16}, {SECOND_FAMILY_C, 32}, {SECOND_FAMILY_D, 8},
             {SECOND_FAMILY_D, 16}, {SECOND_FAMILY_E, 16}};
enum { KINDS = sizeof kinds / sizeof *kinds, FIRST_OF_DE = 7 };

static struct second_fields choose_fields(uint32_t from)
{
    uint32_t kind = from + choose(KINDS - from);
    struct second_fields f = {.family = kinds[kind].family, .lane = kinds[kind].lane, .group = 1};
    f.is_unsigned = f.family == SECOND_FAMILY_C ? 0 : choose(2);
    choose_rest(&f);
    return f;
}

static uint32_t choose_word(void)
{
    struct second_fields f = choose_fields(0);
    return word_of(&f);
}

static void start_digits(uint32_t word, const char *format)
{
    char digits[9];
    snprintf(digits, sizeof digits, format, (unsigned)word);
    start(digits);
}

static void start_text(uint32_t word)
{
    if (second_print(&all, word, line.bytes, sizeof line.bytes, &line.length) != SECOND_ACCEPTED)
        abort();
}

/* The place of what is in the line, or the line's length. */
static size_t place_of(const char *part)
{
    for (size_t at = 0; at + strlen(part) <= line.length; at++)
        if (memcmp(line.bytes + at, part, strlen(part)) == 0)
            return at;
    return line.length;
}

static void drop_vgx(void)
{
    size_t at = place_of(", vgx");
    if (at < line.length)
        replace(at, strlen(", vgx2"), "", 0);
}

/* One line of a kind, by turns. First, words in hexadecimal. */

static void upper_digits(void)
{
    start_digits(choose_word(), "%08X");
}

static void lower_digits(void)
{
    start_digits(choose_word(), "%08x");
}

static void mixed_digits(void)
{
    char digits[2][9];
    uint32_t word = choose_word();
    snprintf(digits[0], sizeof digits[0], "%08X", (unsigned)word);
    snprintf(digits[1], sizeof digits[1], "%08x", (unsigned)word);
    line.length = 0;
    for (int i = 0; i < 8; i++)
        replace(line.length, 0, &digits[choose(2)][i], 1);
}

static void near_word(void)
{
    uint32_t word = choose_word();
    start_digits(word ^ 1u << choose(32), "%08X");
}

static void any_word(void)
{
    uint32_t word = choose_any();
    start_digits(word, choose(2) == 0 ? "%08X" : "%08x");
}

static void not_eight_digits(void)
{
    static const char digits[] = "0123456789ABCDEF", beside[] = "/:@G`g .-x";
    char digit = digits[choose(16)], byte = beside[choose(sizeof beside - 1)];
    upper_digits();
    switch (choose(5)) {
    case 0:
        line.length = choose(8);
        break;
    case 1:
        replace(choose(9), 0, &digit, 1);
        break;
    case 2:
        replace(choose(9), 0, " ", 1);
        break;
    case 3:
        replace(choose(8), 1, &byte, 1);
        break;
    default:
        replace(0, 0, "0x", 2);
    }
}

/* Texts, and texts that are changed a little */

static void text(void)
{
    start_text(choose_word());
}

static void text_without_vgx(void)
{
    struct second_fields f = choose_fields(FIRST_OF_DE);
    start_text(word_of(&f));
    drop_vgx();
}

/* What the changes are made to: each fourth one has no vgx. */
static void start_any_text(void)
{
    text();
    if (choose(4) == 0)
        drop_vgx();
}

static void change_byte(void)
{
    char byte = choose_byte();
    replace(choose((uint32_t)line.length), 1, &byte, 1);
}

static void byte_changed(void)
{
    start_any_text();
    change_byte();
}

static void two_bytes_changed(void)
{
    start_any_text();
    change_byte();
    change_byte();
}

static void bit_changed(void)
{
    start_any_text();
    size_t at = choose((uint32_t)line.length);
    char byte = (char)(line.bytes[at] ^ 1 << choose(8));
    line.bytes[at] = byte == '\n' ? 'n' : byte;
}

static void byte_dropped(void)
{
    start_any_text();
    replace(choose((uint32_t)line.length), 1, "", 0);
}

/* Any byte, or one of those that a text has. */
static void byte_added(void)
{
    start_any_text();
    char byte = choose(2) == 0 ? choose_byte() : line.bytes[choose((uint32_t)line.length)];
    replace(choose((uint32_t)line.length + 1), 0, &byte, 1);
}

static void bytes_exchanged(void)
{
    start_any_text();
    size_t at = choose((uint32_t)line.length - 1);
    char byte = line.bytes[at];
    line.bytes[at] = line.bytes[at + 1];
    line.bytes[at + 1] = byte;
}

/* The place of one of the line's bytes that `is` takes; a text always has one. */
static size_t choose_place(bool (*is)(char))
{
    size_t at;
    do
        at = choose((uint32_t)line.length);
    while (!is(line.bytes[at]));
    return at;
}

static bool is_blank(char byte)
{
    return byte == ' ';
}

static bool is_letter(char byte)
{
    return byte >= 'a' && byte <= 'z';
}

static bool is_digit(char byte)
{
    return byte >= '0' && byte <= '9';
}

static void other_spacing(void)
{
    start_any_text();
    switch (choose(5)) {
    case 0:
        replace(choose_place(is_blank), 0, " ", 1);
        break;
    case 1:
        replace(choose_place(is_blank), 1, "", 0);
        break;
    case 2:
        replace(choose_place(is_blank), 1, "\t", 1);
        break;
    case 3:
        replace(choose(2) == 0 ? 0 : line.length, 0, " ", 1);
        break;
    default:
        replace(choose((uint32_t)line.length + 1), 0, " ", 1);
    }
}

static void capitals(void)
{
    start_any_text();
    if (choose(2) == 0) {
        line.bytes[choose_place(is_letter)] -= 'a' - 'A';
        return;
    }
    for (size_t i = 0; i < line.length; i++)
        if (is_letter(line.bytes[i]))
            line.bytes[i] -= 'a' - 'A';
}

/* One of the line's numbers: where it starts, and how many digits it has. */
static size_t choose_number(size_t *digits)
{
    size_t at = choose_place(is_digit);
    while (at > 0 && is_digit(line.bytes[at - 1]))
        at--;
    *digits = 1;
    while (at + *digits < line.length && is_digit(line.bytes[at + *digits]))
        ++*digits;
    return at;
}

static void leading_zero(void)
{
    size_t digits;
    start_any_text();
    size_t at = choose_number(&digits);
    replace(at, 0, "00", 1 + choose(2));
}

/* The old number and a power of two: still the old one to a reader that keeps too few bits, up to 64 of them. */
static void other_number(void)
{
    static const uint64_t steps[] = {1, 2, 4, 8, 16, 32, 64, 128, 256, 65536, (uint64_t)1 << 32};
    uint32_t step = choose(12);
    unsigned number = 0;
    char put[24];
    size_t digits;
    start_any_text();
    size_t at = choose_number(&digits);
    for (size_t i = 0; i < digits; i++)
        number = 10 * number + (unsigned)(line.bytes[at + i] - '0');
    if (step < 11)
        snprintf(put, sizeof put, "%llu", (unsigned long long)(number + steps[step]));
    else /* 2^64 ends in 16 */
        snprintf(put, sizeof put, "184467440737095516%02u", number + 16);
    replace(at, digits, put, strlen(put));
}

static void any_number(void)
{
    static const char *const numbers[] = {"0",  "1",  "2",  "3",  "4",  "5",  "6",  "7",  "8",  "9",  "11",  "12",
                                          "15", "16", "28", "30", "31", "32", "33", "99", "-1", "+1", "0x1", ""};
    const char *put = numbers[choose(sizeof numbers / sizeof *numbers)];
    size_t digits;
    start_any_text();
    size_t at = choose_number(&digits);
    replace(at, digits, put, strlen(put));
}

/* Texts of D and E whose numbers agree with each other, in range or not. */
static void any_group(void)
{
    struct second_fields f = choose_fields(FIRST_OF_DE);
    unsigned k = f.family == SECOND_FAMILY_D ? 4 : 2, w = 7 + choose(6), o = choose(9);
    unsigned n = choose(34), m = choose(34), more = choose(4) == 0 ? choose(4) : 2 * choose(2) + 1;
    char narrow = f.lane == 8 ? 'b' : 'h', wide = f.lane == 16 && k == 4 ? 'd' : 's', put[128];
    if (choose(2) == 0)
        w = f.select;
    if (choose(2) == 0)
        o = f.offset;
    snprintf(put, sizeof put, "%cml%cl%s za.%c[w%u, %u:%u, vgx%u], { z%u.%c-z%u.%c }, { z%u.%c-z%u.%c }",
             f.is_unsigned ? 'u' : 's', f.subtract ? 's' : 'a', k == 4 ? "l" : "", wide, w, o, o + k - 1, more + 1, n,
             narrow, n + more, narrow, m, narrow, m + more, narrow);
    start(put);
    if (choose(2) == 0)
        drop_vgx();
}

static void other_vgx(void)
{
    static const char *const symbols[] = {", vgx2",  ", vgx4", ", vgx1", ", vgx3", ", vgx",   ", vgx02", ", VGx2",
                                          ", vgx24", " vgx2",  ",vgx4",  ",",      ", vgx2 ", ", vgx4, vgx4"};
    const char *put = symbols[choose(sizeof symbols / sizeof *symbols)];
    text_without_vgx();
    replace(place_of("]"), 0, put, strlen(put));
}

/* Where one text stops and another goes on. */
static void joined(void)
{
    char head[SECOND_LONGEST_TEXT];
    text();
    size_t length = choose(2) == 0 ? place_of(" ") : choose((uint32_t)line.length);
    memcpy(head, line.bytes, length);
    start_any_text();
    replace(0, choose(2) == 0 ? place_of(" ") : choose((uint32_t)line.length), head, length);
}

static void cut(void)
{
    start_any_text();
    if (choose(2) == 0)
        line.length = choose((uint32_t)line.length);
    else
        replace(0, 1 + choose((uint32_t)line.length - 1), "", 0);
}

/* A good line, and a byte before or behind it that a careless reader takes no notice of. */
static void careless_byte(void)
{
    static const char careless[] = "\r\r\r\0\0\t\v\f,;#";
    char byte = careless[choose(sizeof careless - 1)];
    if (choose(2) == 0)
        upper_digits();
    else
        start_any_text();
    replace(choose(4) == 0 ? 0 : line.length, 0, &byte, 1);
}

static void random_bytes(void)
{
    line.length = choose(80);
    for (size_t i = 0; i < line.length; i++)
        line.bytes[i] = choose_byte();
}

static void by_turns(void)
{
    static void (*const turns[])(void) = {
        upper_digits, text, lower_digits, text_without_vgx, mixed_digits, near_word, any_word, text,
        not_eight_digits, byte_changed, two_bytes_changed, bit_changed, byte_dropped, byte_added, upper_digits,
        bytes_exchanged, other_spacing, capitals, text_without_vgx, leading_zero, other_number, other_number,
        any_number, any_number, any_group, any_group, other_vgx, joined, text, cut, careless_byte,
        random_bytes};
    for (size_t i = 0; left > 1; i = (i + 1) % (sizeof turns / sizeof *turns)) {
        turns[i]();
        give();
    }
}

/* Every kind of word: its digits, its text, and its text without vgx. */

static void give_kind(const struct second_fields *f)
{
    uint32_t word = word_of(f);
    start_digits(word, choose(2) == 0 ? "%08X" : "%08x");
    give();
    start_text(word);
    give();
    if (f->family >= SECOND_FAMILY_D) {
        drop_vgx();
        give();
    }
}

static void every_kind(void)
{
    for (int i = 0; i < KINDS; i++)
        for (uint32_t bits = 0; bits < 8; bits++) {
            struct second_fields f = {.family = kinds[i].family, .lane = kinds[i].lane, .group = 1};
            if (f.family == SECOND_FAMILY_C && (bits & 4) != 0)
                continue;
            choose_rest(&f);
            f.subtract = bits & 1;
            f.is_unsigned = bits >> 2;
            if (f.family >= SECOND_FAMILY_D) {
                f.group = (bits & 2) != 0 ? 4 : 2;
                choose_registers(&f);
            } else
                f.part = bits >> 1 & 1;
            give_kind(&f);
        }
}

/* Lines by hand. Those of one paragraph are of a row, or of a place in it, and the good ones stand first. */
static const char *const by_hand[] = {
    "C1A20008", "c1a20008", "C1a20008", "0E228020", "0e228020", "00000000", "FFFFFFFF", "ffffffff", "2F026020",
    "C1A2000", "C1A200080", "C1A2 0008", " C1A20008", "C1A20008 ", "0xC1A20008", "C1A2000G", "C1A2000g", "C1A2000@",
    "C1A2000`", "C1A2000/", "C1A2000:", "+1A20008", "-1A20008", "C1A2000l", "C1A20008C1A20008", "0", "", " ", "\t",
    "\r",

    "smlal v1.4s, v2.4h, v3.h[5]", "smlal2 v1.4s, v2.8h, v3.h[5]", "smlal v1.2d, v2.2s, v3.s[1]",
    "smlal2 v1.2d, v2.4s, v3.s[1]", "umlsl2 v31.4s, v31.8h, v15.h[7]", "umlsl v31.2d, v31.2s, v31.s[3]",
    "smlal v32.4s, v2.4h, v3.h[5]", "smlal v1.4s, v32.4h, v3.h[5]", "smlal v1.4s, v2.4h, v16.h[5]",
    "smlal v1.2d, v2.2s, v32.s[1]", "smlal v1.4s, v2.4h, v3.h[8]", "smlal v1.2d, v2.2s, v3.s[4]",
    "smlal v1.4s, v2.8h, v3.h[5]", "smlal2 v1.4s, v2.4h, v3.h[5]", "smlal v1.2d, v2.4h, v3.h[5]",
    "smlal v1.8h, v2.8b, v3.b[5]", "smlal v1.4s, v2.4h, v3.4h[5]", "smlal v1.4s, v2.4h, v3.h", "smlal v1.4s, v2.4h",
    "smlal v1.4s, v2.4h, v3.h[]", "smlal v1.4s, v2.4h, v3.h[5", "smlal v1.4s, v2.4h, v3.h[5]]",

    "umlsl v1.8h, v2.8b, v3.8b", "umlsl2 v1.8h, v2.16b, v3.16b", "umlsl v1.4s, v2.4h, v3.4h",
    "umlsl2 v1.4s, v2.8h, v3.8h", "umlsl v1.2d, v2.2s, v3.2s", "umlsl2 v1.2d, v2.4s, v3.4s",
    "umlsl v31.8h, v31.8b, v31.8b", "umlsl v0.8h, v0.8b, v0.8b", "umlsl v1.8h, v2.8b, v32.8b",
    "umlsl v1.8h, v2.16b, v3.16b", "umlsl2 v1.8h, v2.8b, v3.8b", "umlsl2 v1.8h, v2.16b, v3.8b",
    "umlsl v1.1q, v2.1d, v3.1d", "umlsl v1.4s, v2.8b, v3.8b", "umlsl v01.8h, v2.8b, v3.8b",
    "umlsl v1.08h, v2.8b, v3.8b", "umlsl v1.8H, v2.8b, v3.8b", "UMLSL v1.8h, v2.8b, v3.8b",
    "umlsl  v1.8h, v2.8b, v3.8b", "umlsl v1.8h,v2.8b, v3.8b", "umlsl v1.8h , v2.8b, v3.8b",
    "umlsl\tv1.8h, v2.8b, v3.8b", "umlsl q1.8h, v2.8b, v3.8b", "umlsl z1.8h, z2.8b, z3.8b", "umlsl", "umlsl ",
    "umull v1.8h, v2.8b, v3.8b", "umlsl3 v1.8h, v2.8b, v3.8b", "sumlsl v1.8h, v2.8b, v3.8b",

    "sqdmlalb z1.s, z2.h, z3.h[5]", "sqdmlslt z1.s, z2.h, z3.h[5]", "sqdmlalt z1.d, z2.s, z3.s[1]",
    "sqdmlslb z31.s, z31.h, z7.h[7]", "sqdmlslb z31.d, z31.s, z15.s[3]", "sqdmlalb z1.s, z2.h, z8.h[5]",
    "sqdmlalb z1.d, z2.s, z16.s[1]", "sqdmlalb z1.s, z2.h, z3.h[8]", "sqdmlalb z1.d, z2.s, z3.s[4]",
    "sqdmlalb z32.s, z2.h, z3.h[5]", "sqdmlal z1.s, z2.h, z3.h[5]", "sqdmlal2 v1.4s, v2.8h, v3.h[5]",
    "uqdmlalb z1.s, z2.h, z3.h[5]", "smlalb z1.s, z2.h, z3.h[5]", "sqdmlalb z1.s, z2.h, z3.h",
    "sqdmlalb z1.h, z2.b, z3.b[5]", "sqdmlalbt z1.s, z2.h, z3.h", "sqdmlalb z1.d, z2.h, z3.h[5]",

    "smlsll za.s[w8, 0:3, vgx2], { z0.b-z1.b }, { z2.b-z3.b }", "smlsll za.s[w8, 0:3], { z0.b-z1.b }, { z2.b-z3.b }",
    "umlall za.d[w9, 4:7, vgx4], { z0.h-z3.h }, { z28.h-z31.h }",
    "umlsll za.s[w11, 4:7, vgx4], { z28.b-z31.b }, { z28.b-z31.b }",
    "umlsll za.s[w11, 4:7, vgx4], { z28.b-z31.b }, { z28.b-z31.b } ",
    "smlsll za.s[w8, 0:3, vgx4], { z0.b-z1.b }, { z2.b-z3.b }",
    "smlsll za.s[w8, 0:3, vgx2], { z0.b-z3.b }, { z4.b-z7.b }",
    "smlsll za.s[w8, 0:3, vgx2], { z1.b-z2.b }, { z2.b-z3.b }", "smlsll za.s[w8, 0:3], { z0.b-z2.b }, { z0.b-z2.b }",
    "smlsll za.s[w8, 0:3, vgx4], { z2.b-z5.b }, { z0.b-z3.b }", "smlsll za.s[w8, 0:3], { z0.b-z1.b }, { z4.b-z7.b }",
    "smlsll za.s[w8, 0:3], { z0.b-z0.b }, { z0.b-z0.b }", "smlsll za.s[w8, 0:3], { z32.b-z33.b }, { z2.b-z3.b }",
    "smlsll za.s[w8, 0:3], { z31.b-z0.b }, { z2.b-z3.b }", "smlsll za.s[w8, 1:4], { z0.b-z1.b }, { z2.b-z3.b }",
    "smlsll za.s[w8, 8:11], { z0.b-z1.b }, { z2.b-z3.b }", "smlsll za.s[w8, 0:1], { z0.b-z1.b }, { z2.b-z3.b }",
    "smlsll za.s[w8, 0], { z0.b-z1.b }, { z2.b-z3.b }", "smlsll za.s[w7, 0:3], { z0.b-z1.b }, { z2.b-z3.b }",
    "smlsll za.s[w12, 0:3], { z0.b-z1.b }, { z2.b-z3.b }", "smlsll za.s[w08, 0:3], { z0.b-z1.b }, { z2.b-z3.b }",
    "smlsll za.d[w8, 0:3], { z0.b-z1.b }, { z2.b-z3.b }", "smlsll za.s[w8, 0:3], { z0.h-z1.h }, { z2.h-z3.h }",
    "smlsll za.s[w8, 0:3], { z0.b, z1.b }, { z2.b, z3.b }", "smlsll za.s[w8, 0:3], {z0.b-z1.b}, {z2.b-z3.b}",
    "smlsll za.s[w8, 0:3], { z0.b - z1.b }, { z2.b - z3.b }", "smlsll za.s[w8, 0:3], { z0.b-z1.b }, z2.b",
    "smlsll za.s[w8, 0:3, vgx2], { z0.b-z1.b }, { z2.b-z3.b", "smlsl za.s[w8, 0:3, vgx2], { z0.b-z1.b }, { z2.b-z3.b }",

    "smlal za.s[w8, 0:1, vgx2], { z0.h-z1.h }, { z2.h-z3.h }",
    "smlal za.s[w8, 0:1, vgx4], { z0.h-z3.h }, { z4.h-z7.h }",
    "umlsl za.s[w11, 6:7, vgx2], { z30.h-z31.h }, { z30.h-z31.h }", "smlal za.s[w8, 0:1], { z0.h-z1.h }, { z2.h-z3.h }",
    "smlal za.s[w8, 8:9], { z0.h-z1.h }, { z2.h-z3.h }", "smlal za.s[w8, 1:2], { z0.h-z1.h }, { z2.h-z3.h }",
    "smlal za.s[w8, 0:3], { z0.h-z1.h }, { z2.h-z3.h }", "smlal za.s[w8, 0:1], { z0.b-z1.b }, { z2.b-z3.b }",
    "smlal za.d[w8, 0:1], { z0.h-z1.h }, { z2.h-z3.h }", "smlal za.h[w8, 0:1], { z0.h-z1.h }, { z2.h-z3.h }",
    "smlal2 za.s[w8, 0:1], { z0.h-z1.h }, { z2.h-z3.h }", "smlall za.s[w8, 0:1], { z0.h-z1.h }, { z2.h-z3.h }"};

static void lines_by_hand(void)
{
    for (size_t i = 0; i < sizeof by_hand / sizeof *by_hand; i++) {
        start(by_hand[i]);
        give();
    }
}

/* A good start and many bytes behind it, up to lengths that a program may have its rooms of. */
static void long_lines(void)
{
    static const size_t lengths[] = {62, 63, 64, 65, 127, 128, 129, 255, 256, 257, 4096, 8192, 65535, 65536, 65537};
    for (size_t i = 0; i < sizeof lengths / sizeof *lengths; i++) {
        start(i % 2 == 0 ? "C1A20008" : "smlal v1.4s, v2.4h, v3.h[5]");
        append_bytes(i % 4 < 2 ? ' ' : i % 3 == 0 ? '\0' : '0', lengths[i] - line.length);
        give();
    }
    start("umlsll za.s[w11, 4:7, vgx4], { z28.b-z31.b }, { z28.b-z31.b }");
    append_bytes(' ', MOST_SPELLING - line.length);
    give();
    start("smlal v");
    append_bytes('0', MOST_SPELLING - 28);
    append("1.4s, v2.4h, v3.h[5]");
    append_bytes(']', MOST_SPELLING - line.length);
    give();
    start("");
    append_bytes('8', MOST_SPELLING);
    give();
}

void make_spellings(uint32_t seed, unsigned long count, take_spelling *take, void *context)
{
    left = count;
    taker = take;
    taker_context = context;
    start_choosing(seed);
    every_kind();
    lines_by_hand();
    long_lines();
    by_turns();
    text();
    taker(taker_context, line.bytes, line.length);
}
