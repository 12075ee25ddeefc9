#include "cases.h"
#include "choices.h"
#include "commands.h"
#include "lists.h"
#include "second.h"
#include "spellings.h"
#include "sweeps.h"

#include <stdlib.h>
#include <string.h>

static unsigned checks, failures;

static void check(int holds, const char *what)
{
    checks++;
    if (!holds) {
        failures++;
        printf("failed: %s\n", what);
    }
}

/* What holds of a word of A or B that has run, whatever it multiplied: its destination is zero from byte 16 on, it has
 * written VL bits, and what it cleared is among its falls. */
static void check_upper(const struct second_settings *s, uint32_t word, const uint8_t *z, uint32_t cleared,
                        const struct second_counts *c)
{
    struct second_fields f;
    if (second_decode(s, word, &f) != 0 || f.family > SECOND_FAMILY_B)
        return;
    check(ones_to_clear(s, word, z) == 0, "execute: zeros from byte 16 on");
    check(c->written == s->vl && c->falls >= cleared, "execute: VL is written, and cleared bits fall");
}

/* Every execution of this file goes this way. Refused or not, ones and falls after it are ones before it and rises, and
 * the bits that differ are as many as rises and falls. Both together leave no other numbers for the two. */
static int execute(const struct second_settings *s, uint32_t word, uint8_t *z, size_t z_len, uint8_t *za, size_t za_len,
                   struct second_counts *c)
{
    static uint8_t z_differ[SECOND_MOST_Z + 1], za_differ[SECOND_MOST_ZA + 1];
    uint32_t before = ones_in(z, z_len) + ones_in(za, za_len), cleared = 0;
    /* Of a refused call the lengths may be any. */
    if (z_len == second_z_length(s->vl))
        cleared = ones_to_clear(s, word, z);
    memcpy(z_differ, z, z_len);
    memcpy(za_differ, za, za_len);
    memset(c, 0xA5, sizeof *c);
    int refusal = second_execute(s, word, z, z_len, za, za_len, c);
    for (size_t i = 0; i < z_len; i++)
        z_differ[i] ^= z[i];
    for (size_t i = 0; i < za_len; i++)
        za_differ[i] ^= za[i];
    check(ones_in(z, z_len) + ones_in(za, za_len) + c->falls == before + c->rises, "execute: the balance");
    check(ones_in(z_differ, z_len) + ones_in(za_differ, za_len) == c->rises + c->falls, "execute: toggled is the sum");
    check(refusal == 0 ? c->rises + c->falls <= c->written : c->rises == 0 && c->falls == 0 && c->written == 0,
          "execute: counts within written, and zeros of a refusal");
    if (refusal == 0)
        check_upper(s, word, z, cleared, c);
    return refusal;
}

/* One machine at VL 128, the bench's own. */
static struct bench {
    struct second_settings s;
    uint8_t z[512], za[256];
    struct second_counts c;
} b;

static void set_up(uint32_t features, uint32_t modes, uint8_t byte)
{
    memset(&b, 0, sizeof b);
    b.s.vl = 128;
    b.s.features = features;
    b.s.modes = modes;
    memset(b.z, byte, sizeof b.z);
}

static int step(uint32_t word)
{
    return execute(&b.s, word, b.z, sizeof b.z, b.za, sizeof b.za, &b.c);
}

static int counted(uint32_t rises, uint32_t falls, uint32_t written)
{
    return b.c.rises == rises && b.c.falls == falls && b.c.written == written;
}

static uint64_t percent(void)
{
    return second_percent(b.c.rises + b.c.falls, b.c.written);
}

static int decoded(uint32_t features, uint32_t word, struct second_fields *f)
{
    struct second_settings s = {.vl = 128, .features = features};
    return second_decode(&s, word, f);
}

static uint32_t little(const uint8_t *p, int bytes)
{
    uint32_t value = 0;
    for (int i = bytes; i-- > 0;)
        value = value << 8 | p[i];
    return value;
}

static int lanes_are(uint32_t lane16)
{
    for (int e = 0; e < 8; e++)
        if (little(b.z + 2 * e, 2) != lane16)
            return 0;
    return 1;
}

/* Rises and falls of the rows were worked out by hand. */
static void rows_of_ab(void)
{
    struct second_fields f;
    /* In each of 8 lanes 0101 becomes 0102: bit 1 rises and bit 0 falls. */
    set_up(1, 0, 1);
    check(step(0x0E228020) == 0 && lanes_are(0x0102) && counted(8, 8, 128), "P1");
    check(percent() == 12, "P1 percent");
    set_up(1, 0, 1);
    check(step(0x0E22A020) == 0 && lanes_are(0x0100) && counted(0, 8, 128), "P2");
    check(percent() == 6, "P2 percent");
    set_up(1, 0, 0xFF);
    memset(b.z, 0, 16);
    check(step(0x0E228020) == 0 && little(b.z, 2) == 0x0001 && counted(8, 0, 128), "P3");
    set_up(1, 0, 0xFF);
    memset(b.z, 0, 16);
    check(step(0x2E228020) == 0 && little(b.z, 2) == 0xFE01 && counted(64, 0, 128), "P4");
    struct second_fields p5 = {.family = SECOND_FAMILY_A, .is_unsigned = 1, .subtract = 1, .lane = 16, .index = 7,
                               .first = 1, .second = 2, .group = 1};
    check(decoded(1, 0x2F726820, &f) == 0 && memcmp(&f, &p5, sizeof f) == 0, "P5");
    check(decoded(1, 0x2F026020, &f) == 3 && decoded(1, 0x2FC26020, &f) == 3, "P6");
    check(decoded(1, 0x0EE28020, &f) == 3, "P7");
}

/* The upper part of a V write: request Three. One machine at VL 256 or 512, and what it was before the last word. */
static struct {
    struct second_settings s;
    uint8_t z[SECOND_MOST_Z], za[SECOND_MOST_ZA];
    struct second_counts c;
} wide, was;

static uint8_t *wide_register(uint32_t r)
{
    return wide.z + r * (wide.s.vl / 8);
}

/* Every byte is this one, or a register's, or those from byte 16 on. */
static void set_up_wide(uint32_t vl, uint8_t byte)
{
    memset(&wide, 0, sizeof wide);
    wide.s.vl = vl;
    wide.s.features = 31;
    memset(wide.z, byte, second_z_length(vl));
    memset(wide.za, 0x5A, second_za_length(vl));
}

static void set_register(uint32_t r, uint8_t low, uint8_t upper)
{
    memset(wide_register(r), low, 16);
    memset(wide_register(r) + 16, upper, wide.s.vl / 8 - 16);
}

static int step_wide(uint32_t word)
{
    was = wide;
    return execute(&wide.s, word, wide.z, second_z_length(wide.s.vl), wide.za, second_za_length(wide.s.vl), &wide.c);
}

/* The register's 16-bit lanes are this number, zeros follow them, and no other byte has changed: the bytes next to the
 * register, which are those of its neighbours, have not. */
static int leaves(uint32_t r, uint32_t lane16)
{
    size_t bytes = wide.s.vl / 8;
    uint8_t *d = was.z + r * bytes;
    memset(d, 0, bytes);
    for (int e = 0; e < 8; e++) {
        d[2 * e] = (uint8_t)lane16;
        d[2 * e + 1] = (uint8_t)(lane16 >> 8);
    }
    return memcmp(wide.z, was.z, sizeof wide.z) == 0 && memcmp(wide.za, was.za, sizeof wide.za) == 0;
}

static int counted_wide(uint32_t rises, uint32_t falls)
{
    return wide.c.rises == rises && wide.c.falls == falls && wide.c.written == wide.s.vl;
}

/* Row P1 on a wider machine. `upper` is how many bytes lie above the V register: each has one bit to clear. The partner
 * brings the lanes back, and not those. */
static void upper_of_p1(uint32_t vl, uint32_t upper)
{
    set_up_wide(vl, 1);
    check(step_wide(0x0E228020) == 0 && leaves(0, 0x0102) && counted_wide(8, 8 + upper), "P1, wide");
    check(second_percent(wide.c.rises + wide.c.falls, wide.c.written) == 12, "P1, wide: percent");
    check(step_wide(0x0E228020) == 0 && leaves(0, 0x0103) && counted_wide(8, 0), "P1, wide: nothing left to clear");
    check(step_wide(0x0E22A020) == 0 && leaves(0, 0x0102) && counted_wide(0, 8), "P1, wide: a partner");
    check(step_wide(0x0E22A020) == 0 && leaves(0, 0x0101) && counted_wide(8, 8), "P1, wide: the other");
    check(ones_in(wide.z, second_z_length(vl)) == 32 * (vl / 8) - upper, "P1, wide: what was cleared stays so");
}

/* Products of zeros: the lanes stay, and whatever lies above them falls. */
static void upper_alone(uint32_t vl, uint32_t upper)
{
    set_up_wide(vl, 0xFF);
    memset(wide_register(1), 0, 16);
    check(step_wide(0x0E228020) == 0 && leaves(0, 0xFFFF) && counted_wide(0, 8 * upper), "all ones above a V register");
    /* The upper part of a source is not read, and one byte is found wherever it lies. */
    for (uint32_t at = 16; at < vl / 8; at++) {
        set_up_wide(vl, 0xFF);
        set_register(1, 0, 0xFF);
        set_register(0, 0x22, 0);
        wide_register(0)[at] = 0xE5;
        check(step_wide(0x0E228020) == 0 && leaves(0, 0x2222) && counted_wide(0, 5), "one byte above a V register");
    }
    set_up_wide(vl, 0xFF);
    set_register(0, 0x22, 0);
    memset(wide_register(1), 0, 16);
    check(step_wide(0x0E228020) == 0 && leaves(0, 0x2222) && counted_wide(0, 0), "no ones above a V register");
}

/* A destination that is a source: FF times FF is 1 signed and FE01 unsigned, and FFFF becomes 0000 and FE00. So VL bits
 * fall in the first. In the last the factors are bytes 8 to 15 of the register, and no byte above them: 0000 becomes
 * 0001 in four lanes, and 0101 becomes 0102 in the other four. */
static void upper_of_sources(uint32_t vl, uint32_t upper)
{
    set_up_wide(vl, 0xFF);
    check(step_wide(0x0E208000) == 0 && leaves(0, 0) && counted_wide(0, vl), "destination as both sources: all falls");
    set_up_wide(vl, 0xFF);
    check(step_wide(0x0E208020) == 0 && leaves(0, 0) && counted_wide(0, vl), "destination as second source");
    set_up_wide(vl, 0xFF);
    check(step_wide(0x0E218000) == 0 && leaves(0, 0) && counted_wide(0, vl), "destination as first source");
    set_up_wide(vl, 0xFF);
    check(step_wide(0x2E208000) == 0 && leaves(0, 0xFE00) && counted_wide(0, 8 * 9 + 8 * upper), "unsigned");
    set_up_wide(vl, 0xFF);
    memset(wide_register(0), 0, 8);
    memset(wide_register(0) + 8, 1, 8);
    check(step_wide(0x4E208000) == 0 && counted_wide(8, 4 + 8 * upper), "the upper half of a V register as source");
    check(little(wide.z + 6, 2) == 1 && little(wide.z + 8, 2) == 0x0102 && wide.z[16] == 0, "its lanes");
}

/* A with lane 16: 01010101 less 0101 squared is 00FFFF00; of its 16 ones 14 have risen, and 2 bits have fallen. With
 * lane 32 the word has register 31, where Z ends, as destination and sources: 0101010101010101 less 0001020304030201 is
 * 00FFFEFDFCFDFF00; 39 bits have risen and 4 fallen. */
static void upper_of_a(uint32_t vl, uint32_t upper)
{
    static const uint8_t lane64[] = {0x00, 0xFF, 0xFD, 0xFC, 0xFD, 0xFE, 0xFF, 0x00};
    set_up_wide(vl, 1);
    check(step_wide(0x2F726820) == 0 && counted_wide(4 * 14, 4 * 2 + upper), "A, lane 16, wide");
    for (int e = 0; e < 4; e++)
        check(little(wide.z + 4 * e, 4) == 0x00FFFF00, "A, lane 16, wide: a lane");
    check(ones_in(wide.z + 16, upper) == 0 && wide.z[vl / 8] == 1, "A, lane 16, wide: the rest, and what follows");
    set_up_wide(vl, 1);
    check(step_wide(0x2FBF6BFF) == 0 && counted_wide(2 * 39, 2 * 4 + upper), "A, lane 32, wide, at the end of Z");
    const uint8_t *d = wide_register(31);
    check(memcmp(d, lane64, 8) == 0 && memcmp(d + 8, lane64, 8) == 0, "A, lane 32, wide: the lanes");
    check(ones_in(d + 16, upper) == 0 && d[-1] == 1, "A, lane 32, wide: the rest, and what is before");
    check(memcmp(wide.z, was.z, 31 * (vl / 8)) == 0, "A, lane 32, wide: the other registers");
}

/* A word that is refused clears nothing, and words of C, D and E clear nothing of Z. C writes each byte of its
 * register: 2 times 0101 squared is 00020402, so that each element becomes 01030503. */
static void upper_elsewhere(uint32_t vl)
{
    set_up_wide(vl, 1);
    wide.s.modes = 3;
    check(step_wide(0x0E228020) == 4 && memcmp(&wide.z, &was.z, sizeof wide.z) == 0, "refused: nothing is cleared");
    check(step_wide(0xC1A20008) == 0 && memcmp(&wide.z, &was.z, sizeof wide.z) == 0, "D clears nothing of Z");
    check(step_wide(0xC1E20800) == 0 && memcmp(&wide.z, &was.z, sizeof wide.z) == 0, "E clears nothing of Z");
    check(step_wide(0x44BA2820) == 0 && wide.c.written == vl, "C, wide");
    for (uint32_t e = 0; e < vl / 32; e++)
        check(little(wide.z + 4 * e, 4) == 0x01030503, "C, wide: an element");
}

static void upper_parts(void)
{
    static const uint32_t uppers[3] = {0, 16, 48};
    for (int v = 1; v < 3; v++) {
        upper_of_p1(vls[v], uppers[v]);
        upper_alone(vls[v], uppers[v]);
        upper_of_sources(vls[v], uppers[v]);
        upper_of_a(vls[v], uppers[v]);
        upper_elsewhere(vls[v]);
    }
}

static void rows_of_c(void)
{
    struct second_fields f;
    struct second_fields p8 = {.family = SECOND_FAMILY_C, .subtract = 1, .lane = 16, .index = 7, .first = 1,
                               .second = 2, .group = 1};
    check(decoded(2, 0x44BA3820, &f) == 0 && memcmp(&f, &p8, sizeof f) == 0, "P8");
    set_up(2, 0, 0);
    for (int e = 0; e < 16; e++)
        b.z[16 + 2 * e + 1] = 0x80;
    check(step(0x44BA3820) == 0 && little(b.z, 4) == 0x80000001 && counted(8, 0, 128), "P9");
    memset(b.z, 0xFF, 16);
    check(step(0x44BA2820) == 0 && little(b.z, 4) == 2147483646 && counted(0, 8, 128), "P10");
    /* The fourth of the mistakes that look right, at lane 32: the add form from 0 reaches the top and no further. */
    set_up(2, 0, 0);
    for (int e = 0; e < 8; e++)
        b.z[16 + 4 * e + 3] = 0x80;
    check(step(0x44E22020) == 0 && little(b.z, 4) == 0xFFFFFFFF && little(b.z + 4, 4) == 0x7FFFFFFF, "2^63 clamped");
    check(counted(126, 0, 128), "2^63 clamped: 63 bits of each of two elements rise");
}

/* Whether exactly the vectors whose bits are set in `which` have changed from zero. */
static int vectors_are(uint32_t which)
{
    static const uint8_t zeros[16];
    uint32_t seen = 0;
    for (int v = 0; v < 16; v++)
        if (memcmp(b.za + 16 * v, zeros, 16) != 0)
            seen |= 1u << v;
    return seen == which;
}

static void rows_of_de(void)
{
    struct second_fields f;
    check(decoded(12, 0xC1E20008, &f) == 3 && decoded(28, 0xC1E20008, &f) == 0, "P11");
    set_up(12, 3, 1);
    b.s.w[0] = 7;
    /* 0 less 1 sets every bit of 8 vectors, and 1 more clears them. */
    check(step(0xC1A20008) == 0 && vectors_are(0xF0F0) && counted(1024, 0, 1024), "P12");
    check(step(0xC1A20000) == 0 && vectors_are(0) && counted(0, 1024, 1024), "P12 and its partner");
    set_up(12, 3, 1);
    b.s.w[0] = 1;
    /* 0101 squared is 00010201: three bits of each of 16 elements. */
    check(step(0xC1E20800) == 0 && vectors_are(0x0303) && counted(48, 0, 512), "P13");
    check(second_percent(1023, 1024) == 99, "row 14");
    /* 2^32-1 with offset 4 is 2^32+3: at stride 8 that is vector 3, rounded down to 0. */
    set_up(12, 3, 1);
    b.s.w[0] = UINT32_MAX;
    check(step(0xC1A20001) == 0 && vectors_are(0x0F0F) && counted(32, 0, 1024), "W at the top");
    check(second_percent(UINT32_MAX, 1) == 429496729500u && second_percent(5, 0) == 0, "percent beyond 100");
}

/* Lists */

static struct list list;

static void put_head(uint32_t vl, uint32_t features, uint32_t modes)
{
    list.length = 0;
    put_number(&list, vl);
    put_number(&list, features);
    put_number(&list, modes);
    for (int i = 0; i < 4; i++)
        put_number(&list, 0);
}

/* The Z bytes of VL 128. */
static void put_z(void)
{
    memset(list.bytes + list.length, 1, 512);
    list.length += 512;
}

struct answer {
    int refusal;
    size_t place;
    uint32_t words;
    int untouched;
};

enum { REPORT = SECOND_PER_WORD * SECOND_MOST_WORDS };

/* What the last run left. */
static struct {
    uint8_t z[SECOND_MOST_Z + 1], za[SECOND_MOST_ZA + 1];
    uint32_t report[REPORT + 1];
} left;

static int untouched(void)
{
    const uint8_t *bytes = (const uint8_t *)&left;
    for (size_t i = 0; i < sizeof left; i++)
        if (bytes[i] != 0xA5)
            return 0;
    return 1;
}

/* An accepted list has seven numbers before its Z, and each of them ends with the first byte below 128. */
static const uint8_t *z_of(const uint8_t *bytes)
{
    for (int numbers = 0; numbers < 7; bytes++)
        numbers += *bytes < 128;
    return bytes;
}

/* Of a run that was accepted: ones and falls at the end are ones at the start and rises. ZA starts at zero. */
static void check_balance(const uint8_t *bytes, size_t z_len, size_t za_len, uint32_t words)
{
    uint32_t rises = 0, falls = 0;
    for (uint32_t i = 0; i < words; i++) {
        const uint32_t *row = left.report + SECOND_PER_WORD * i;
        rises += row[1];
        falls += row[2];
        check(row[0] == 0 ? row[1] + row[2] <= row[3] : row[1] == 0 && row[2] == 0 && row[3] == 0, "a row of a report");
    }
    check(ones_in(left.z, z_len) + ones_in(left.za, za_len) + falls == ones_in(z_of(bytes), z_len) + rises,
          "run: the balance");
    check(left.report[SECOND_PER_WORD * words] == 0xA5A5A5A5, "the rest of the report stays");
}

/* Every run of this file whose answer is looked at goes this way. */
static struct answer run_list(const uint8_t *bytes, size_t length, size_t z_len, size_t za_len, size_t report_len)
{
    struct answer a;
    memset(&left, 0xA5, sizeof left);
    /* A copy of just this length lets the sanitizer see a read past the list's end. */
    uint8_t *exact = malloc(length + (length == 0));
    if (exact == NULL)
        abort();
    memcpy(exact, bytes, length);
    a.refusal = second_run(exact, length, left.z, z_len, left.za, za_len, left.report, report_len, &a.place, &a.words);
    free(exact);
    a.untouched = untouched();
    if (a.refusal == 0)
        check_balance(bytes, z_len, za_len, a.words);
    else
        check(a.untouched && a.words == 0, "a refused list changes nothing");
    return a;
}

static struct answer run(size_t length, size_t z_len, size_t za_len, size_t report_len)
{
    return run_list(list.bytes, length, z_len, za_len, report_len);
}

static void refused(size_t length, int refusal, size_t place, const char *what)
{
    struct answer a = run(length, 512, 256, REPORT);
    check(a.refusal == refusal && a.place == place && a.words == 0 && a.untouched, what);
}

static void put_example(void)
{
    static const uint8_t head[] = {0x80, 0x01, 0x0C, 0x03, 0, 0, 0, 0};
    static const uint8_t tail[] = {0x03, 0x88, 0x80, 0x88, 0x8D, 0x0C, 0xA0, 0x80, 0x8A, 0x71, 0x80, 0x80, 0x88,
                                   0x8D, 0x0C};
    memcpy(list.bytes, head, sizeof head);
    list.length = sizeof head;
    put_z();
    memcpy(list.bytes + list.length, tail, sizeof tail);
    list.length += sizeof tail;
}

/* What is printed is what a run answers that has the lengths of the own VL: its refusal, or the sums of its report. */
static void check_text(const char *text, const uint8_t *bytes, size_t length)
{
    uint32_t vl = 0, toggled = 0, written = 0;
    size_t at = 0;
    char due[64];
    second_read_number(bytes, length, &at, &vl);
    if (vl != 256 && vl != 512)
        vl = 128;
    struct answer a = run_list(bytes, length, second_z_length(vl), second_za_length(vl), REPORT);
    for (const uint32_t *row = left.report; row < left.report + SECOND_PER_WORD * a.words; row += SECOND_PER_WORD) {
        toggled += row[1] + row[2];
        written += row[3];
    }
    if (a.refusal != 0)
        snprintf(due, sizeof due, "refused %d at %zu\n", a.refusal, a.place);
    else
        snprintf(due, sizeof due, "total %u %u %llu\n", (unsigned)toggled, (unsigned)written,
                 (unsigned long long)second_percent(toggled, written));
    size_t last = strlen(text) >= strlen(due) ? strlen(text) - strlen(due) : 0;
    check(strcmp(text + last, due) == 0, "the last line that is printed");
}

/* What the list program prints. It is lent until the next call. */
static const char *text_of(const uint8_t *bytes, size_t length)
{
    static char text[64 * (SECOND_MOST_WORDS + 2)];
    FILE *out = tmpfile();
    if (out == NULL)
        abort();
    print_run(out, bytes, length);
    rewind(out);
    size_t got = fread(text, 1, sizeof text - 1, out);
    text[got] = '\0';
    fclose(out);
    check_text(text, bytes, length);
    return text;
}

static void printed(const char *expected, const char *what)
{
    check(strcmp(text_of(list.bytes, list.length), expected) == 0, what);
}

static void lists(void)
{
    put_example();
    printed("words 3\n1 C1A20008 1024 1024 100\n2 0E228020 refused 3\n3 C1A20000 1024 1024 100\n"
            "total 2048 2048 100\n",
            "the example list");
    /* Every list that ends early is 7: at the number or the Z bytes that it ends in. */
    static const size_t starts[] = {0, 2, 3, 4, 5, 6, 7, 8, 520, 521, 526, 530, 535};
    for (size_t i = 0, at = 0; i < list.length; i++) {
        while (at + 1 < sizeof starts / sizeof *starts && starts[at + 1] <= i)
            at++;
        refused(i, 7, starts[at], "a list cut short");
    }
    list.bytes[list.length++] = 0;
    refused(list.length, 10, 535, "extra bytes");
    list.length = 0;
    printed("refused 7 at 0\n", "the empty list");
    put_head(128, 12, 3);
    put_z();
    put_number(&list, 0);
    printed("words 0\ntotal 0 0 0\n", "no words");
}

static int report_is(const uint32_t *due, uint32_t words)
{
    return memcmp(left.report, due, SECOND_PER_WORD * words * sizeof *due) == 0;
}

/* Reports that were worked out by hand. In the first list all bits of 8 vectors rise from 0, and then fall. In the
 * second the 8 lanes of register 0 are 0101, 0102, 0103, 0104 and, by the partners, 0103, 0102, 0101: from 0103 to 0104
 * bit 2 rises and bits 0 and 1 fall, and a partner's rises are its word's falls. */
static void reports(void)
{
    static const uint32_t example[] = {0, 1024, 0, 1024, 3, 0, 0, 0, 0, 0, 1024, 1024};
    static const uint32_t lanes[] = {0, 8,  8, 128, 0, 8, 0, 128, 0, 8, 16, 128, 4, 0, 0, 0,
                                     0, 16, 8, 128, 0, 0, 8, 128, 0, 8, 8,  128};
    static const uint32_t words[] = {0x0E228020, 0x0E228020, 0x0E228020, 0xC1A20008, 0x0E22A020, 0x0E22A020,
                                     0x0E22A020};
    put_example();
    check(run(list.length, 512, 256, REPORT).refusal == 0 && report_is(example, 3), "the example list's report");
    put_head(128, 31, 0);
    put_z();
    put_number(&list, 7);
    for (int i = 0; i < 7; i++)
        put_number(&list, words[i]);
    check(run(list.length, 512, 256, 28).refusal == 0 && report_is(lanes, 7), "a report of rises and falls");
    check(memcmp(left.z, z_of(list.bytes), 512) == 0, "a run that leads back");
    printed("words 7\n1 0E228020 16 128 12\n2 0E228020 8 128 6\n3 0E228020 24 128 18\n4 C1A20008 refused 4\n"
            "5 0E22A020 24 128 18\n6 0E22A020 8 128 6\n7 0E22A020 16 128 12\ntotal 96 768 12\n",
            "its lines have toggled");
}

/* A list at VL 256, all bytes of Z 01. The first word clears 16 bits of register 0. Then 0102 becomes 0103, and the
 * upper part is clear. The word of C adds 00020402 to each 32-bit element, so that the low ones go from 01030103 to
 * 01050505, and the upper ones from 0: 3 bits rise and 2 fall in each low one, and 3 rise in each upper one. These 12
 * the next word of B clears, while 0505 becomes 0506 and 0105 becomes 0106. Its partner brings back 0505 and 0105. */
static void wide_report(void)
{
    static const uint32_t words[] = {0x0E228020, 0x0E228020, 0x44BA2820, 0x0E228020, 0x0E22A020};
    static const uint32_t due[] = {0, 8, 24, 256, 0, 8, 0, 256, 0, 24, 8, 256, 0, 8, 20, 256, 0, 8, 8, 256};
    put_head(256, 3, 0);
    put_z();
    put_z();
    put_number(&list, 5);
    for (int i = 0; i < 5; i++)
        put_number(&list, words[i]);
    check(run(list.length, 1024, 1024, 20).refusal == 0 && report_is(due, 5), "a report at VL 256");
    check(little(left.z, 4) == 0x01050505 && ones_in(left.z + 16, 16) == 0 && left.z[32] == 1, "what it leaves");
    printed("words 5\n1 0E228020 32 256 12\n2 0E228020 8 256 3\n3 44BA2820 32 256 12\n4 0E228020 28 256 10\n"
            "5 0E22A020 16 256 6\ntotal 116 1280 9\n",
            "its lines");
}

static void numbers(void)
{
    memset(list.bytes, 0x80, 8);
    refused(4, 7, 0, "four bytes that go on");
    refused(5, 8, 0, "a fifth byte of 128 is above 15");
    list.bytes[4] = 16;
    refused(5, 8, 0, "a fifth byte of 16");
    list.bytes[4] = 0;
    refused(5, 8, 0, "a fifth byte of 0");
    list.bytes[4] = 15;
    refused(5, 7, 5, "a fifth byte of 15 is a number");
    list.bytes[1] = 0;
    refused(2, 8, 0, "a last group of zero");
    list.bytes[0] = 0;
    list.bytes[1] = 0x80;
    list.bytes[2] = 0;
    refused(3, 8, 1, "a last group of zero, second number");
}

static void list_settings(void)
{
    put_head(127, 0, 0);
    refused(list.length, 1, 0, "list: VL 127");
    put_head(128, 32, 0);
    refused(list.length, 1, 0, "list: features 32");
    put_head(128, 12, 4);
    refused(list.length, 1, 0, "list: modes 4");
    put_head(128, 12, 3);
    refused(list.length - 1, 7, list.length - 1, "list: settings wait for W11");
    check(run(list.length, 511, 256, REPORT).refusal == 2, "list: Z short");
    check(run(list.length, 513, 256, REPORT).refusal == 2, "list: Z long");
    check(run(list.length, 512, 255, REPORT).refusal == 2, "list: ZA short");
    check(run(list.length, 512, 257, REPORT).refusal == 2, "list: ZA long");
    refused(list.length, 7, list.length, "list: no Z bytes");
}

static void list_words(void)
{
    put_head(128, 12, 3);
    put_z();
    size_t count_place = list.length;
    put_number(&list, 1025);
    refused(list.length, 9, count_place, "row 15: 1,025 words");
    struct answer nine = run(list.length, 512, 256, 0);
    check(nine.refusal == 9 && nine.place == count_place && nine.untouched, "9 before the report's length");
    list.length = count_place;
    put_number(&list, 1024);
    check(run(list.length, 512, 256, 4095).refusal == 2, "the report's length before the first word");
    for (int i = 0; i < 1024; i++)
        put_number(&list, 0xC1A20008);
    struct answer a = run(list.length, 512, 256, 4096);
    check(a.refusal == 0 && a.place == 0 && a.words == 1024 && !a.untouched, "row 15: 1,024 words");
    a = run(list.length, 512, 256, 4095);
    check(a.refusal == 2 && a.place == 0 && a.words == 0 && a.untouched, "a report one short");
    a = run(list.length, 512, 256, 3072);
    check(a.refusal == 2 && a.place == 0 && a.words == 0 && a.untouched, "a report of three numbers for each word");
}

/* Lists of few words, with a report of each length round what is due: 4n, and none for no words. */
static void report_lengths(void)
{
    for (uint32_t n = 0; n < 6; n++) {
        put_head(128, 12, 3);
        put_z();
        put_number(&list, n);
        for (uint32_t i = 0; i < n; i++)
            put_number(&list, i % 2 == 0 ? 0xC1A20008 : 0x0E228020);
        for (size_t numbers = 0; numbers <= 4 * n + 4; numbers++) {
            struct answer a = run(list.length, 512, 256, numbers);
            check(numbers < 4 * n ? a.refusal == 2 && a.place == 0 : a.refusal == 0 && a.words == n, "4n numbers");
        }
    }
}

/* Single calls */

static void settings_refused(void)
{
    static const struct second_settings bad[] = {
        {.vl = 0, .features = 1},           {.vl = 127, .features = 1},        {.vl = 384, .features = 1},
        {.vl = 1024, .features = 1},        {.vl = 128, .features = 32},       {.vl = 128, .features = 8},
        {.vl = 128, .features = 16},        {.vl = 128, .features = 24},       {.vl = 128, .features = 27},
        {.vl = 128, .features = 1, .modes = 1}, {.vl = 128, .features = 3, .modes = 2},
        {.vl = 128, .features = 12, .modes = 4}};
    for (size_t i = 0; i < sizeof bad / sizeof *bad; i++) {
        struct second_fields f;
        uint32_t word;
        check(second_decode(&bad[i], 0x0E228020, &f) == 1 && f.family == 0 && f.group == 0, "decode 1");
        check(second_encode(&bad[i], &f, &word) == 1 && word == 0, "encode 1 before 5");
        check(second_partner(&bad[i], 0x44BA3820, &word) == 1 && word == 0, "partner 1 before 6");
        set_up(1, 0, 1);
        b.s = bad[i];
        check(execute(&b.s, 0, b.z, 0, b.za, 0, &b.c) == 1, "execute 1 before 2");
    }
    struct second_settings none = {.vl = 128};
    struct second_fields f;
    check(second_decode(&none, 0x0E228020, &f) == 3, "features 0 is valid, and has no family");
}

static void lengths_and_modes(void)
{
    set_up(31, 3, 1);
    check(execute(&b.s, 0, b.z, 511, b.za, 256, &b.c) == 2, "Z short before 3");
    check(execute(&b.s, 0, b.z, 512, b.za, 255, &b.c) == 2, "ZA short before 3");
    check(execute(&b.s, 0, b.z, 512, b.za, 0, &b.c) == 2, "no ZA");
    check(step(0) == 3, "no layout");
    check(step(0x0E228020) == 4 && step(0x2F726820) == 4, "A and B with SM on");
    check(step(0x44BA3820) == 0, "C with SM on");
    b.s.modes = 2;
    check(step(0x0E228020) == 0 && step(0x2F726820) == 0, "A and B with ZA alone");
    check(step(0xC1A20008) == 4, "D without SM");
    b.s.modes = 1;
    check(step(0xC1A20008) == 4 && step(0xC1E20800) == 4, "D and E without ZA");
    set_up(4, 0, 1);
    check(step(0x44BA3820) == 4, "C with SME alone and SM off");
    b.s.modes = 1;
    check(step(0x44BA3820) == 0, "C with SME alone and SM on");
    set_up(2, 0, 1);
    check(step(0x44BA3820) == 0, "C with SVE2 and SM off");
    set_up(1, 0, 1);
    check(step(0x44BA3820) == 3, "C without its features");
}

static void partners(void)
{
    struct second_settings s = {.vl = 128, .features = 31};
    uint32_t p;
    check(second_partner(&s, 0x2F726820, &p) == 0 && p == 0x2F722820, "partner of A");
    check(second_partner(&s, 0x0E228020, &p) == 0 && p == 0x0E22A020, "partner of B");
    check(second_partner(&s, 0x44BA3820, &p) == 6 && p == 0, "no partner in C");
    check(second_partner(&s, 0xC1A20008, &p) == 0 && p == 0xC1A20000, "partner of D");
    check(second_partner(&s, 0xC1E20800, &p) == 0 && p == 0xC1E20808, "partner of E");
    check(second_partner(&s, 0, &p) == 3 && p == 0, "no partner of no word");
    s.features = 1;
    check(second_partner(&s, 0x44BA3820, &p) == 3, "partner: 3 before 6");
}

/* Each field of a known word in turn takes each of these: what is accepted decodes to just what was given. */
static void encodes(void)
{
    static const uint32_t words[] = {0x2F726820, 0x2FB26820, 0x0E228020, 0x6EA2A020, 0x44BA3820, 0x44F23C20,
                                     0xC1A20008, 0xC1E50099, 0xC1E20800, 0xC1E10803};
    static const uint32_t values[] = {0, 1, 2, 3, 4, 5, 6, 7, 8, 9, 11, 12, 15, 16, 28, 30, 31, 32, 33, 64, 128,
                                      UINT32_MAX};
    struct second_settings s = {.vl = 128, .features = 31};
    for (size_t i = 0; i < sizeof words / sizeof *words; i++) {
        struct second_fields f, g;
        uint32_t word;
        check(second_decode(&s, words[i], &f) == 0 && second_encode(&s, &f, &word) == 0 && word == words[i],
              "encode undoes decode");
        for (size_t field = 0; field < sizeof f / 4; field++)
            for (size_t v = 0; v < sizeof values / sizeof *values; v++) {
                struct second_fields changed = f;
                memcpy((char *)&changed + 4 * field, &values[v], 4);
                int refusal = second_encode(&s, &changed, &word);
                check(refusal == 5 ? word == 0
                                   : refusal == 0 && second_decode(&s, word, &g) == 0 &&
                                         memcmp(&g, &changed, sizeof g) == 0,
                      "decode undoes encode");
            }
    }
    struct second_fields f = {.family = SECOND_FAMILY_D, .lane = 16, .group = 2, .select = 8};
    uint32_t word;
    s.features = 12;
    check(second_encode(&s, &f, &word) == 3 && word == 0, "encode 3");
    f.offset = 2;
    check(second_encode(&s, &f, &word) == 5 && word == 0, "encode 5 before 3");
}

/* Every word under the ten top bytes that the rows allow. The rows' free bits say how many there are: 2 sizes of 20
 * bits in A, 3 of 18 in B, 2 of 18 in C, and 14 and 12 bits each in D and in E. A slip in a mask would change the
 * number. */
static void every_word(void)
{
    static const uint32_t tops[] = {0x0E, 0x0F, 0x2E, 0x2F, 0x4E, 0x4F, 0x6E, 0x6F, 0x44, 0xC1};
    struct second_settings s = {.vl = 128, .features = 31};
    uint32_t accepted = 0, back = 0;
    for (size_t i = 0; i < sizeof tops / sizeof *tops; i++)
        for (uint32_t low = 0; low < 1u << 24; low++) {
            struct second_fields f;
            uint32_t word = tops[i] << 24 | low, again;
            if (second_decode(&s, word, &f) == 0) {
                accepted++;
                back += second_encode(&s, &f, &again) == 0 && again == word;
            }
        }
    check(accepted == 2 * (1 << 20) + 5 * (1 << 18) + 2 * (1 << 14) + 2 * (1 << 12), "the number of words");
    check(back == accepted, "encode undoes decode for all of them");
}

static unsigned open_sweeps;

static void look_at_open(const struct sweep *w)
{
    open_sweeps++;
    check(leads_back_open(w), "there and back to all but what was cleared");
    check(!leads_back(w), "an open sweep does not lead back");
}

/* Ones above a V register are in the way where it is the destination. A source may have any. */
static void open_by_one_register(void)
{
    struct sweep w = choose_sweep(256, A_AND_B, 1);
    w.words[0] = 0x0E228020;
    for (uint32_t r = 0; r < 3; r++) {
        w.clear = 7 & ~(1u << r);
        check(leads_back(&w) == (r != 0), "a destination that is not clear, a source that is not");
        check(leads_back_open(&w) == (r == 0), "the same, as an open sweep");
    }
    w.s.vl = 128;
    check(leads_back(&w), "at VL 128 nothing lies above");
}

/* Random words there and their partners back. The last show that the check can fail: a word that names its destination
 * as a source spoils the source for its partner, a word of C has no partner, and what a word clears does not come back.
 * Words of D and E clear nothing, whatever Z holds. */
static void round_trips(void)
{
    start_choosing(20010902);
    for (int mix = 0; mix < MIXES; mix++)
        for (int v = 0; v < 3; v++) {
            struct sweep w = choose_sweep(vls[v], (enum mix)mix, 100);
            check(leads_back(&w), "there and back");
            check((w.clear == 0) == (mix >= ONLY_D_8), "registers are clear for A and B alone");
            w.clear = 0;
            w.z_kind = 1;
            check(leads_back(&w) == (v == 0 || mix >= ONLY_D_8), "there and back, with ones above each V register");
        }
    struct sweep w = choose_sweep(128, A_AND_B, 10);
    w.words[4] = 0x0E218020;
    check(leads_back(&w), "a word whose destination is no source");
    w.words[4] = 0x0E208020;
    check(!leads_back(&w), "a word whose destination is its second source");
    w.s.features = 31;
    w.words[4] = 0x44BA3820;
    check(!leads_back(&w), "a word of C");
    open_by_one_register();
    make_open_sweeps(20010902, look_at_open);
    check(open_sweeps == 8, "open sweeps: how many");
}

/* How many cases there are with each answer of execute, and a checksum of all answers: FNV-1a of 32 bits. */
static unsigned answered[5], clearing;
static uint32_t answers = 2166136261u;

static void add_bytes(const uint8_t *bytes, size_t length)
{
    for (size_t i = 0; i < length; i++)
        answers = (answers ^ bytes[i]) * 16777619u;
}

static void add_number(uint32_t number)
{
    const uint8_t bytes[] = {(uint8_t)number, (uint8_t)(number >> 8), (uint8_t)(number >> 16), (uint8_t)(number >> 24)};
    add_bytes(bytes, sizeof bytes);
}

static void answer_case(const struct one_case *c)
{
    static uint8_t z[SECOND_MOST_Z + 1], za[SECOND_MOST_ZA + 1];
    struct second_counts counts;
    fill(z, c->z.length, c->z.kind, c->z.seed);
    fill(za, c->za.length, c->za.kind, c->za.seed);
    uint32_t cleared = c->z.length == second_z_length(c->s.vl) ? ones_to_clear(&c->s, c->word, z) : 0;
    int refusal = execute(&c->s, c->word, z, c->z.length, za, c->za.length, &counts);
    answered[refusal]++;
    clearing += refusal == 0 && cleared > 0;
    add_number((uint32_t)refusal);
    add_number(counts.rises + counts.falls);
    add_number(counts.written);
    add_bytes(z, c->z.length);
    add_bytes(za, c->za.length);
}

static void made_cases(void)
{
    unsigned all = 0;
    make_cases(CASES_SEED, answer_case);
    for (int i = 0; i < 5; i++) {
        all += answered[i];
        check(answered[i] > 20, "made cases: each answer");
    }
    check(all == 1500, "made cases: how many");
    check(clearing > 250, "made cases: words that clear something");
    /* This number changes only where the answers, or the cases, are meant to change. */
    check(answers == 0x649E7E1F, "made cases: the same answers as ever");
}

/* The lists that `second lists` makes */

/* How many lists there are of each kind, and which answers they get between them: bit k for refusal k, bit 0 for
 * accepted. */
static struct {
    const char *name;
    unsigned count, answers;
} kinds[] = {{"settings", 204, 1 << 0},
             {"families", 90, 1 << 0},
             {"selects", 56, 1 << 0},
             {"counts", 90, 1 << 0},
             {"longest", 12, 1 << 0 | 1 << 7 | 1 << 9 | 1 << 10},
             {"ends", 73, 1 << 7},
             {"numbers", 220, 1 << 0 | 1 << 1 | 1 << 7 | 1 << 8 | 1 << 9},
             {"too-many", 24, 1 << 9},
             {"extra", 60, 1 << 10},
             {"bad-settings", 120, 1 << 1 | 1 << 7 | 1 << 8},
             {"cuts", 1736, 1 << 7},
             {"random", 100, 1 << 1 | 1 << 7 | 1 << 8},
             {"tails", 120, 1 << 0 | 1 << 7 | 1 << 8 | 1 << 9 | 1 << 10},
             {"changes", 160, 1 << 0 | 1 << 1 | 1 << 7 | 1 << 8 | 1 << 9 | 1 << 10},
             {"long-inputs", 20, 1 << 1 | 1 << 8 | 1 << 9 | 1 << 10}};
enum { KINDS = sizeof kinds / sizeof *kinds };

static struct made {
    unsigned counts[KINDS], answers[KINDS];
    unsigned refused[11];    /* words, by refusal */
    unsigned executed[6][3]; /* words, by family and VL */
    unsigned selected[4];    /* words of D and E, by select register */
    size_t longest;          /* of the accepted lists */
    uint32_t checksum;       /* of all bytes */
} made;

static void look_at_word(uint32_t vl, const char *line)
{
    static const struct second_settings all = {.vl = 128, .features = 31};
    struct second_fields f;
    unsigned word, refusal;
    if (sscanf(line, "%*u %x refused %u", &word, &refusal) == 2)
        made.refused[refusal < 11 ? refusal : 0]++;
    else if (sscanf(line, "%*u %x %*u %*u %*u", &word) == 1 && second_decode(&all, word, &f) == 0) {
        made.executed[f.family][vl / 256]++;
        if (f.select != 0)
            made.selected[f.select - 8]++;
    }
}

/* A place is the first byte of what is at fault. So a list that is cut there ends before something that is due, or,
 * where the fault is extra bytes, has nothing wrong. */
static void look_at_place(const struct list *l, int refusal, size_t place)
{
    char expected[64] = "words ";
    if (refusal != 10)
        snprintf(expected, sizeof expected, "refused 7 at %zu\n", place);
    check(refusal == 1 ? place == 0 : place <= l->length, "made lists: a place in the list");
    if (refusal != 1 && place <= l->length)
        check(strncmp(text_of(l->bytes, place), expected, strlen(expected)) == 0, "made lists: cut at the place");
}

static void look_at_list(void *context, const char *kind, const struct list *l)
{
    uint32_t vl = 0;
    size_t at = 0, place, k = 0;
    int refusal = 0;
    (void)context;
    while (k + 1 < KINDS && strcmp(kinds[k].name, kind) != 0)
        k++;
    made.counts[k]++;
    for (size_t i = 0; i < l->length; i++)
        made.checksum = (made.checksum ^ l->bytes[i]) * 16777619u;
    const char *text = text_of(l->bytes, l->length);
    if (sscanf(text, "refused %d at %zu", &refusal, &place) == 2) {
        check(refusal > 0 && refusal < 11, "made lists: a refusal number");
        look_at_place(l, refusal, place);
    } else {
        second_read_number(l->bytes, l->length, &at, &vl);
        made.longest = l->length > made.longest ? l->length : made.longest;
        for (const char *line = text; (line = strchr(line, '\n')) != NULL && *++line != 't';)
            look_at_word(vl, line);
    }
    made.answers[k] |= 1u << refusal;
    if (l->length > MOST_LIST) {
        static char kept[64];
        snprintf(kept, sizeof kept, "%s", text_of(l->bytes, MOST_LIST));
        check(strcmp(text_of(l->bytes, l->length), kept) == 0, "made lists: the bytes that are kept decide");
    }
}

static void made_lists(void)
{
    make_lists(LISTS_SEED, look_at_list, NULL);
    for (size_t k = 0; k < KINDS; k++)
        check(made.counts[k] == kinds[k].count && made.answers[k] == kinds[k].answers, kinds[k].name);
    for (int family = SECOND_FAMILY_A; family <= SECOND_FAMILY_E; family++)
        for (int v = 0; v < 3; v++)
            check(made.executed[family][v] > 100, "made lists: each family at each VL");
    for (int i = 0; i < 4; i++)
        check(made.selected[i] > 100, "made lists: each select register");
    check(made.refused[3] > 100 && made.refused[4] > 100, "made lists: words refused with 3 and with 4");
    check(made.longest == 7194, "made lists: the longest list");
    /* Of whatever compiler: a number changes here only when the lists are meant to change. */
    check(made.checksum == 0x589FB005, "made lists: the same ones as ever");
}

/* Texts: the rows of the table of texts, the request's own word, and the least and the greatest numbers. */

static const struct {
    uint32_t word;
    const char *text;
} texts[] = {
    {0x0F532841, "smlal v1.4s, v2.4h, v3.h[5]"},
    {0x4F532841, "smlal2 v1.4s, v2.8h, v3.h[5]"},
    {0x2F532841, "umlal v1.4s, v2.4h, v3.h[5]"},
    {0x0F536841, "smlsl v1.4s, v2.4h, v3.h[5]"},
    {0x6F7F6BFF, "umlsl2 v31.4s, v31.8h, v15.h[7]"},
    {0x0FA32041, "smlal v1.2d, v2.2s, v3.s[1]"},
    {0x4FA32041, "smlal2 v1.2d, v2.4s, v3.s[1]"},
    {0x2FBF6BFF, "umlsl v31.2d, v31.2s, v31.s[3]"},
    {0x2E23A041, "umlsl v1.8h, v2.8b, v3.8b"},
    {0x6E23A041, "umlsl2 v1.8h, v2.16b, v3.16b"},
    {0x0E228020, "smlal v0.8h, v1.8b, v2.8b"},
    {0x2E638041, "umlal v1.4s, v2.4h, v3.4h"},
    {0x4E63A041, "smlsl2 v1.4s, v2.8h, v3.8h"},
    {0x0EA38041, "smlal v1.2d, v2.2s, v3.2s"},
    {0x6EBFA3FF, "umlsl2 v31.2d, v31.4s, v31.4s"},
    {0x44B32841, "sqdmlalb z1.s, z2.h, z3.h[5]"},
    {0x44B33C41, "sqdmlslt z1.s, z2.h, z3.h[5]"},
    {0x44BF3BFF, "sqdmlslb z31.s, z31.h, z7.h[7]"},
    {0x44E32841, "sqdmlalb z1.d, z2.s, z3.s[1]"},
    {0x44FF2FFF, "sqdmlalt z31.d, z31.s, z15.s[3]"},
    {0xC1A20008, "smlsll za.s[w8, 0:3, vgx2], { z0.b-z1.b }, { z2.b-z3.b }"},
    {0xC1BE63D1, "umlall za.s[w11, 4:7, vgx2], { z30.b-z31.b }, { z30.b-z31.b }"},
    {0xC1A50000, "smlall za.s[w8, 0:3, vgx4], { z0.b-z3.b }, { z4.b-z7.b }"},
    {0xC1BD6399, "umlsll za.s[w11, 4:7, vgx4], { z28.b-z31.b }, { z28.b-z31.b }"},
    {0xC1E22009, "smlsll za.d[w9, 4:7, vgx2], { z0.h-z1.h }, { z2.h-z3.h }"},
    {0xC1FD4090, "umlall za.d[w10, 0:3, vgx4], { z4.h-z7.h }, { z28.h-z31.h }"},
    {0xC1E20800, "smlal za.s[w8, 0:1, vgx2], { z0.h-z1.h }, { z2.h-z3.h }"},
    {0xC1FE6BDB, "umlsl za.s[w11, 6:7, vgx2], { z30.h-z31.h }, { z30.h-z31.h }"},
    {0xC1E50802, "smlal za.s[w8, 4:5, vgx4], { z0.h-z3.h }, { z4.h-z7.h }"},
    {0xC1FD2B99, "umlsl za.s[w9, 2:3, vgx4], { z28.h-z31.h }, { z28.h-z31.h }"}};
enum { TEXTS = sizeof texts / sizeof *texts };

static const struct second_settings all_on = {.vl = 128, .features = 31};

/* A copy of just the text's length lets the sanitizer see a read past its end. */
static int read_text(const struct second_settings *s, const char *text, size_t length, uint32_t *word)
{
    char *exact = malloc(length + (length == 0));
    if (exact == NULL)
        abort();
    memcpy(exact, text, length);
    *word = 0xA5A5A5A5;
    int refusal = second_read(s, exact, length, word);
    free(exact);
    return refusal;
}

static int reads_as(const char *text, size_t length, uint32_t word)
{
    uint32_t read;
    return read_text(&all_on, text, length, &read) == 0 && read == word;
}

/* Takes the vgx out of a text that may have one, and tells the new length. */
static size_t drop_vgx(char *text, size_t length)
{
    for (size_t i = 0; i + 6 <= length; i++)
        if (memcmp(text + i, ", vgx", 5) == 0) {
            memmove(text + i, text + i + 6, length - i - 6);
            return length - 6;
        }
    return length;
}

static void rows_of_texts(void)
{
    char room[SECOND_LONGEST_TEXT];
    size_t length;
    for (int i = 0; i < TEXTS; i++) {
        const char *text = texts[i].text;
        check(second_print(&all_on, texts[i].word, room, sizeof room, &length) == 0 && length == strlen(text) &&
                  memcmp(room, text, length) == 0,
              text);
        check(reads_as(text, length, texts[i].word), text);
        check(reads_as(room, drop_vgx(room, length), texts[i].word), text);
    }
}

/* Whether a room of a length takes a word's text, or is refused and stays. It is watched on past its end. */
static int prints_into(const struct second_settings *s, uint32_t word, size_t room_len, int due, const char *text)
{
    char room[SECOND_LONGEST_TEXT + 16], expected[sizeof room];
    size_t length = 1000, due_length = due == 0 ? strlen(text) : 0;
    memset(room, 0x5A, sizeof room);
    memset(expected, 0x5A, sizeof expected);
    memcpy(expected, text, due_length);
    int refusal = second_print(s, word, room, room_len, &length);
    return refusal == due && length == due_length && memcmp(room, expected, sizeof room) == 0;
}

static void rooms(void)
{
    for (int i = 0; i < TEXTS; i++)
        for (size_t room_len = 0; room_len <= SECOND_LONGEST_TEXT + 8; room_len++) {
            int due = room_len < strlen(texts[i].text) ? 12 : 0;
            check(prints_into(&all_on, texts[i].word, room_len, due, texts[i].text), "a room of each length");
        }
    check(strlen("umlsll za.s[w11, 4:7, vgx4], { z28.b-z31.b }, { z28.b-z31.b }") == SECOND_LONGEST_TEXT,
          "the longest text");
}

/* Every sum of features, those that are refused with 1 among them, and two VLs. What decode says of the word, print and
 * read say too. */
static void text_refusals(void)
{
    static const uint32_t two_vls[] = {512, 384};
    for (int v = 0; v < 2; v++)
        for (uint32_t features = 0; features <= 32; features++)
            for (int i = 0; i < TEXTS; i++) {
                struct second_settings s = {.vl = two_vls[v], .features = features};
                const char *text = texts[i].text;
                struct second_fields f;
                uint32_t word;
                int due = second_decode(&s, texts[i].word, &f), in_short = due == 0 ? 12 : due;
                check(prints_into(&s, texts[i].word, 61, due, text), "print: 1 and 3");
                check(prints_into(&s, texts[i].word, strlen(text) - 1, in_short, text), "print: 1 and 3 before 12");
                check(prints_into(&s, 0, 0, due == 1 ? 1 : 3, text), "print: 1, then 3 before 12");
                check(read_text(&s, text, strlen(text), &word) == due && word == (due == 0 ? texts[i].word : 0),
                      "read: 1 and 3");
                check(read_text(&s, text, strlen(text) - 1, &word) == (due == 1 ? 1 : 11) && word == 0,
                      "read: 1, then 11 before 3");
            }
    struct second_settings s = {.vl = 128, .features = 1, .modes = 1};
    check(prints_into(&s, 0, 0, 1, ""), "print: 1 by the modes");
    size_t length = 1000;
    check(second_print(&all_on, 0xC1A20008, NULL, 0, &length) == 12 && length == 0, "print: no room");
    uint32_t word = 1000;
    check(second_read(&all_on, NULL, 0, &word) == 11 && word == 0, "read: no text");
}

static const char *const not_texts[] = {
    " ", "smlal", "C1A20008", "smlal v32.4s, v2.4h, v3.h[5]", "smlal v1.4s, v2.4h, v16.h[5]",
    "smlal v1.4s, v2.4h, v3.h[8]", "smlal v1.2d, v2.2s, v3.s[4]", "smlal v1.8h, v2.8b, v3.b[5]",
    "smlal v1.4s, v2.8h, v3.h[5]", "smlal2 v1.4s, v2.4h, v3.h[5]", "smlal v01.4s, v2.4h, v3.h[5]",
    "smlal v4294967297.4s, v2.4h, v3.h[5]", "smlal v18446744073709551617.4s, v2.4h, v3.h[5]",
    "Smlal v1.4s, v2.4h, v3.h[5]", "smlal  v1.4s, v2.4h, v3.h[5]", "smlal v1.4s,v2.4h, v3.h[5]",
    " smlal v1.4s, v2.4h, v3.h[5]", "smlal v1.4s, v2.4h, v3.h[5] ", "smlal v1.4s, v2.4h, v3.h[5]\n",
    "smlal v1.4s, v2.4h, v3.h[5", "smlal v1.4s, v2.4h, v-3.h[5]", "smlal v1.4s, v2.4h, v+3.h[5]",
    "umlsl v1.8h, v2.8b, v3.16b", "umlsl v1.8h, v2.16b, v3.16b", "umlsl v1.1q, v2.1d, v3.1d",
    "sqdmlalb z1.s, z2.h, z8.h[5]", "sqdmlalb z1.d, z2.s, z16.s[1]", "sqdmlal z1.s, z2.h, z3.h[5]",
    "uqdmlalb z1.s, z2.h, z3.h[5]", "sqdmlalb v1.s, v2.h, v3.h[5]",
    "smlsll za.s[w8, 0:3, vgx4], { z0.b-z1.b }, { z2.b-z3.b }", "smlsll za.s[w8, 0:3], { z1.b-z2.b }, { z2.b-z3.b }",
    "smlsll za.s[w8, 0:3], { z0.b-z2.b }, { z0.b-z2.b }", "smlsll za.s[w8, 0:3], { z2.b-z5.b }, { z0.b-z3.b }",
    "smlsll za.s[w8, 1:4], { z0.b-z1.b }, { z2.b-z3.b }", "smlsll za.s[w7, 0:3], { z0.b-z1.b }, { z2.b-z3.b }",
    "smlsll za.s[w12, 0:3], { z0.b-z1.b }, { z2.b-z3.b }", "smlsll za.s[w8, 0:1], { z0.b-z1.b }, { z2.b-z3.b }",
    "smlsll za.s[w8, 0:3], { z32.b-z33.b }, { z2.b-z3.b }", "smlsll za.s[w8, 0:3], { z0.b-z1.b }, { z4.b-z7.b }",
    "smlsll za.d[w8, 0:3], { z0.b-z1.b }, { z2.b-z3.b }", "smlsll za.s[w8, 0:3], { z0.b, z1.b }, { z2.b, z3.b }",
    "smlsll za.s[w8, 0:3, VGx2], { z0.b-z1.b }, { z2.b-z3.b }", "smlal za.s[w8, 8:9], { z0.h-z1.h }, { z2.h-z3.h }",
    "smlal za.d[w8, 0:1], { z0.h-z1.h }, { z2.h-z3.h }", "smlal za.s[w8, 0:3], { z0.h-z1.h }, { z2.h-z3.h }"};

static void refused_text(const char *text, size_t length)
{
    uint32_t word;
    check(read_text(&all_on, text, length, &word) == 11 && word == 0, text);
}

/* Then every start of each text, and each text with any byte behind it: no text of the language is the start of
 * another. */
static void texts_refused(void)
{
    char longer[SECOND_LONGEST_TEXT + 1];
    for (size_t i = 0; i < sizeof not_texts / sizeof *not_texts; i++)
        refused_text(not_texts[i], strlen(not_texts[i]));
    for (int i = 0; i < TEXTS; i++) {
        size_t length = strlen(texts[i].text);
        for (size_t cut = 0; cut < length; cut++)
            refused_text(texts[i].text, cut);
        memcpy(longer, texts[i].text, length);
        for (int byte = 0; byte < 256; byte++) {
            longer[length] = (char)byte;
            refused_text(longer, length + 1);
        }
    }
    static char many[100000];
    memset(many, '1', sizeof many);
    refused_text(memcpy(many, "smlal v", 7), sizeof many);
}

/* Words of every lane and family, with every sign, operation, part and group between them. */
static void texts_there_and_back(void)
{
    static const uint32_t lanes[][2] = {{1, 16}, {1, 32}, {2, 8}, {2, 16}, {2, 32},
                                        {3, 16}, {3, 32}, {4, 8}, {4, 16}, {5, 16}};
    char room[2 * SECOND_LONGEST_TEXT];
    size_t longest = 0, length;
    start_choosing(20021104);
    for (int i = 0; i < 100000; i++) {
        struct second_fields f = {.family = lanes[i % 10][0], .lane = lanes[i % 10][1], .group = 1};
        f.is_unsigned = f.family == SECOND_FAMILY_C ? 0 : choose(2);
        choose_rest(&f);
        uint32_t word = word_of(&f);
        check(second_print(&all_on, word, room, sizeof room, &length) == 0 && reads_as(room, length, word),
              "a text there and back");
        longest = length > longest ? length : longest;
        size_t without = drop_vgx(room, length);
        check(without == (f.family >= SECOND_FAMILY_D ? length - 6 : length) && reads_as(room, without, word),
              "a text without vgx");
    }
    check(longest == SECOND_LONGEST_TEXT, "no text is longer than the longest");
}

/* The lines for `spell`, and what it answers */

static struct {
    unsigned lines, longest, ends, refusals[13], printed, read;
    uint32_t checksum;
} spelled;

static const char *spelled_as(const char *lines, size_t length)
{
    static char answers[512];
    FILE *in = tmpfile(), *out = tmpfile();
    if (in == NULL || out == NULL)
        abort();
    fwrite(lines, 1, length, in);
    rewind(in);
    check(spell(in, out) == 0, "spell ends well");
    rewind(out);
    answers[fread(answers, 1, sizeof answers - 1, out)] = '\0';
    fclose(in);
    fclose(out);
    return answers;
}

static void look_at_spelling(void *context, const char *line, size_t length)
{
    unsigned refusal = 0;
    (void)context;
    spelled.lines++;
    spelled.longest += length == MOST_SPELLING;
    spelled.ends += memchr(line, '\n', length) != NULL;
    for (size_t i = 0; i < length; i++)
        spelled.checksum = (spelled.checksum ^ (uint8_t)line[i]) * 16777619u;
    spelled.checksum = (spelled.checksum ^ '\n') * 16777619u;
    /* An empty line has an answer when its end is there. */
    const char *answer = length == 0 ? spelled_as("\n", 1) : spelled_as(line, length);
    check(strchr(answer, '\n') == answer + strlen(answer) - 1, "made spellings: one answer");
    if (sscanf(answer, "refused %u\n", &refusal) == 1)
        spelled.refusals[refusal < 13 ? refusal : 0]++;
    else if (strlen(answer) == 9)
        spelled.read++;
    else
        spelled.printed++;
}

static void made_spellings(void)
{
    make_spellings(SPELLINGS_SEED, SPELLINGS, look_at_spelling, NULL);
    check(spelled.lines == 3000 && spelled.longest == 3 && spelled.ends == 0, "made spellings: how many");
    check(spelled.refusals[3] > 100 && spelled.refusals[11] > 1000, "made spellings: refused with 3 and with 11");
    check(spelled.refusals[3] + spelled.refusals[11] + spelled.read + spelled.printed == 3000,
          "made spellings: no other refusal");
    check(spelled.printed > 400 && spelled.read > 400, "made spellings: printed and read");
    /* This number changes only where the lines are meant to change. */
    check(spelled.checksum == 0xBA4EA1CE, "made spellings: the same ones as ever");
}

static void spellings(void)
{
    static const char mixed[] = "C1A20008\nsmlal v1.4s, v2.4h, v3.h[5]\n\nc1a20008\r\n2f026020\n\0\n0E228020";
    check(strcmp(spelled_as("", 0), "") == 0, "spell: no input");
    check(strcmp(spelled_as("\n", 1), "refused 11\n") == 0, "spell: an empty line");
    check(strcmp(spelled_as(mixed, sizeof mixed - 1),
                 "smlsll za.s[w8, 0:3, vgx2], { z0.b-z1.b }, { z2.b-z3.b }\n0F532841\nrefused 11\nrefused 11\n"
                 "refused 3\nrefused 11\nsmlal v0.8h, v1.8b, v2.8b\n") == 0,
          "spell: lines of each kind, and a last one without its end");
    made_spellings();
}

int selftest_command(void)
{
    rows_of_ab();
    upper_parts();
    rows_of_c();
    rows_of_de();
    lists();
    reports();
    wide_report();
    numbers();
    list_settings();
    list_words();
    report_lengths();
    settings_refused();
    lengths_and_modes();
    partners();
    encodes();
    every_word();
    round_trips();
    made_cases();
    made_lists();
    rows_of_texts();
    rooms();
    text_refusals();
    texts_refused();
    texts_there_and_back();
    spellings();
    if (failures != 0) {
        printf("%u checks, %u failed\n", checks, failures);
        return 1;
    }
    printf("%u checks ok\n", checks);
    return 0;
}
