/* Runs words on an emulated Arm machine and in the second program, and compares.
 *
 * It is built for Arm and runs in the emulator, with the second program linked in. D and E need SME2: where the
 * emulator lacks it, they are skipped, and the tool says so. An older emulator does not clear what lies above a V
 * register: there A and B are compared in the V register alone, and the tool says so too. */
#define _GNU_SOURCE
#include "../../second/second.h"

#include <stdio.h>
#include <stdlib.h>
#include <string.h>
#include <sys/auxv.h>
#include <sys/mman.h>
#include <sys/prctl.h>

void step(uint8_t *z, const void *code);
void step_za(uint8_t *z, const void *code, uint8_t *za, const uint32_t *w);

enum {
    CONTENTS = 16, /* for each word */
    MOST_Z = 2048,
    MOST_ZA = 4096,
    MOST_WORDS = 65536,
    RETURN = 0xD65F03C0u
};

/* Linux's numbers, for C headers that are older: bits of AT_HWCAP2, and the call that sets the streaming VL. */
enum { HAS_I16I64 = 24, HAS_SME2 = 37, SET_STREAMING_VL = 63 };

static uint64_t state = 0x9E3779B97F4A7C15u;

static uint32_t any(void)
{
    state ^= state << 13;
    state ^= state >> 7;
    state ^= state << 17;
    return (uint32_t)(state >> 16);
}

static uint32_t below(uint32_t n)
{
    return any() % n;
}

static uint32_t words[MOST_WORDS], word_count;

static void add_word(const struct second_fields *f)
{
    static const struct second_settings all = {.vl = 128, .features = 31};
    if (word_count == MOST_WORDS || second_encode(&all, f, &words[word_count++]) != 0)
        abort();
}

/* Registers by choice, in one of four ways: apart, or with the destination as the first source, the second, or both. */
static void add_words(struct second_fields f, uint32_t second_below, uint32_t times)
{
    for (uint32_t i = 0; i < times; i++) {
        f.destination = below(32);
        f.first = below(32);
        f.second = below(second_below);
        if (i % 4 == 1)
            f.first = f.destination;
        if (i % 4 == 2)
            f.destination = f.second;
        if (i % 4 == 3)
            f.destination = f.first = f.second;
        add_word(&f);
    }
}

/* Every lane, sign, operation, part and index of the family. */
static void make_words(uint32_t family, uint32_t times)
{
    word_count = 0;
    for (uint32_t lane = 8; lane <= 32; lane *= 2)
        for (uint32_t flags = 0; flags < 8; flags++) {
            struct second_fields f = {.family = family, .lane = lane, .group = 1};
            f.part = flags % 2;
            f.subtract = flags / 2 % 2;
            f.is_unsigned = flags / 4;
            uint32_t indexes = family == SECOND_FAMILY_B ? 1 : 128 / lane;
            uint32_t registers = family == SECOND_FAMILY_B   ? 32
                                 : family == SECOND_FAMILY_A ? (lane == 16 ? 16 : 32)
                                                             : (lane == 16 ? 8 : 16);
            if ((family != SECOND_FAMILY_B && lane == 8) || (family == SECOND_FAMILY_C && f.is_unsigned == 1))
                continue;
            for (f.index = 0; f.index < indexes; f.index++)
                add_words(f, registers, times);
        }
}

/* Sources by choice, in one of four ways: both at random, the two equal, or one or the other at the top of Z. Both are
 * multiples of the group, so they are equal or share no register. */
static void add_za_words(struct second_fields f, uint32_t times)
{
    uint32_t top = 32 - f.group;
    for (uint32_t i = 0; i < times; i++) {
        f.first = i % 4 == 2 ? top : f.group * below(32 / f.group);
        f.second = i % 4 == 3 ? top : i % 4 == 1 ? f.first : f.group * below(32 / f.group);
        add_word(&f);
    }
}

/* Every lane, group, sign, operation, select register and offset of D or E. */
static void make_za_words(uint32_t family, uint32_t times)
{
    uint32_t unit = family == SECOND_FAMILY_D ? 4 : 2;
    word_count = 0;
    for (uint32_t lane = unit == 4 ? 8 : 16; lane <= 16; lane *= 2)
        for (uint32_t flags = 0; flags < 32; flags++) {
            struct second_fields f = {.family = family, .lane = lane};
            f.subtract = flags % 2;
            f.is_unsigned = flags / 2 % 2;
            f.group = flags / 4 % 2 == 0 ? 2 : 4;
            f.select = 8 + flags / 8;
            for (f.offset = 0; f.offset < 8; f.offset += unit)
                add_za_words(f, times);
        }
}

/* Contents: random bytes, or lanes of one size that are each an extreme or a random number. */
static void fill(uint8_t *z, size_t length, uint32_t kind)
{
    static const uint32_t width_of[] = {1, 2, 4, 8};
    uint32_t width = width_of[kind / 2 % 4];
    for (size_t i = 0; i < length; i += width) {
        uint32_t pick = kind % 2 == 0 ? 9 : below(10);
        for (uint32_t j = 0; j < width; j++) {
            int top = j + 1 == width;
            switch (pick) {
            case 0: case 1: z[i + j] = top ? 0x80 : 0x00; break;
            case 2: case 3: z[i + j] = top ? 0x7F : 0xFF; break;
            case 4: z[i + j] = 0xFF; break;
            case 5: z[i + j] = 0x00; break;
            case 6: z[i + j] = j == 0 ? 0x01 : 0x00; break;
            case 7: z[i + j] = top ? 0x80 : (j == 0 ? 0x01 : 0x00); break;
            default: z[i + j] = (uint8_t)any(); break;
            }
        }
    }
}

/* The bits that are 0 in the first and 1 in the second: rises from one to the other, and falls the other way round.
 * Eight bytes at a time, since counting ones is slow in the emulator. */
static uint32_t rises_between(const uint8_t *from, const uint8_t *to, size_t length)
{
    uint32_t count = 0;
    for (size_t i = 0; i < length; i += 8) {
        uint64_t x, y;
        memcpy(&x, from + i, 8);
        memcpy(&y, to + i, 8);
        if (x != y)
            count += (uint32_t)__builtin_popcountll(~x & y);
    }
    return count;
}

/* W8 to W11, each a small number, any number, or the greatest. */
static void choose_w(uint32_t *w)
{
    for (uint32_t i = 0; i < 4; i++) {
        uint32_t pick = below(3);
        w[i] = pick == 0 ? below(64) : pick == 1 ? any() : UINT32_MAX;
    }
}

static unsigned long steps, differences, saturated, changed, kept_above, cleared_above;

/* Whether the emulator clears what lies above a V register, as Arm's manual says. */
static int clears_above;

/* What the machine did above a V register that was not all zero there is counted: kept as it was, or cleared. Where the
 * emulator does not clear it, it cannot decide: then the bytes are taken to be what Arm's manual says. */
static void look_above(uint8_t *z, const uint8_t *before, uint32_t vl, uint32_t destination)
{
    static const uint8_t zeros[MOST_Z / 32];
    size_t above = vl / 8 - 16, at = destination * (vl / 8) + 16;
    if (above > 0 && memcmp(before + at, zeros, above) != 0) {
        kept_above += memcmp(z + at, before + at, above) == 0;
        cleared_above += memcmp(z + at, zeros, above) == 0;
    }
    if (!clears_above)
        memset(z + at, 0, above);
}

static struct {
    uint8_t z[MOST_Z], za[MOST_ZA];
} before, machine, second;

static void compare(struct second_settings *s, uint32_t word, const void *code, uint32_t kind)
{
    size_t z_length = second_z_length(s->vl), za_length = second_za_length(s->vl);
    struct second_fields f;
    struct second_counts counts;
    second_decode(s, word, &f);
    fill(before.z, z_length, kind);
    if (f.family >= SECOND_FAMILY_D) {
        fill(before.za, za_length, below(CONTENTS));
        choose_w(s->w);
    }
    machine = second = before;
    if (f.family >= SECOND_FAMILY_D)
        step_za(machine.z, code, machine.za, s->w);
    else
        step(machine.z, code);
    int refusal = second_execute(s, word, second.z, z_length, second.za, za_length, &counts);
    if (f.family <= SECOND_FAMILY_B)
        look_above(machine.z, before.z, s->vl, f.destination);
    steps++;
    changed += counts.rises + counts.falls != 0;
    uint32_t rises = rises_between(before.z, machine.z, z_length) + rises_between(before.za, machine.za, za_length);
    uint32_t falls = rises_between(machine.z, before.z, z_length) + rises_between(machine.za, before.za, za_length);
    if (refusal != 0 || memcmp(&machine, &second, sizeof machine) != 0 || counts.rises != rises ||
        counts.falls != falls) {
        if (differences++ < 10)
            printf("differs: VL %u word %08X contents %u\n", (unsigned)s->vl, (unsigned)word, (unsigned)kind);
    }
    const uint8_t *d = second.z + f.destination * (s->vl / 8);
    for (uint32_t i = 0, wide = f.lane / 4; f.family == SECOND_FAMILY_C && i < s->vl / 8; i += wide) {
        int top = 1, bottom = 1;
        for (uint32_t j = 0; j < wide; j++) {
            top &= d[i + j] == (j + 1 == wide ? 0x7F : 0xFF);
            bottom &= d[i + j] == (j + 1 == wide ? 0x80 : 0x00);
        }
        saturated += (unsigned long)(top | bottom);
    }
}

/* Each word, with a return behind it. */
static void put_code(uint32_t *code, const uint32_t *given, uint32_t count)
{
    for (uint32_t i = 0; i < count; i++) {
        code[2 * i] = given[i];
        code[2 * i + 1] = RETURN;
    }
    __builtin___clear_cache((char *)code, (char *)(code + 2 * count));
}

/* All words are put in memory first: to write between steps would make the emulator translate anew each time. */
static void run_family(uint32_t vl, uint32_t family, uint32_t times, uint32_t *code)
{
    int za = family >= SECOND_FAMILY_D;
    struct second_settings s = {.vl = vl, .features = za ? 31 : 3, .modes = za ? SECOND_SM | SECOND_ZA : 0};
    unsigned long steps_before = steps, changed_before = changed, saturated_before = saturated;
    if (za)
        make_za_words(family, times);
    else
        make_words(family, times);
    put_code(code, words, word_count);
    for (uint32_t i = 0; i < word_count; i++)
        for (uint32_t kind = 0; kind < CONTENTS; kind++)
            compare(&s, words[i], code + 2 * i, kind);
    printf("VL %u family %c: %u words, %lu steps, %lu changed Z or ZA", (unsigned)vl,
           (char)('A' + family - SECOND_FAMILY_A), (unsigned)word_count, steps - steps_before,
           changed - changed_before);
    if (family == SECOND_FAMILY_C)
        printf(", %lu elements at a clamp", saturated - saturated_before);
    printf("\n");
}

static void set_vl(int call, uint32_t vl)
{
    if ((prctl(call, vl / 8) & PR_SVE_VL_LEN_MASK) != (int)(vl / 8)) {
        printf("the machine has no%s VL of %u\n", call == SET_STREAMING_VL ? " streaming" : "", (unsigned)vl);
        exit(2);
    }
}

/* A word of each lane of A and B, each into register 0, with all ones in Z. Of an emulator that does not clear in all
 * of them nothing above a V register is believed. */
static void probe_above(uint32_t *code)
{
    static const uint32_t probes[] = {0x2F726820, 0x2FB26820, 0x0E228020, 0x0E628020, 0x0EA28020};
    static const uint8_t zeros[16];
    enum { PROBES = sizeof probes / sizeof *probes };
    int cleared = 0;
    set_vl(PR_SVE_SET_VL, 256);
    put_code(code, probes, PROBES);
    for (int i = 0; i < PROBES; i++) {
        memset(machine.z, 0xFF, second_z_length(256));
        step(machine.z, code + 2 * i);
        cleared += memcmp(machine.z + 16, zeros, sizeof zeros) == 0;
    }
    clears_above = cleared == PROBES;
    printf("above a V register: this emulator clears in %d of %d words that were tried: A and B are compared in %s\n",
           cleared, (int)PROBES, clears_above ? "all bytes" : "the V REGISTER ALONE");
}

int main(int argc, char **argv)
{
    uint32_t times = argc > 1 ? (uint32_t)atoi(argv[1]) : 64;
    uint32_t *code = mmap(NULL, MOST_WORDS * 8, PROT_READ | PROT_WRITE | PROT_EXEC, MAP_PRIVATE | MAP_ANONYMOUS, -1, 0);
    unsigned long has = getauxval(AT_HWCAP2);
    int sme2 = (has >> HAS_SME2 & 1) != 0 && (has >> HAS_I16I64 & 1) != 0;
    if (code == MAP_FAILED)
        return 2;
    probe_above(code);
    for (uint32_t vl = 128; vl <= 512; vl *= 2) {
        set_vl(PR_SVE_SET_VL, vl);
        run_family(vl, SECOND_FAMILY_A, times, code);
        run_family(vl, SECOND_FAMILY_B, 4 * times, code);
        run_family(vl, SECOND_FAMILY_C, times, code);
    }
    printf("above a V register: kept %lu times, cleared %lu times\n", kept_above, cleared_above);
    for (uint32_t vl = 128; sme2 && vl <= 512; vl *= 2) {
        set_vl(SET_STREAMING_VL, vl);
        run_family(vl, SECOND_FAMILY_D, times, code);
        run_family(vl, SECOND_FAMILY_E, times, code);
    }
    if (!sme2)
        printf("D and E SKIPPED: this emulator lacks SME2 or its 16-bit lanes (I16I64)\n");
    printf("%lu steps, %lu differences%s%s\n", steps, differences, sme2 ? "" : ", D and E skipped",
           clears_above ? "" : ", nothing compared above a V register");
    return differences == 0 ? 0 : 1;
}
