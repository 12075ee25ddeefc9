#include "damages.h"

#include "callinglamp.h"
#include "choices.h"

#include <stdio.h>
#include <string.h>

static const struct second_settings all = {.vl = 128, .features = 31};

uint64_t compare_text(const struct second_settings *s, const struct text *t)
{
    return compare_read(s, t->bytes, t->length, t->length);
}

void compare_anyhow(const struct text *t)
{
    struct second_settings s = choose_settings();
    compare_text(&s, t);
}

/* A byte */

static void compare_change(const struct text *t, size_t from, size_t to, const char *with, size_t length)
{
    struct text changed = replaced(t, from, to, with, length);
    compare_anyhow(&changed);
}

/* A place of the text, or its end. */
static void compare_place(const struct text *t, size_t at)
{
    char letter = choose_letter(), any = (char)choose(256);
    compare_change(t, at, at, &letter, 1);
    compare_change(t, at, at, &any, 1);
    compare_change(t, at, at, " ", 1);
    compare_read(&all, t->bytes, at, t->length); /* cut, with the rest behind it */
    if (at == t->length)
        return;
    char here = t->bytes[at], other_case = (char)(here ^ 0x20), turned = (char)(here ^ 1 << choose(8));
    compare_change(t, at, at, &here, 1);
    compare_change(t, at, at + 1, "", 0);
    compare_change(t, at, at + 1, &letter, 1);
    compare_change(t, at, at + 1, &any, 1);
    compare_change(t, at, at + 1, &other_case, 1);
    compare_change(t, at, at + 1, &turned, 1);
}

void compare_places(const struct text *t)
{
    for (size_t at = 0; at <= t->length; at++)
        compare_place(t, at);
}

/* All of it */

void compare_whole(const struct text *t)
{
    static const char *const spaces[] = {"", "  ", "\t", "\n", "_"};
    static const char *const others[] = {" ", "\n", "\r\n", ";", ",", ", ", "0", " // c", "\xEF\xBB\xBF"};
    for (size_t i = 0; i < sizeof spaces / sizeof *spaces; i++) {
        struct text changed = respaced(t, spaces[i]);
        compare_anyhow(&changed);
    }
    for (size_t i = 0; i < sizeof others / sizeof *others; i++) {
        compare_change(t, 0, 0, others[i], strlen(others[i]));
        compare_change(t, t->length, t->length, others[i], strlen(others[i]));
    }
    compare_change(t, t->length, t->length, "", 1); /* NUL */
    struct text capitals = in_capitals(t), twice = joined(t, t);
    compare_anyhow(&capitals);
    compare_anyhow(&twice);
}

/* Numbers */

/* Under all features, so that a number out of range is refused for itself. */
static void compare_instead(const struct text *t, size_t from, size_t to, const char *with)
{
    struct text changed = replaced(t, from, to, with, strlen(with));
    compare_text(&all, &changed);
}

static void compare_other_numbers(const struct text *t, const struct number *n)
{
    static const int shifts[] = {5, 6, 7, 8, 16, 31, 32, 63};
    char with[24];
    for (uint32_t value = 0; value <= 40; value++) {
        snprintf(with, sizeof with, "%u", (unsigned)value);
        compare_instead(t, n->from, n->to, with);
    }
    /* those whose low bits are the number's */
    for (size_t i = 0; i < sizeof shifts / sizeof *shifts; i++) {
        snprintf(with, sizeof with, "%llu", (1ull << shifts[i]) + n->value);
        compare_instead(t, n->from, n->to, with);
    }
    snprintf(with, sizeof with, "184467440737095516%02u", (unsigned)(16 + n->value)); /* 2^64 */
    compare_instead(t, n->from, n->to, with);
}

static void compare_other_forms(const struct text *t, const struct number *n)
{
    static const char *const before[] = {"0", "00", "000000000000000000000000", "-", "+", " ", "0x", "#"};
    static const char *const after[] = {"0", "00", " ", ".", "u", "-"};
    for (size_t i = 0; i < sizeof before / sizeof *before; i++)
        compare_instead(t, n->from, n->from, before[i]);
    for (size_t i = 0; i < sizeof after / sizeof *after; i++)
        compare_instead(t, n->to, n->to, after[i]);
}

/* A number and the next one raised alike: the two of a group, or of the offsets, still fit each other. */
static void compare_raised(const struct text *t, const struct number *n, const struct number *next)
{
    static const uint32_t steps[] = {1, 2, 3, 4, 5, 6, 7, 8, 16, 28, 30, 31, 32};
    char with[24];
    for (size_t i = 0; i < sizeof steps / sizeof *steps; i++)
        for (int round = 0; round < 2; round++) {
            uint32_t below = round == 0 ? UINT32_MAX : 32;
            snprintf(with, sizeof with, "%u", (unsigned)((next->value + steps[i]) % below));
            struct text raised = replaced(t, next->from, next->to, with, strlen(with));
            snprintf(with, sizeof with, "%u", (unsigned)((n->value + steps[i]) % below));
            compare_instead(&raised, n->from, n->to, with);
        }
}

void compare_numbers(const struct text *t)
{
    struct number n = number_at(t, 0);
    for (uint32_t which = 1; n.from < t->length; which++) {
        struct number next = number_at(t, which);
        compare_other_numbers(t, &n);
        compare_other_forms(t, &n);
        if (next.from < t->length)
            compare_raised(t, &n, &next);
        n = next;
    }
}

/* Of two texts, or of none */

/* Where a text can be parted: before a comma, or anywhere. */
static size_t choose_part(const struct text *t)
{
    size_t at = choose((uint32_t)t->length + 1);
    if (choose(4) != 0)
        while (at < t->length && t->bytes[at] != ',')
            at++;
    return at;
}

static uint32_t choose_known_word(void)
{
    struct second_fields f = choose_fields_of_row(choose(ROWS));
    return word_of(&f);
}

void compare_crossed(void)
{
    for (int i = 0; i < 20000; i++) {
        struct text one = text_of(choose_known_word()), other = text_of(choose_known_word());
        size_t from = choose_part(&one), to = choose_part(&other);
        struct text crossed = replaced(&other, 0, to, one.bytes, from);
        compare_anyhow(&crossed);
    }
}

void compare_random(void)
{
    for (int i = 0; i < 20000; i++) {
        struct text t = {.length = choose(choose(8) == 0 ? MOST_SHORT + 1 : CALLINGLAMP_LONGEST_TEXT + 20)};
        int any = choose(2) == 0;
        for (size_t at = 0; at < t.length; at++)
            t.bytes[at] = any ? (char)choose(256) : choose_letter();
        compare_anyhow(&t);
    }
}

/* Long texts */

/* A text with one byte, so often as it has room for, in place of those from `from` to `to`. */
static void compare_long(const struct text *t, size_t from, size_t to, char byte)
{
    static char bytes[MOST_TEXT];
    size_t end = MOST_TEXT - (t->length - to);
    memcpy(bytes, t->bytes, from);
    memset(bytes + from, byte, end - from);
    memcpy(bytes + end, t->bytes + to, t->length - to);
    compare_read(&all, bytes, MOST_TEXT, MOST_TEXT);
    compare_read(&all, bytes, MOST_TEXT - choose(MOST_TEXT), MOST_TEXT);
}

void compare_long_texts(void)
{
    for (uint32_t row = 0; row < ROWS; row++) {
        struct second_fields f = choose_fields_of_row(row);
        struct text t = text_of(word_of(&f));
        struct number n = number_at(&t, 0);
        for (uint32_t which = 1; n.from < t.length; n = number_at(&t, which++)) {
            compare_long(&t, n.from, n.from, '0');
            compare_long(&t, n.from, n.to, '9');
            compare_long(&t, n.from, n.to, '1');
        }
        for (int i = 0; i < 3; i++) {
            compare_long(&t, 0, 0, " s{"[i]);
            compare_long(&t, t.length, t.length, " 0}"[i]);
        }
    }
}
