/* Request One of document 02: a word's text, and the reader for texts. */
#include "second.h"

#include <stdbool.h>
#include <stdio.h>
#include <string.h>

/* Longer than any text, so that a wrong SECOND_LONGEST_TEXT would show in the self-test and do no harm. */
enum { TEXT_ROOM = 128 };

/* Printing. Each family has one format. */

static char sign_letter(const struct second_fields *f)
{
    return f->is_unsigned ? 'u' : 's';
}

/* smlal adds, smlsl subtracts. */
static char operation_letter(const struct second_fields *f)
{
    return f->subtract ? 's' : 'a';
}

static char element_letter(uint32_t bits)
{
    return bits == 8 ? 'b' : bits == 16 ? 'h' : bits == 32 ? 's' : 'd';
}

/* An arrangement is a number of elements and their letter. The destination is a whole register of 128 bits, and of
 * double width; with the 2, the first source is named as a whole register, and without it as a half of one. So is the
 * second source of B. */
static int put_ab(const struct second_fields *f, char *text)
{
    char sign = sign_letter(f), operation = operation_letter(f);
    char wide = element_letter(2 * f->lane), narrow = element_letter(f->lane);
    unsigned d = f->destination, n = f->first, m = f->second, index = f->index;
    unsigned wides = 128 / (2 * f->lane), narrows = (f->part ? 128 : 64) / f->lane;
    const char *upper = f->part ? "2" : "";
    if (f->family == SECOND_FAMILY_A)
        return snprintf(text, TEXT_ROOM, "%cml%cl%s v%u.%u%c, v%u.%u%c, v%u.%c[%u]", sign, operation, upper, d, wides,
                        wide, n, narrows, narrow, m, narrow, index);
    return snprintf(text, TEXT_ROOM, "%cml%cl%s v%u.%u%c, v%u.%u%c, v%u.%u%c", sign, operation, upper, d, wides, wide,
                    n, narrows, narrow, m, narrows, narrow);
}

static int put_c(const struct second_fields *f, char *text)
{
    char wide = element_letter(2 * f->lane), narrow = element_letter(f->lane);
    unsigned d = f->destination, n = f->first, m = f->second, index = f->index;
    return snprintf(text, TEXT_ROOM, "sqdml%cl%c z%u.%c, z%u.%c, z%u.%c[%u]", operation_letter(f), f->part ? 't' : 'b',
                    d, wide, n, narrow, m, narrow, index);
}

/* The offsets name the k vectors that one group takes: four in D, two in E. */
static int put_de(const struct second_fields *f, bool with_vgx, char *text)
{
    bool is_d = f->family == SECOND_FAMILY_D;
    const char *longer = is_d ? "l" : "";
    const char *vgx = !with_vgx ? "" : f->group == 2 ? ", vgx2" : ", vgx4";
    unsigned k = is_d ? 4 : 2, w = f->select, o = f->offset, n = f->first, m = f->second, more = f->group - 1;
    char wide = element_letter(k * f->lane), narrow = element_letter(f->lane);
    return snprintf(text, TEXT_ROOM, "%cml%cl%s za.%c[w%u, %u:%u%s], { z%u.%c-z%u.%c }, { z%u.%c-z%u.%c }",
                    sign_letter(f), operation_letter(f), longer, wide, w, o, o + k - 1, vgx, n, narrow, n + more,
                    narrow, m, narrow, m + more, narrow);
}

/* The text of a word's fields, and its length. Only D and E have a vgx to leave out. */
static size_t put_text(const struct second_fields *f, bool with_vgx, char *text)
{
    if (f->family <= SECOND_FAMILY_B)
        return (size_t)put_ab(f, text);
    if (f->family == SECOND_FAMILY_C)
        return (size_t)put_c(f, text);
    return (size_t)put_de(f, with_vgx, text);
}

int second_print(const struct second_settings *settings, uint32_t word, char *room, size_t room_len, size_t *length)
{
    struct second_fields f;
    char text[TEXT_ROOM];
    *length = 0;
    int refusal = second_decode(settings, word, &f);
    if (refusal != SECOND_ACCEPTED)
        return refusal;
    size_t text_len = put_text(&f, true, text);
    if (room_len < text_len)
        return SECOND_SHORT_ROOM;
    memcpy(room, text, text_len);
    *length = text_len;
    return SECOND_ACCEPTED;
}

/* Reading. The fields that a text could say are looked for, and nothing else of it is tested. Then the text must be
 * byte for byte what is printed for these fields, with vgx or without. A number that is not found is 0. No more than
 * two digits of one are looked at: a longer one is never printed. */

static bool has(const char *text, const char *part)
{
    return strstr(text, part) != NULL;
}

static uint32_t family_of(const char *text)
{
    if (has(text, "sqd"))
        return SECOND_FAMILY_C;
    if (has(text, "za."))
        return has(text, "ll ") ? SECOND_FAMILY_D : SECOND_FAMILY_E;
    return has(text, "[") ? SECOND_FAMILY_A : SECOND_FAMILY_B;
}

/* The destination's letter stands before the first comma, and is that of the double width. */
static uint32_t lane_before_comma(const char *text)
{
    size_t comma = strcspn(text, ",");
    char wide = comma == 0 ? ' ' : text[comma - 1];
    return wide == 'h' ? 8 : wide == 's' ? 16 : 32;
}

static void hear_abc(const char *text, struct second_fields *f)
{
    unsigned d = 0, n = 0, m = 0, index = 0;
    sscanf(text, "%*s %*c%2u.%*[^,], %*c%2u.%*[^,], %*c%2u.%*c[%1u", &d, &n, &m, &index);
    f->lane = lane_before_comma(text);
    f->part = has(text, "l2 ") || has(text, "lt ");
    f->index = index;
    f->destination = d;
    f->first = n;
    f->second = m;
    f->group = 1;
}

/* The registers say the group, since the vgx may be left out. */
static void hear_de(const char *text, struct second_fields *f)
{
    unsigned w = 0, o = 0, n = 0, last = 0, m = 0;
    sscanf(text, "%*s za.%*c[w%2u, %1u:%*[^]]], { z%2u.%*c-z%2u.%*c }, { z%2u", &w, &o, &n, &last, &m);
    f->lane = f->family == SECOND_FAMILY_E || has(text, "za.d") ? 16 : 8;
    f->first = n;
    f->second = m;
    f->group = last - n + 1;
    f->select = w;
    f->offset = o;
}

static void hear_fields(const char *text, struct second_fields *f)
{
    memset(f, 0, sizeof *f);
    f->family = family_of(text);
    f->is_unsigned = text[0] == 'u';
    f->subtract = has(text, "mls");
    if (f->family <= SECOND_FAMILY_C)
        hear_abc(text, f);
    else
        hear_de(text, f);
}

static bool prints_as(const struct second_fields *f, bool with_vgx, const char *text, size_t text_len)
{
    char printed[TEXT_ROOM];
    return put_text(f, with_vgx, printed) == text_len && memcmp(printed, text, text_len) == 0;
}

/* Whether a text is of the language, and of which word. All features are on: a missing one is looked for later. */
static bool hear(const char *text, size_t text_len, uint32_t *word)
{
    static const struct second_settings all = {.vl = 128, .features = 31};
    struct second_fields f;
    char ended[SECOND_LONGEST_TEXT + 1] = "";
    if (text_len == 0 || text_len > SECOND_LONGEST_TEXT)
        return false;
    memcpy(ended, text, text_len);
    hear_fields(ended, &f);
    return second_encode(&all, &f, word) == SECOND_ACCEPTED &&
           (prints_as(&f, true, text, text_len) || prints_as(&f, false, text, text_len));
}

int second_read(const struct second_settings *settings, const char *text, size_t text_len, uint32_t *word)
{
    struct second_fields f;
    uint32_t heard;
    *word = 0;
    if (second_decode(settings, 0, &f) == SECOND_BAD_SETTINGS)
        return SECOND_BAD_SETTINGS;
    if (!hear(text, text_len, &heard))
        return SECOND_NOT_TEXT;
    int refusal = second_decode(settings, heard, &f);
    if (refusal == SECOND_ACCEPTED)
        *word = heard;
    return refusal;
}
