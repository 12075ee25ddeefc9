#include "inputs.h"

#include "choices.h"

/* Words */

static const char *const rows[ROWS] = {
    "0 Q U 01111 ss L M mmmm 0 S 1 0 H 0 nnnnn ddddd",
    "0 Q U 01110 ss 1 mmmmm 1 0 S 0 0 0 nnnnn ddddd",
    "01000100 10 1 ii mmm 001 S i T nnnnn ddddd",
    "01000100 11 1 i mmmm 001 S i T nnnnn ddddd",
    "110000011 z 1 mmmm 0 0 vv 000 nnnn 0 U S 0 0 o",
    "110000011 z 1 mmm 0 1 0 vv 000 nnn 0 0 U S 0 0 o",
    "110000011 1 1 mmmm 0 0 vv 010 nnnn 0 U S 0 oo",
    "110000011 1 1 mmm 0 1 0 vv 010 nnn 0 0 U S 0 oo",
};

uint32_t choose_word_of_row(uint32_t row)
{
    uint32_t word = 0, letters = choose_any();
    for (const char *c = rows[row]; *c != '\0'; c++) {
        if (*c == ' ')
            continue;
        uint32_t bit = *c == '0' ? 0 : *c == '1' ? 1 : letters % 2;
        letters = letters >> 1 | letters << 31;
        word = word << 1 | bit;
    }
    return word;
}

uint32_t choose_word(void)
{
    uint32_t word = choose_word_of_row(choose(ROWS));
    switch (choose(8)) {
    case 0:
        return choose_any();
    case 1:
    case 2:
        return word ^ 1u << choose(32);
    default:
        return word;
    }
}

struct second_fields choose_fields_of_row(uint32_t row)
{
    static const struct second_settings all = {.vl = 128, .features = 31};
    struct second_fields f;
    while (second_decode(&all, choose_word_of_row(row), &f) != SECOND_ACCEPTED)
        ;
    return f;
}

/* Settings */

uint32_t choose_select(void)
{
    uint32_t shift = choose(32);
    return choose(4) == 0 ? UINT32_MAX - choose(8) : choose_any() >> shift;
}

static int is_valid(const struct second_settings *s)
{
    struct second_fields f;
    return second_decode(s, 0, &f) != SECOND_BAD_SETTINGS;
}

struct second_settings choose_settings(void)
{
    struct second_settings s = {.vl = vls[choose(3)]};
    for (int i = 0; i < 4; i++)
        s.w[i] = choose_select();
    do {
        s.features = choose(2) == 0 ? 31 : choose(32);
        s.modes = choose(4);
    } while (!is_valid(&s));
    if (choose(8) == 0)
        damage_settings(&s);
    return s;
}

void damage_settings(struct second_settings *s)
{
    static const uint32_t lengths[] = {0, 1, 64, 127, 129, 192, 255, 257, 384, 511, 513, 640, 1024, UINT32_MAX};
    uint32_t bit = choose(32);
    switch (choose(5)) {
    case 0:
        s->vl = lengths[choose(sizeof lengths / sizeof *lengths)];
        break;
    case 1:
        s->vl ^= 1u << bit;
        break;
    case 2:
        s->features ^= 1u << bit;
        break;
    case 3:
        s->modes ^= 1u << bit;
        break;
    default:
        s->features = choose(32);
        s->modes = choose(4);
        break;
    }
}

/* Lengths */

static size_t choose_length(size_t near)
{
    switch (choose(6)) {
    case 0:
        return near + 1;
    case 1:
        return near - 1;
    case 2:
        return 0;
    case 3:
        return second_z_length(vls[choose(3)]);
    case 4:
        return second_za_length(vls[choose(3)]);
    default:
        return choose(MOST_LENGTH + 1);
    }
}

size_t choose_wrong_length(size_t right)
{
    size_t length;
    do
        length = choose_length(right);
    while (length == right);
    return length;
}
