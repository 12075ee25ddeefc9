/* Decode, encode and partner. */
#include "callinglamp.h"
#include "calls.h"
#include "choices.h"
#include "parts.h"

/* Every word one bit away from a word of each row, under all features. */
static void compare_neighbours(void)
{
    const struct second_settings all = {.vl = 128, .features = 31};
    for (uint32_t row = 0; row < ROWS; row++)
        for (int turn = 0; turn < 16; turn++) {
            uint32_t word = choose_word_of_row(row);
            for (int bit = 0; bit < 32; bit++) {
                compare_decode(&all, word ^ 1u << bit);
                compare_partner(&all, word ^ 1u << bit);
            }
        }
}

static uint32_t *field_at(struct second_fields *f, uint32_t place)
{
    uint32_t *fields[CALLINGLAMP_FIELDS] = {&f->family, &f->is_unsigned, &f->subtract,    &f->lane,
                                            &f->part,   &f->index,       &f->destination, &f->first,
                                            &f->second, &f->group,       &f->select,      &f->offset};
    return fields[place];
}

/* Fields of a word with each field in turn made one of some numbers: all that a field can be, one past it, and numbers
 * whose low bits are those of a field. Family 0 and 6 and unsigned 2 are among them. */
static void compare_fields_in_turn(void)
{
    static const uint32_t numbers[] = {0,  1,  2,  3,  4,  5,  6,  7,  8,  9,  10,  11,  12,       13,       14,
                                       15, 16, 17, 24, 28, 30, 31, 32, 33, 64, 128, 256, 1u << 16, 1u << 31,
                                       UINT32_MAX};
    const struct second_settings all = {.vl = 256, .features = 31};
    for (uint32_t row = 0; row < ROWS; row++)
        for (uint32_t place = 0; place < CALLINGLAMP_FIELDS; place++)
            for (size_t i = 0; i < sizeof numbers / sizeof *numbers; i++) {
                struct second_fields f = choose_fields_of_row(row);
                *field_at(&f, place) = numbers[i];
                compare_encode(&all, &f);
                f = choose_fields_of_row(row);
                *field_at(&f, place) += numbers[i];
                compare_encode(&all, &f);
            }
}

/* A word's fields, one of them that of another word, one with a bit turned, or all of them small numbers. */
static struct second_fields choose_fields(void)
{
    struct second_fields f = choose_fields_of_row(choose(ROWS)), other = choose_fields_of_row(choose(ROWS));
    uint32_t place = choose(CALLINGLAMP_FIELDS), bit = choose(32);
    switch (choose(8)) {
    case 0:
        *field_at(&f, place) = *field_at(&other, place);
        break;
    case 1:
        *field_at(&f, place) ^= 1u << bit;
        break;
    case 2:
        for (place = 0; place < CALLINGLAMP_FIELDS; place++)
            *field_at(&f, place) = choose(place < 3 ? 3 : 33);
        break;
    default:
        break;
    }
    return f;
}

void compare_words(void)
{
    compare_neighbours();
    compare_fields_in_turn();
    for (int i = 0; i < 50000; i++) {
        struct second_settings s = choose_settings();
        struct second_fields f = choose_fields();
        uint32_t word = choose_word();
        compare_decode(&s, word);
        compare_partner(&s, word);
        compare_encode(&s, &f);
    }
}
