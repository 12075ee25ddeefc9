#include "calls.h"

#include "balance.h"
#include "callinglamp.h"
#include "choices.h"
#include "judge.h"
#include "upper.h"

#include <string.h>

/* The structs of the second program have nothing but their numbers, in the order of the C interface. */
_Static_assert(sizeof(struct second_settings) == CALLINGLAMP_SETTINGS * sizeof(uint32_t), "settings are 7 numbers");
_Static_assert(sizeof(struct second_fields) == CALLINGLAMP_FIELDS * sizeof(uint32_t), "fields are 12 numbers");

static struct room settings_room, fields_room, z_room, za_room, counts_room, short_room, long_room;

void make_rooms(void)
{
    settings_room = make_room("settings", sizeof(uint32_t), CALLINGLAMP_SETTINGS);
    fields_room = make_room("fields", sizeof(uint32_t), CALLINGLAMP_FIELDS);
    z_room = make_room("z", 1, MOST_LENGTH);
    za_room = make_room("za", 1, MOST_LENGTH);
    counts_room = make_room("counts", sizeof(uint32_t), CALLINGLAMP_COUNTS);
    short_room = make_room("text", 1, MOST_SHORT);
    long_room = make_room("text", 1, MOST_TEXT);
}

void compare_decode(const struct second_settings *s, uint32_t word)
{
    struct second_fields f;
    lend(&settings_room, s, CALLINGLAMP_SETTINGS);
    lend_random(&fields_room, CALLINGLAMP_FIELDS);
    struct call call = {DECODE, {{"word", word}}, {&settings_room, &fields_room}, 0, 0};
    int refusal = second_decode(s, word, &f);
    if (refusal == SECOND_ACCEPTED)
        memcpy(due_bytes(&fields_room), &f, sizeof f);
    call.due = answer_of(refusal, 0);
    call.answer = callinglamp_decode(numbers_of(&settings_room), word, numbers_of(&fields_room));
    judge(&call);
}

void compare_encode(const struct second_settings *s, const struct second_fields *f)
{
    uint32_t word;
    lend(&settings_room, s, CALLINGLAMP_SETTINGS);
    lend(&fields_room, f, CALLINGLAMP_FIELDS);
    struct call call = {ENCODE, {{NULL, 0}}, {&settings_room, &fields_room}, 0, 0};
    int refusal = second_encode(s, f, &word);
    call.due = answer_of(refusal, word);
    call.answer = callinglamp_encode(numbers_of(&settings_room), numbers_of(&fields_room));
    judge(&call);
}

uint64_t compare_partner(const struct second_settings *s, uint32_t word)
{
    uint32_t partner;
    lend(&settings_room, s, CALLINGLAMP_SETTINGS);
    struct call call = {PARTNER, {{"word", word}}, {&settings_room}, 0, 0};
    int refusal = second_partner(s, word, &partner);
    call.due = answer_of(refusal, partner);
    call.answer = callinglamp_partner(numbers_of(&settings_room), word);
    judge(&call);
    return call.answer;
}

static void lend_execution(const struct execution *e)
{
    lend(&settings_room, &e->s, CALLINGLAMP_SETTINGS);
    lend(&z_room, e->z, e->z_length);
    lend(&za_room, e->za, e->za_length);
    lend_random(&counts_room, CALLINGLAMP_COUNTS);
}

static void take_back(struct execution *e)
{
    memcpy(e->z, bytes_of(&z_room), e->z_length);
    memcpy(e->za, bytes_of(&za_room), e->za_length);
    memcpy(e->counts, numbers_of(&counts_room), sizeof e->counts);
}

uint32_t compare_execute(struct execution *e)
{
    struct second_counts c;
    lend_execution(e);
    struct call call = {EXECUTE, {{"word", e->word}}, {&settings_room, &z_room, &za_room, &counts_room}, 0, 0};
    int refusal = second_execute(&e->s, e->word, due_bytes(&z_room), e->z_length, due_bytes(&za_room), e->za_length,
                                 &c);
    if (refusal == SECOND_ACCEPTED) {
        due_numbers(&counts_room)[0] = c.rises;
        due_numbers(&counts_room)[1] = c.falls;
        due_numbers(&counts_room)[2] = c.written;
    }
    call.due = answer_of(refusal, 0);
    call.answer = callinglamp_execute(numbers_of(&settings_room), e->word, bytes_of(&z_room), e->z_length,
                                      bytes_of(&za_room), e->za_length, numbers_of(&counts_room));
    judge(&call);
    weigh_execution(&call, &z_room, &za_room, numbers_of(&counts_room));
    look_above(&call, e->s.vl, e->word, &z_room, numbers_of(&counts_room));
    take_back(e);
    return callinglamp_refusal(call.answer);
}

void compare_case(const struct one_case *c)
{
    static struct execution e;
    e.s = c->s;
    e.word = c->word;
    e.z_length = c->z.length;
    e.za_length = c->za.length;
    fill(e.z, e.z_length, c->z.kind, c->z.seed);
    fill(e.za, e.za_length, c->za.kind, c->za.seed);
    compare_execute(&e);
}

void compare_print(const struct second_settings *s, uint32_t word, size_t room_length)
{
    size_t length;
    lend(&settings_room, s, CALLINGLAMP_SETTINGS);
    lend_random(&short_room, room_length);
    struct call call = {PRINT, {{"word", word}}, {&settings_room, &short_room}, 0, 0};
    int refusal = second_print(s, word, (char *)due_bytes(&short_room), room_length, &length);
    call.due = answer_of(refusal, length);
    call.answer = callinglamp_print(numbers_of(&settings_room), word, (char *)bytes_of(&short_room), room_length);
    judge(&call);
}

/* The whole of a room is judged, so that a short text is lent in a short one. */
uint64_t compare_read(const struct second_settings *s, const char *text, size_t length, size_t lent)
{
    struct room *room = lent <= MOST_SHORT ? &short_room : &long_room;
    uint32_t word;
    lend(&settings_room, s, CALLINGLAMP_SETTINGS);
    lend(room, text, lent);
    struct call call = {READ, {{"length", (uint32_t)length}}, {&settings_room, room}, 0, 0};
    int refusal = second_read(s, (const char *)due_bytes(room), length, &word);
    call.due = answer_of(refusal, word);
    call.answer = callinglamp_read(numbers_of(&settings_room), (const char *)bytes_of(room), length);
    judge(&call);
    return call.answer;
}

void compare_percent(uint32_t toggled, uint32_t written)
{
    struct call call = {PERCENT, {{"toggled", toggled}, {"written", written}}, {NULL}, 0, 0};
    call.due = second_percent(toggled, written);
    call.answer = callinglamp_percent(toggled, written);
    judge(&call);
}
