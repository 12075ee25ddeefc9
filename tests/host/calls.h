/* One call of one kind, made on both sides with the same arguments, and judged. The other files choose what is given. */
#ifndef CALLS_H
#define CALLS_H

#include "cases.h"
#include "inputs.h"

/* The rooms that the calls below lend. */
void make_rooms(void);

void compare_decode(const struct second_settings *s, uint32_t word);
void compare_encode(const struct second_settings *s, const struct second_fields *f);
void compare_percent(uint32_t toggled, uint32_t written);

/* The library's answer: the refusal number, and above it the partner. */
uint64_t compare_partner(const struct second_settings *s, uint32_t word);

/* What an execution is given. Z, ZA and the counts become what the library leaves in them. */
struct execution {
    struct second_settings s;
    uint32_t word;
    size_t z_length, za_length;
    uint8_t z[MOST_LENGTH], za[MOST_LENGTH];
    uint32_t counts[3]; /* rises, falls, written */
};

/* The refusal number, or 0. The balance is tested too, and what A and B leave above a V register. */
uint32_t compare_execute(struct execution *e);

/* A print into a room of this length: 0 to MOST_SHORT. Beyond its text the room must stay, as beyond itself. */
enum { MOST_SHORT = 256, MOST_TEXT = 70000 };
void compare_print(const struct second_settings *s, uint32_t word, size_t room_length);

/* A read of the first `length` of `lent` bytes: what lies behind them is not of the text. The library's answer: the
 * refusal number, and above it the word. */
uint64_t compare_read(const struct second_settings *s, const char *text, size_t length, size_t lent);

/* The execution that a case says. */
void compare_case(const struct one_case *c);

#endif
