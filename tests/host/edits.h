/* Texts: those of words, and others that are made of them. None is longer than MOST_SHORT. */
#ifndef EDITS_H
#define EDITS_H

#include "calls.h"

struct text {
    size_t length;
    char bytes[MOST_SHORT];
};

/* The second program's text of a word that it knows under all features. */
struct text text_of(uint32_t word);

/* The text of a constant. */
struct text text_from(const char *constant);

/* A text with the bytes `from` up to `to` replaced. What does not fit is left off its end. */
struct text replaced(const struct text *t, size_t from, size_t to, const char *with, size_t length);

struct text joined(const struct text *first, const struct text *then);

/* Without ", vgx2" or ", vgx4": as it is where it has none. */
struct text without_group(const struct text *t);

/* With each space replaced. */
struct text respaced(const struct text *t, const char *with);

struct text in_capitals(const struct text *t);

int is_same_text(const struct text *a, const struct text *b);

/* A run of digits of a text, counted from 0. `from` is the text's length where there are not so many. */
struct number {
    size_t from, to;
    uint32_t value;
};

struct number number_at(const struct text *t, uint32_t which);

/* A byte of those that texts are made of. */
char choose_letter(void);

#endif
