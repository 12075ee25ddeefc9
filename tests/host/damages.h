/* Reads of texts that are one step away from a text of the language, or far from any. */
#ifndef DAMAGES_H
#define DAMAGES_H

#include "edits.h"

/* A read of all of a text. The library's answer. */
uint64_t compare_text(const struct second_settings *s, const struct text *t);

/* The same under settings by choice: where they are refused, or lack a feature, the order of the tests shows. */
void compare_anyhow(const struct text *t);

/* At each place of the text: a byte changed, dropped or added, and the text cut. */
void compare_places(const struct text *t);

/* Other spaces, capitals, and more before or behind the text. */
void compare_whole(const struct text *t);

/* Each number of the text made another one, in range or not, or written otherwise. */
void compare_numbers(const struct text *t);

/* The start of one text and the end of another, and random bytes. */
void compare_crossed(void);
void compare_random(void);

/* Texts of MOST_TEXT bytes: each number with zeros before it, or made of nines or ones, and more at both ends. */
void compare_long_texts(void);

#endif
