/* Settings, words and lengths by choice: those that are accepted, and those that are one step away from it. */
#ifndef INPUTS_H
#define INPUTS_H

#include "second.h"

/* The eight rows of document 01's layouts, A to E. */
enum { ROWS = 8 };

/* A word of a row, with random bits where the row has letters. Its size may be reserved. */
uint32_t choose_word_of_row(uint32_t row);

/* A word of a row, one with a bit turned, or random bits. */
uint32_t choose_word(void);

/* Fields of a word of a row whose size is not reserved. */
struct second_fields choose_fields_of_row(uint32_t row);

/* A select register: often near 2^32, and else of any length in bits. */
uint32_t choose_select(void);

/* Settings that are valid, or, one time in eight, perhaps not. */
struct second_settings choose_settings(void);

/* Features and modes made invalid, or one number made strange. Some of these are valid all the same. */
void damage_settings(struct second_settings *s);

/* Another length than a Z or ZA has: one off, 0, that of the other file or of another VL, or any. */
enum { MOST_LENGTH = SECOND_MOST_ZA + 1 };
size_t choose_wrong_length(size_t right);

#endif
