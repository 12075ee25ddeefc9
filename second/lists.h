/* Run lists of every kind, good and bad, for the list program and the C interface to be held to. README.md says what the
 * kinds are. */
#ifndef LISTS_H
#define LISTS_H

#include <stddef.h>
#include <stdint.h>

enum { MOST_MADE = 70000 };

struct list {
    uint8_t bytes[MOST_MADE];
    size_t length;
};

/* Puts a number, in its shortest form, at the list's end. */
void put_number(struct list *list, uint32_t number);

/* Takes one list and the name of its kind. The list is lent until the call returns. */
typedef void take_list(void *context, const char *kind, const struct list *list);

/* Makes all lists, kind after kind: the same ones in the same order at each call with the same seed, which is not 0.
 * With another seed their words and contents are others. */
enum { LISTS_SEED = 20011001 };
void make_lists(uint32_t seed, take_list *take, void *context);

#endif
