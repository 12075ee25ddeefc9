/* What is timed: words of one kind or of several, the registers that they start on, lists of them and their texts. */
#ifndef WORK_H
#define WORK_H

#include "second.h"

enum {
    KINDS = 13,
    STARTS = 8, /* so many different contents of Z and ZA, taken in turn, so that no branch learns one of them */
    MOST_LIST = 7 * 5 + SECOND_MOST_Z + 5 + 5 * SECOND_MOST_WORDS,
    TEXT_ROOM = 64 /* more than the longest text needs, so that no two share a cache line */
};

/* A family with a lane size and a group. */
struct kind {
    const char *name;
    uint32_t family, lane, group;
};

extern const struct kind kinds[KINDS];

/* The library takes settings and fields as numbers, the second program as structs of the same numbers in order. */
union settings {
    uint32_t numbers[7];
    struct second_settings named;
};

union fields {
    uint32_t numbers[12];
    struct second_fields named;
};

struct registers {
    _Alignas(64) uint8_t z[SECOND_MOST_Z];
    _Alignas(64) uint8_t za[SECOND_MOST_ZA];
};

struct work {
    union settings settings;
    size_t z_length, za_length;
    struct registers starts[STARTS];
    uint32_t count;
    uint32_t words[SECOND_MOST_WORDS];
    union fields fields[SECOND_MOST_WORDS];
    uint8_t list[MOST_LIST];
    size_t list_length;
    _Alignas(64) char texts[SECOND_MOST_WORDS][TEXT_ROOM];
    size_t text_lengths[SECOND_MOST_WORDS];
};

/* `count` words that all differ, of the `kinds_given` kinds from `first` on in turn, with random registers. The modes
 * are those that permit `first`. The same arguments make the same work. */
void make_work(struct work *work, uint32_t vl, const struct kind *first, size_t kinds_given, uint32_t count);

/* In place of the words: such as no layout matches. */
void make_unknown_words(struct work *work);

/* The list of the settings, the first start's Z and the first `count` words. */
void make_list(struct work *work, uint32_t count);

/* The words' texts. Of each kind that has a vgx every other one is without it. */
void make_texts(struct work *work);

/* The bytes of Z and ZA that a word of this kind reads and writes. */
uint32_t bytes_moved(const struct kind *kind, uint32_t vl);

#endif
