/* What cases, sweeps and lists are made of: contents made from a kind and a seed, and their ones; and fields, words and
 * settings by choice. README.md says how contents are made. */
#ifndef CHOICES_H
#define CHOICES_H

#include "second.h"

enum { FILL_RANDOM = 0, FILL_MIXED = 9, FILL_KINDS = 10 };

/* One kind more, which is not among those that are taken in turn or by choice. */
enum { FILL_SPARSE = FILL_KINDS };

extern const uint32_t vls[3];

void fill(uint8_t *bytes, size_t length, uint32_t kind, uint32_t seed);

/* How many bits of the bytes are 1, counted bit by bit. */
uint32_t ones_in(const uint8_t *bytes, size_t length);

/* A seed that is not 0 fixes all the choices that follow. */
void start_choosing(uint32_t seed);
uint32_t choose(uint32_t below);
uint32_t choose_any(void);

/* The word of fields that are known to have one. */
uint32_t word_of(const struct second_fields *f);

/* How many registers the second source can name: it has fewer bits in A and C. */
uint32_t second_below(const struct second_fields *f);

/* Registers that the family can name. */
void choose_registers(struct second_fields *f);

/* All but the family, the lane and the sign. */
void choose_rest(struct second_fields *f);

/* Features and modes under which the fields' words run, not always the same ones. */
void choose_permitting(const struct second_fields *f, struct second_settings *s);

#endif
