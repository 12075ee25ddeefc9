/* Lines for `spell`: words in hexadecimal and texts, good and bad. README.md says what the kinds are. */
#ifndef SPELLINGS_H
#define SPELLINGS_H

#include <stddef.h>
#include <stdint.h>

enum { MOST_SPELLING = 100000 };

/* Takes one line, without its end; no byte of it is a line end. It is lent until the call returns. */
typedef void take_spelling(void *context, const char *line, size_t length);

/* Makes `count` lines, at least 1: the same ones in the same order at each call with the same seed, which is not 0. The
 * last one is not empty. With another seed the words and the changes are others. */
enum { SPELLINGS_SEED = 20021101, SPELLINGS = 3000 };
void make_spellings(uint32_t seed, unsigned long count, take_spelling *take, void *context);

#endif
