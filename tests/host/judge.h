/* What a call is lent, twice, and the judgement of a call that both sides have answered. */
#ifndef JUDGE_H
#define JUDGE_H

#include <stddef.h>
#include <stdint.h>

/* Memory that is lent to one argument of a call: one piece of it to the library, another to the second program. What
 * is lent lies between guard bytes, and both pieces are alike from end to end before a call and must be so after it. */
struct room {
    const char *name;
    size_t unit;          /* bytes of an element: 1, or 4 for numbers */
    size_t size;          /* of a piece, guards included */
    size_t start, length; /* of what is lent now, in bytes */
    uint8_t *before, *library, *second;
};

/* Room for at most so many elements. */
struct room make_room(const char *name, size_t unit, size_t most);

/* Lends elements with these contents, or with random ones. Where they start changes from call to call. */
void lend(struct room *room, const void *contents, size_t count);
void lend_random(struct room *room, size_t count);

/* What was lent. */
const uint8_t *bytes_before(const struct room *room);

/* What is lent to the library. */
uint8_t *bytes_of(const struct room *room);
uint32_t *numbers_of(const struct room *room);

/* What is lent to the second program, or what it says must stand there. */
uint8_t *due_bytes(const struct room *room);
uint32_t *due_numbers(const struct room *room);

enum which { DECODE, ENCODE, PARTNER, EXECUTE, PERCENT, RUN, PRINT, READ, CALLS };

struct call {
    enum which which;
    struct {
        const char *name;
        uint32_t number;
    } given[2];                 /* arguments that are numbers, up to the first with no name */
    const struct room *lent[6]; /* up to the first NULL */
    uint64_t answer, due;       /* the library's, and what the second program says it must be */
};

/* The answer that a refusal number and a value make. */
uint64_t answer_of(int refusal, uint64_t value);

/* Counts the call. Where the library differs from the second program, in its answer or in any byte, or has changed
 * something in a refused call, it prints all of the call and ends the program with 1. */
void judge(const struct call *call);

/* Prints all of a call that was judged, and which law it breaks though the two sides are alike, and ends the program
 * with 1. */
void breaks_law(const struct call *call, const char *law);

/* How many calls of a kind were judged. */
unsigned long count_of(enum which which);

/* Prints how many calls were compared, accepted, and refused with each number. Returns 0 where they are too few. */
int print_summary(void);

#endif
