#include "judge.h"

#include "callinglamp.h"
#include "choices.h"

#include <stdio.h>
#include <stdlib.h>
#include <string.h>

/* Rooms */

/* `start` is at least GUARD, and less than this many bytes after it. */
enum { GUARD = 64, SHIFTS = 16 };

static uint8_t *make_piece(size_t size)
{
    uint8_t *piece = malloc(size);
    if (piece == NULL) {
        fprintf(stderr, "compare: no memory\n");
        exit(2);
    }
    fill(piece, size, FILL_RANDOM, 1);
    return piece;
}

struct room make_room(const char *name, size_t unit, size_t most)
{
    struct room room = {.name = name, .unit = unit, .size = unit * most + 2 * GUARD + SHIFTS};
    room.before = make_piece(room.size);
    room.library = make_piece(room.size);
    room.second = make_piece(room.size);
    return room;
}

/* What lay there before stays, as guard bytes: it is the same in both pieces, since the call before was judged. */
static void choose_place(struct room *room, size_t count)
{
    room->start = GUARD + room->unit * choose((uint32_t)(SHIFTS / room->unit));
    room->length = room->unit * count;
    if (room->start + room->length + GUARD > room->size) {
        fprintf(stderr, "compare: no room for %zu elements of %s\n", count, room->name);
        exit(2);
    }
}

static void copy_before(const struct room *room)
{
    memcpy(room->library + room->start, room->before + room->start, room->length);
    memcpy(room->second + room->start, room->before + room->start, room->length);
}

void lend(struct room *room, const void *contents, size_t count)
{
    choose_place(room, count);
    memcpy(room->before + room->start, contents, room->length);
    copy_before(room);
}

void lend_random(struct room *room, size_t count)
{
    choose_place(room, count);
    fill(room->before + room->start, room->length, FILL_RANDOM, choose_any());
    copy_before(room);
}

const uint8_t *bytes_before(const struct room *room)
{
    return room->before + room->start;
}

uint8_t *bytes_of(const struct room *room)
{
    return room->library + room->start;
}

uint32_t *numbers_of(const struct room *room)
{
    return (uint32_t *)(void *)bytes_of(room);
}

uint8_t *due_bytes(const struct room *room)
{
    return room->second + room->start;
}

uint32_t *due_numbers(const struct room *room)
{
    return (uint32_t *)(void *)due_bytes(room);
}

/* Counts */

enum { NUMBERS = 13, LEAST_CALLS = 100000 };

static const struct {
    const char *name;
    unsigned refusals; /* each number that the call can give is a bit */
} calls[CALLS] = {
    [DECODE] = {"decode", 1u << 1 | 1u << 3},
    [ENCODE] = {"encode", 1u << 1 | 1u << 3 | 1u << 5},
    [PARTNER] = {"partner", 1u << 1 | 1u << 3 | 1u << 6},
    [EXECUTE] = {"execute", 1u << 1 | 1u << 2 | 1u << 3 | 1u << 4},
    [PERCENT] = {"percent", 0},
    [RUN] = {"run", 1u << 1 | 1u << 2 | 1u << 7 | 1u << 8 | 1u << 9 | 1u << 10},
    [PRINT] = {"print", 1u << 1 | 1u << 3 | 1u << 12},
    [READ] = {"read", 1u << 1 | 1u << 3 | 1u << 11},
};

static unsigned long counts[CALLS][NUMBERS];

static uint32_t refusal_of(const struct call *call)
{
    return call->which == PERCENT ? 0 : callinglamp_refusal(call->due);
}

unsigned long count_of(enum which which)
{
    unsigned long sum = 0;
    for (int number = 0; number < NUMBERS; number++)
        sum += counts[which][number];
    return sum;
}

static int count_is_enough(enum which which, int number)
{
    int is_due = number == 0 || (calls[which].refusals >> number & 1) != 0;
    return !is_due || counts[which][number] > 0;
}

int print_summary(void)
{
    unsigned long all = 0;
    int enough = 1;
    printf("call     compared accepted  refused with");
    for (int number = 1; number < NUMBERS; number++)
        printf(number == 1 ? " %d" : " %7d", number);
    printf("\n");
    for (int which = 0; which < CALLS; which++) {
        printf("%-8s %8lu %8lu", calls[which].name, count_of(which), counts[which][0]);
        for (int number = 1; number < NUMBERS; number++)
            printf(number == 1 ? "%15lu" : "%8lu", counts[which][number]);
        printf("\n");
        for (int number = 0; number < NUMBERS; number++)
            if (!count_is_enough(which, number)) {
                printf("%s never answered %d\n", calls[which].name, number);
                enough = 0;
            }
        all += count_of(which);
    }
    printf("%lu calls, all alike to the last byte\n", all);
    if (all < LEAST_CALLS)
        printf("that is fewer than %d\n", LEAST_CALLS);
    return enough && all >= LEAST_CALLS;
}

/* Judgement */

uint64_t answer_of(int refusal, uint64_t value)
{
    return (uint64_t)refusal + (value << 32);
}

static int is_alike(const struct room *room)
{
    return memcmp(room->library, room->second, room->size) == 0;
}

static int is_kept(const struct room *room)
{
    return memcmp(bytes_of(room), bytes_before(room), room->length) == 0;
}

static int is_good(const struct call *call)
{
    if (call->answer != call->due)
        return 0;
    for (const struct room *const *room = call->lent; *room != NULL; room++)
        if (!is_alike(*room) || (refusal_of(call) != 0 && !is_kept(*room)))
            return 0;
    return 1;
}

static void print_contents(const char *what, const struct room *room, const uint8_t *piece)
{
    const uint8_t *lent = piece + room->start;
    printf("%s %s, %zu elements:", room->name, what, room->length / room->unit);
    for (size_t i = 0; i < room->length; i += room->unit) {
        uint32_t number = lent[i];
        if (room->unit == 4)
            memcpy(&number, lent + i, 4);
        printf(i / room->unit % 32 == 0 ? "\n  %0*X" : " %0*X", (int)(2 * room->unit), (unsigned)number);
    }
    printf("\n");
}

/* The first byte that differs may be a guard byte: it is then below 0, or not below the length. */
static void print_first_difference(const struct room *room)
{
    size_t at = 0;
    while (room->library[at] == room->second[at])
        at++;
    printf("%s differs first at byte %ld of %zu: %02X from the library, %02X from the second program\n", room->name,
           (long)at - (long)room->start, room->length, room->library[at], room->second[at]);
}

static void print_room(const struct room *room)
{
    print_contents("before", room, room->before);
    if (!is_alike(room)) {
        print_contents("from the library", room, room->library);
        print_contents("from the second program", room, room->second);
        print_first_difference(room);
    } else if (!is_kept(room))
        print_contents("from both", room, room->library);
}

/* A text, with a point for each byte that is none of ASCII's signs. */
static void print_signs(const struct room *room)
{
    printf("%s: \"", room->name);
    for (size_t i = 0; i < room->length; i++) {
        uint8_t byte = room->before[room->start + i];
        putchar(byte >= 0x20 && byte < 0x7F ? byte : '.');
    }
    printf("\"\n");
}

static void print_call(const struct call *call, const char *fault)
{
    printf("call %lu of callinglamp_%s: %s\n", count_of(call->which), calls[call->which].name, fault);
    for (size_t i = 0; i < 2 && call->given[i].name != NULL; i++)
        printf("%s %08X\n", call->given[i].name, (unsigned)call->given[i].number);
    for (const struct room *const *room = call->lent; *room != NULL; room++)
        print_room(*room);
    if (call->which == READ)
        print_signs(call->lent[1]);
    printf("answer of the library %016llX, of the second program %016llX%s\n", (unsigned long long)call->answer,
           (unsigned long long)call->due, refusal_of(call) != 0 ? ": refused, so nothing may change" : "");
}

void judge(const struct call *call)
{
    counts[call->which][refusal_of(call)]++;
    if (is_good(call))
        return;
    print_call(call, "the library is not as the second program says");
    exit(1);
}

void breaks_law(const struct call *call, const char *law)
{
    print_call(call, law);
    exit(1);
}
