/* Run. */
#include "balance.h"
#include "callinglamp.h"
#include "choices.h"
#include "inputs.h"
#include "judge.h"
#include "lists.h"
#include "parts.h"

#include <stdio.h>
#include <stdlib.h>

/* More numbers than a report of the longest list has: the rest must stay. */
enum { MOST_REPORT = CALLINGLAMP_PER_WORD * CALLINGLAMP_MOST_WORDS + 40, LEAST_ACCEPTED = 1000 };

static struct room list_room, z_room, za_room, report_room, totals_room;

static unsigned long shortest; /* lists with words that were accepted with a report of 4n numbers */

/* The lengths that go with a list. */
struct lengths {
    size_t z, za, report;
};

static void put_totals(uint32_t *totals, const uint32_t *report, uint32_t words)
{
    totals[0] = words;
    for (int column = 1; column < CALLINGLAMP_TOTALS; column++)
        totals[column] = 0;
    for (uint32_t i = 0; i < words; i++)
        for (int column = 1; column < CALLINGLAMP_PER_WORD; column++)
            totals[column] += report[CALLINGLAMP_PER_WORD * i + (uint32_t)column];
}

static uint64_t due_answer(const struct list *list, const struct lengths *l)
{
    size_t place;
    uint32_t words;
    int refusal = second_run(list->bytes, list->length, due_bytes(&z_room), l->z, due_bytes(&za_room), l->za,
                             due_numbers(&report_room), l->report, &place, &words);
    if (refusal == SECOND_ACCEPTED)
        put_totals(due_numbers(&totals_room), due_numbers(&report_room), words);
    return answer_of(refusal, place);
}

/* ZA starts at zero, and Z with the list's bytes: seven numbers stand before them, and each ends with the first byte
 * below 128. A refused run starts with what was lent. */
static uint64_t ones_at_start(uint64_t answer, const struct list *list, const struct lengths *l)
{
    const uint8_t *byte = list->bytes;
    if (!callinglamp_ok(answer))
        return ones_of(bytes_before(&z_room), l->z) + ones_of(bytes_before(&za_room), l->za);
    for (int numbers = 0; numbers < CALLINGLAMP_SETTINGS; byte++)
        numbers += *byte < 128;
    return ones_of(byte, l->z);
}

/* The library's answer. */
static uint64_t compare_run(const struct list *list, const struct lengths *l)
{
    lend(&list_room, list->bytes, list->length);
    lend_random(&z_room, l->z);
    lend_random(&za_room, l->za);
    lend_random(&report_room, l->report);
    lend_random(&totals_room, CALLINGLAMP_TOTALS);
    struct call call = {RUN, {{NULL, 0}}, {&list_room, &z_room, &za_room, &report_room, &totals_room}, 0, 0};
    call.due = due_answer(list, l);
    call.answer = callinglamp_run(bytes_of(&list_room), list->length, bytes_of(&z_room), l->z, bytes_of(&za_room),
                                  l->za, numbers_of(&report_room), l->report, numbers_of(&totals_room));
    judge(&call);
    weigh_run(&call, &z_room, &za_room, ones_at_start(call.answer, list, l), numbers_of(&report_room),
              numbers_of(&totals_room));
    return call.answer;
}

static uint32_t number_at(const struct list *list, size_t *place)
{
    uint32_t number = 0;
    if (*place <= list->length)
        second_read_number(list->bytes, list->length, place, &number);
    return number;
}

/* What a list asks for, if it can be read so far: the files of its own VL, and four numbers for each word. */
static struct lengths right_lengths(const struct list *list)
{
    size_t place = 0;
    uint32_t vl = number_at(list, &place);
    if (vl != 256 && vl != 512)
        vl = 128;
    for (int i = 0; i < 6; i++)
        number_at(list, &place);
    place += second_z_length(vl);
    uint32_t count = number_at(list, &place);
    if (count > SECOND_MOST_WORDS)
        count = SECOND_MOST_WORDS;
    return (struct lengths){second_z_length(vl), second_za_length(vl), 4 * (size_t)count};
}

static struct lengths choose_wrong_lengths(struct lengths l)
{
    switch (choose(3)) {
    case 0:
        l.z = choose_wrong_length(l.z);
        break;
    case 1:
        l.za = choose_wrong_length(l.za);
        break;
    default:
        if (l.report > 0)
            l.report = choose((uint32_t)l.report);
        break;
    }
    return l;
}

/* A list that is accepted with a report of 4n numbers is refused with 2 where there is one less, or 3n, as there were
 * before rises and falls were two. */
static void compare_reports(const struct list *list, const struct lengths *right)
{
    const size_t n = right->report / 4, too_few[] = {4 * n - 1, 3 * n};
    int accepted = callinglamp_ok(compare_run(list, right));
    for (size_t i = 0; n > 0 && i < 2; i++) {
        struct lengths l = *right;
        l.report = too_few[i];
        uint64_t answer = compare_run(list, &l);
        if (accepted && answer != CALLINGLAMP_BAD_LENGTH) {
            printf("a list of %zu words with a report of %zu numbers: %016llX\n", n, l.report,
                   (unsigned long long)answer);
            exit(1);
        }
    }
    shortest += accepted && n > 0;
}

/* A list as it is with a report that is just long enough, too short, or longer; with a wrong length; and with one byte
 * changed. */
static void compare_list(void *context, const char *kind, const struct list *list)
{
    static struct list changed;
    struct lengths right = right_lengths(list), wrong = choose_wrong_lengths(right);
    (void)context;
    (void)kind;
    compare_run(list, &wrong);
    compare_reports(list, &right);
    if (choose(2) == 0) {
        right.report += choose((uint32_t)(MOST_REPORT - right.report + 1));
        compare_run(list, &right);
    }
    if (list->length == 0)
        return;
    size_t place = choose((uint32_t)list->length);
    changed = *list;
    changed.bytes[place] ^= (uint8_t)(1 + choose(255));
    compare_run(&changed, &right);
}

int compare_runs(uint32_t seed)
{
    list_room = make_room("list", 1, MOST_MADE);
    z_room = make_room("z", 1, MOST_LENGTH);
    za_room = make_room("za", 1, MOST_LENGTH);
    report_room = make_room("report", sizeof(uint32_t), MOST_REPORT);
    totals_room = make_room("totals", sizeof(uint32_t), CALLINGLAMP_TOTALS);
    for (uint32_t turn = 0; turn < 4; turn++)
        make_lists(seed + turn, compare_list, NULL);
    printf("reports: %lu lists with words accepted with 4n numbers, and refused with 2 with 4n - 1 and with 3n\n",
           shortest);
    return shortest >= LEAST_ACCEPTED;
}
