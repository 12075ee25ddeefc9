#include "sides.h"

#include "callinglamp.h"

#include <string.h>

_Static_assert(SECOND_PER_WORD == 4 && CALLINGLAMP_PER_WORD == 4 && CALLINGLAMP_TOTALS == 4, "both sides have four");

static uint32_t *row_of(struct answers *a, uint32_t word)
{
    return a->report + SECOND_PER_WORD * word;
}

/* After a pass, and not after each word: the compiler reads a row's four numbers at once, and a core waits for a wide
 * read of what was just written in pieces. */
static void add_rows(struct answers *a, uint32_t words)
{
    for (uint32_t word = 0; word < words; word++)
        for (int i = 0; i < SECOND_PER_WORD; i++)
            a->sums[i] += row_of(a, word)[i];
}

static void library_execute(const struct work *w, uint32_t passes, struct answers *a)
{
    for (uint32_t pass = 0; pass < passes; pass++) {
        for (uint32_t i = 0; i < w->count; i++) {
            uint32_t *row = row_of(a, i);
            row[0] = callinglamp_refusal(callinglamp_execute(w->settings.numbers, w->words[i], a->registers.z,
                                                             w->z_length, a->registers.za, w->za_length, row + 1));
        }
        add_rows(a, w->count);
    }
}

static void second_execute_all(const struct work *w, uint32_t passes, struct answers *a)
{
    for (uint32_t pass = 0; pass < passes; pass++) {
        for (uint32_t i = 0; i < w->count; i++) {
            uint32_t *row = row_of(a, i);
            struct second_counts counts;
            row[0] = (uint32_t)second_execute(&w->settings.named, w->words[i], a->registers.z, w->z_length,
                                              a->registers.za, w->za_length, &counts);
            row[1] = counts.rises;
            row[2] = counts.falls;
            row[3] = counts.written;
        }
        add_rows(a, w->count);
    }
}

static void library_decode(const struct work *w, uint32_t passes, struct answers *a)
{
    for (uint32_t pass = 0; pass < passes; pass++)
        for (uint32_t i = 0; i < w->count; i++)
            row_of(a, i)[0] = callinglamp_refusal(
                callinglamp_decode(w->settings.numbers, w->words[i], a->fields[i].numbers));
}

static void second_decode_all(const struct work *w, uint32_t passes, struct answers *a)
{
    for (uint32_t pass = 0; pass < passes; pass++)
        for (uint32_t i = 0; i < w->count; i++)
            row_of(a, i)[0] = (uint32_t)second_decode(&w->settings.named, w->words[i], &a->fields[i].named);
}

static void library_encode(const struct work *w, uint32_t passes, struct answers *a)
{
    for (uint32_t pass = 0; pass < passes; pass++)
        for (uint32_t i = 0; i < w->count; i++) {
            uint64_t answer = callinglamp_encode(w->settings.numbers, w->fields[i].numbers);
            row_of(a, i)[0] = callinglamp_refusal(answer);
            a->words[i] = callinglamp_value(answer);
        }
}

static void second_encode_all(const struct work *w, uint32_t passes, struct answers *a)
{
    for (uint32_t pass = 0; pass < passes; pass++)
        for (uint32_t i = 0; i < w->count; i++)
            row_of(a, i)[0] = (uint32_t)second_encode(&w->settings.named, &w->fields[i].named, &a->words[i]);
}

static void library_partner(const struct work *w, uint32_t passes, struct answers *a)
{
    for (uint32_t pass = 0; pass < passes; pass++)
        for (uint32_t i = 0; i < w->count; i++) {
            uint64_t answer = callinglamp_partner(w->settings.numbers, w->words[i]);
            row_of(a, i)[0] = callinglamp_refusal(answer);
            a->words[i] = callinglamp_value(answer);
        }
}

static void second_partner_all(const struct work *w, uint32_t passes, struct answers *a)
{
    for (uint32_t pass = 0; pass < passes; pass++)
        for (uint32_t i = 0; i < w->count; i++)
            row_of(a, i)[0] = (uint32_t)second_partner(&w->settings.named, w->words[i], &a->words[i]);
}

static void library_run(const struct work *w, uint32_t passes, struct answers *a)
{
    for (uint32_t pass = 0; pass < passes; pass++)
        a->answer = callinglamp_run(w->list, w->list_length, a->registers.z, w->z_length, a->registers.za,
                                    w->za_length, a->report, SECOND_PER_WORD * SECOND_MOST_WORDS, a->totals);
}

static void second_run_all(const struct work *w, uint32_t passes, struct answers *a)
{
    for (uint32_t pass = 0; pass < passes; pass++) {
        size_t place;
        int refusal = second_run(w->list, w->list_length, a->registers.z, w->z_length, a->registers.za, w->za_length,
                                 a->report, SECOND_PER_WORD * SECOND_MOST_WORDS, &place, &a->totals[0]);
        a->answer = (uint64_t)place << 32 | (uint32_t)refusal;
    }
}

static void library_print(const struct work *w, uint32_t passes, struct answers *a)
{
    for (uint32_t pass = 0; pass < passes; pass++)
        for (uint32_t i = 0; i < w->count; i++) {
            uint64_t answer = callinglamp_print(w->settings.numbers, w->words[i], a->texts[i], TEXT_ROOM);
            row_of(a, i)[0] = callinglamp_refusal(answer);
            a->words[i] = callinglamp_value(answer);
        }
}

static void second_print_all(const struct work *w, uint32_t passes, struct answers *a)
{
    for (uint32_t pass = 0; pass < passes; pass++)
        for (uint32_t i = 0; i < w->count; i++) {
            size_t length;
            row_of(a, i)[0] = (uint32_t)second_print(&w->settings.named, w->words[i], a->texts[i], TEXT_ROOM, &length);
            a->words[i] = (uint32_t)length;
        }
}

static void library_read(const struct work *w, uint32_t passes, struct answers *a)
{
    for (uint32_t pass = 0; pass < passes; pass++)
        for (uint32_t i = 0; i < w->count; i++) {
            uint64_t answer = callinglamp_read(w->settings.numbers, w->texts[i], w->text_lengths[i]);
            row_of(a, i)[0] = callinglamp_refusal(answer);
            a->words[i] = callinglamp_value(answer);
        }
}

static void second_read_all(const struct work *w, uint32_t passes, struct answers *a)
{
    for (uint32_t pass = 0; pass < passes; pass++)
        for (uint32_t i = 0; i < w->count; i++)
            row_of(a, i)[0] = (uint32_t)second_read(&w->settings.named, w->texts[i], w->text_lengths[i], &a->words[i]);
}

const struct call execute_call = {"execute", library_execute, second_execute_all};
const struct call decode_call = {"decode", library_decode, second_decode_all};
const struct call encode_call = {"encode", library_encode, second_encode_all};
const struct call partner_call = {"partner", library_partner, second_partner_all};
const struct call run_call = {"run", library_run, second_run_all};
const struct call print_call = {"print", library_print, second_print_all};
const struct call read_call = {"read", library_read, second_read_all};

/* The second program's run gives a count but no tally: that is the sum of its report. */
static bool same_totals(const struct answers *library, const struct answers *second)
{
    uint32_t due[SECOND_PER_WORD] = {second->totals[0], 0, 0, 0};
    for (uint32_t i = 0; i < second->totals[0]; i++)
        for (uint32_t column = 1; column < SECOND_PER_WORD; column++)
            due[column] += second->report[SECOND_PER_WORD * i + column];
    return memcmp(library->totals, due, sizeof due) == 0;
}

const char *difference(const struct answers *library, const struct answers *second)
{
    const struct registers *a = &library->registers, *b = &second->registers;
    if (memcmp(a->z, b->z, sizeof a->z) != 0)
        return "Z";
    if (memcmp(a->za, b->za, sizeof a->za) != 0)
        return "ZA";
    if (memcmp(library->report, second->report, sizeof library->report) != 0)
        return "refusals or counts";
    if (memcmp(library->sums, second->sums, sizeof library->sums) != 0)
        return "sums of counts";
    if (memcmp(library->words, second->words, sizeof library->words) != 0)
        return "words, or lengths of texts";
    if (memcmp(library->texts, second->texts, sizeof library->texts) != 0)
        return "texts";
    if (memcmp(library->fields, second->fields, sizeof library->fields) != 0)
        return "fields";
    if (library->answer != second->answer)
        return "refusal or place of the list";
    return same_totals(library, second) ? NULL : "totals";
}
