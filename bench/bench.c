/* Times the library against the second program, and prints a table. See bench/run, and bench/count. */
#include "growth.h"

#include <stdio.h>
#include <stdlib.h>
#include <string.h>

enum { WORDS = 64, PASSES = 4 };

static struct {
    bool quick, once, patient;
    const char *only;
} options;

static struct work work;

static struct effort effort(void)
{
    static const struct effort quick = {.rounds = 15, .attempts = 1, .nanoseconds = 1e6};
    static const struct effort full = {.rounds = 31, .attempts = 3, .nanoseconds = 3e6};
    static const struct effort once = {.rounds = 1, .attempts = 1}; /* where the clock does not waver: bench/count */
    struct effort e = options.once ? once : options.quick ? quick : full;
    e.patient = options.patient;
    return e;
}

/* Compares the answers, and times them. NULL: the row is not asked for. */
static const struct row *add_row(const char *name, const struct call *call, uint32_t passes, uint32_t things)
{
    if (options.only != NULL && strstr(name, options.only) == NULL)
        return NULL;
    struct row *row = new_row(name);
    check(name, call, &work);
    row->times = measure(name, call, &work, passes, things, effort());
    return row;
}

static void add_word_row(const char *name, const struct call *call)
{
    const struct row *row = add_row(name, call, PASSES, PASSES * work.count);
    if (row == NULL)
        return;
    print_row(row);
    print_row_end(row);
}

/* Z starts at random. A word of A or B leaves zeros above its V register, so that from the second pass on it finds
 * zeros there, as a user's does: to clear and to count costs the same. */
static void add_execute_rows(void)
{
    print_heads("execute, ns a word", "");
    for (const struct kind *kind = kinds; kind < kinds + KINDS; kind++)
        for (int i = 0; i < LENGTHS; i++) {
            char name[MOST_NAME];
            name_execute_row(name, kind, lengths[i]);
            make_work(&work, lengths[i], kind, 1, WORDS);
            add_word_row(name, &execute_call);
        }
}

static void add_other_rows(void)
{
    print_heads("decode, encode and partner of all kinds, and execute of words that are refused, ns a word", "");
    make_work(&work, 128, kinds, KINDS, WORDS);
    add_word_row("decode", &decode_call);
    add_word_row("encode", &encode_call);
    add_word_row("partner", &partner_call);
    make_unknown_words(&work);
    add_word_row("refused-3", &execute_call);
    make_work(&work, 128, kinds, 5, WORDS);
    work.settings.named.modes = SECOND_SM | SECOND_ZA;
    add_word_row("refused-4", &execute_call);
}

static void add_text_rows(void)
{
    print_heads("print and read of all kinds, half of the texts of D and E read without vgx, ns a word", "");
    make_work(&work, 128, kinds, KINDS, WORDS);
    make_texts(&work);
    add_word_row("print", &print_call);
    add_word_row("read", &read_call);
}

static void add_list_row(const char *families, uint32_t vl, const struct kind *first, size_t kinds_given)
{
    char name[MOST_NAME];
    snprintf(name, sizeof name, "run-%s/%u", families, (unsigned)vl);
    make_work(&work, vl, first, kinds_given, SECOND_MOST_WORDS);
    make_list(&work, SECOND_MOST_WORDS);
    const struct row *row = add_row(name, &run_call, 1, SECOND_MOST_WORDS);
    if (row == NULL)
        return;
    print_row(row);
    printf(" %8.2f %8.2f", 1e3 / row->times.library, 1e3 / row->times.second);
    print_row_end(row);
}

/* No modes permit all families, so there are two mixed lists. */
static void add_list_rows(void)
{
    static const struct {
        const char *families;
        int first, kinds_given;
    } lists[] = {{"ABC", 0, 7}, {"CDE", 5, 8}, {"A", 0, 2}, {"B", 2, 3}, {"C", 5, 2}, {"D", 7, 4}, {"E", 11, 2}};
    print_heads("run of a list of 1,024 words, ns a word", "        million words a second");
    for (size_t i = 0; i < sizeof lists / sizeof *lists; i++)
        for (int j = 0; j < LENGTHS; j++)
            add_list_row(lists[i].families, lengths[j], &kinds[lists[i].first], (size_t)lists[i].kinds_given);
}

static const uint32_t counts[] = {0, 1, 16, 64, 256, 1024};
enum { COUNTS = sizeof counts / sizeof *counts };

/* Lists of the first words of one work, from none to all. */
static void add_growth(const struct kind *kind, uint32_t vl)
{
    double library[COUNTS], second[COUNTS];
    int timed = 0;
    make_work(&work, vl, kind, 1, SECOND_MOST_WORDS);
    for (int i = 0; i < COUNTS; i++) {
        char name[MOST_NAME];
        uint32_t n = counts[i], passes = 1 + 64 / (n + 1);
        snprintf(name, sizeof name, "run-%s/%u/n=%u", kind->name, (unsigned)vl, (unsigned)n);
        make_list(&work, n);
        const struct row *row = add_row(name, &run_call, passes, passes);
        if (row == NULL)
            continue;
        library[timed] = row->times.library;
        second[timed] = row->times.second;
        print_row(row);
        if (n > 0 && timed > 0)
            printf(" %8.2f %8.2f", (library[timed] - library[0]) / n, (second[timed] - second[0]) / n);
        print_row_end(row);
        timed++;
    }
    if (timed == COUNTS) {
        print_line("library", counts, library, COUNTS);
        print_line("second", counts, second, COUNTS);
    }
}

static void add_growth_rows(void)
{
    print_heads("growth with n: run of a list of n words, ns a list", "        ns a word beyond n=0");
    for (int i = 0; i < LENGTHS; i += 2) {
        add_growth(&kinds[2], lengths[i]);
        add_growth(&kinds[7], lengths[i]);
    }
}

static void print_start(void)
{
    struct effort e = effort();
    printf("medians of %u rounds of %.0f ms or more a side; ratio: library / second; quartiles of the rounds' ratios\n",
           (unsigned)e.rounds, e.nanoseconds / 1e6);
    if (e.attempts > 1)
        printf("a row that is not steady is timed up to %u times, and the last stands\n", (unsigned)e.attempts);
}

static void read_options(int count, char **words)
{
    for (int i = 1; i < count; i++)
        if (strcmp(words[i], "--quick") == 0)
            options.quick = true;
        else if (strcmp(words[i], "--once") == 0)
            options.once = true;
        else if (strcmp(words[i], "--patient") == 0)
            options.patient = true;
        else if (strcmp(words[i], "--only") == 0 && i + 1 < count)
            options.only = words[++i];
        else {
            fprintf(stderr, "usage: bench [--quick] [--once] [--patient] [--only TEXT]\n");
            exit(2);
        }
}

int main(int count, char **words)
{
    read_options(count, words);
    pin_to_one_core();
    print_start();
    add_execute_rows();
    add_other_rows();
    add_text_rows();
    add_list_rows();
    add_growth_rows();
    print_bytes();
    if (options.patient)
        printf("\n%u rounds were taken again, since the core did not keep its full speed\n", (unsigned)rounds_again());
    print_slower_rows();
    return 0;
}
