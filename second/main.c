#include "commands.h"
#include "second.h"

#include <string.h>

/* The lengths to lend must be known before the run: they are those of the list's own VL. Where it has none, the run
 * is refused before the lengths are looked at. */
static uint32_t vl_of(const uint8_t *list, size_t list_len)
{
    size_t place = 0;
    uint32_t vl = 0;
    if (second_read_number(list, list_len, &place, &vl) != SECOND_ACCEPTED)
        return 128;
    return vl == 256 || vl == 512 ? vl : 128;
}

/* Each step says its words again, since the report does not hold them. */
static size_t words_place(const uint8_t *list, size_t list_len, uint32_t vl)
{
    size_t place = 0;
    uint32_t number;
    for (int i = 0; i < 7; i++)
        second_read_number(list, list_len, &place, &number);
    place += second_z_length(vl);
    second_read_number(list, list_len, &place, &number);
    return place;
}

void print_run(FILE *out, const uint8_t *list, size_t list_len)
{
    static uint8_t z[SECOND_MOST_Z], za[SECOND_MOST_ZA];
    static uint32_t report[SECOND_PER_WORD * SECOND_MOST_WORDS];
    uint32_t vl = vl_of(list, list_len), count, all_toggled = 0, all_written = 0;
    size_t place;
    int refusal = second_run(list, list_len, z, second_z_length(vl), za, second_za_length(vl), report,
                             sizeof report / sizeof *report, &place, &count);
    if (refusal != SECOND_ACCEPTED) {
        fprintf(out, "refused %d at %zu\n", refusal, place);
        return;
    }
    fprintf(out, "words %u\n", (unsigned)count);
    place = words_place(list, list_len, vl);
    for (uint32_t i = 0; i < count; i++) {
        const uint32_t *row = report + SECOND_PER_WORD * (size_t)i;
        uint32_t word = 0, toggled = row[1] + row[2];
        second_read_number(list, list_len, &place, &word);
        fprintf(out, "%u %08X ", (unsigned)(i + 1), (unsigned)word);
        if (row[0] != SECOND_ACCEPTED)
            fprintf(out, "refused %u\n", (unsigned)row[0]);
        else
            fprintf(out, "%u %u %llu\n", (unsigned)toggled, (unsigned)row[3],
                    (unsigned long long)second_percent(toggled, row[3]));
        all_toggled += toggled;
        all_written += row[3];
    }
    fprintf(out, "total %u %u %llu\n", (unsigned)all_toggled, (unsigned)all_written,
            (unsigned long long)second_percent(all_toggled, all_written));
}

static int run_command(void)
{
    static uint8_t list[MOST_LIST];
    size_t length = fread(list, 1, sizeof list, stdin);
    if (ferror(stdin))
        return 1;
    print_run(stdout, list, length);
    return 0;
}

int main(int argc, char **argv)
{
    int code = 2;
    if (argc == 2 && strcmp(argv[1], "selftest") == 0)
        code = selftest_command();
    else if ((argc == 3 || argc == 4) && strcmp(argv[1], "lists") == 0)
        code = lists_command(argv[2], argv[3]);
    else if (argc == 2 && strcmp(argv[1], "run") == 0)
        code = run_command();
    else if (argc == 2 && strcmp(argv[1], "spell") == 0)
        code = spell(stdin, stdout);
    else if ((argc == 2 || argc == 3) && strcmp(argv[1], "spell-lines") == 0)
        code = spell_lines_command(argv[2]);
    else
        fprintf(stderr, "usage: second selftest | lists DIRECTORY [N] | run | spell | spell-lines [N]\n");
    /* A full disk must not look like a good run. */
    if (fflush(stdout) != 0)
        return 1;
    return code;
}
