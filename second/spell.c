/* The commands for texts: lines to answers, and the lines that a program is tried with. */
#include "commands.h"
#include "second.h"
#include "spellings.h"

#include <stdbool.h>
#include <stdlib.h>

static int digit_value(char digit)
{
    if (digit >= '0' && digit <= '9')
        return digit - '0';
    if (digit >= 'A' && digit <= 'F')
        return digit - 'A' + 10;
    if (digit >= 'a' && digit <= 'f')
        return digit - 'a' + 10;
    return -1;
}

/* Whether a line is eight hexadecimal digits, and the word that they are. */
static bool is_word(const char *line, size_t length, uint32_t *word)
{
    *word = 0;
    if (length != 8)
        return false;
    for (size_t i = 0; i < length; i++) {
        int value = digit_value(line[i]);
        if (value < 0)
            return false;
        *word = *word << 4 | (uint32_t)value;
    }
    return true;
}

static void spell_line(FILE *out, const char *line, size_t length)
{
    static const struct second_settings all = {.vl = 128, .features = 31};
    char text[SECOND_LONGEST_TEXT];
    size_t text_len = 0;
    uint32_t word;
    bool printing = is_word(line, length, &word);
    int refusal = printing ? second_print(&all, word, text, sizeof text, &text_len)
                           : second_read(&all, line, length, &word);
    if (refusal != SECOND_ACCEPTED)
        fprintf(out, "refused %d\n", refusal);
    else if (printing)
        fprintf(out, "%.*s\n", (int)text_len, text);
    else
        fprintf(out, "%08X\n", (unsigned)word);
}

int spell(FILE *in, FILE *out)
{
    char *line = NULL;
    size_t length = 0, room = 0;
    for (int byte; (byte = getc(in)) != EOF;) {
        if (byte == '\n') {
            spell_line(out, line, length);
            length = 0;
            continue;
        }
        if (length == room) {
            room = 2 * room + 128;
            line = realloc(line, room);
            if (line == NULL)
                abort();
        }
        line[length++] = (char)byte;
    }
    if (length > 0)
        spell_line(out, line, length);
    free(line);
    return ferror(in) != 0;
}

/* Each line but the last has its end: the end is put before the next one. */
static void write_line(void *context, const char *line, size_t length)
{
    bool *is_first = context;
    if (!*is_first)
        putchar('\n');
    *is_first = false;
    fwrite(line, 1, length, stdout);
}

int spell_lines_command(const char *count)
{
    char *end = "";
    bool is_first = true;
    unsigned long lines = count == NULL ? SPELLINGS : strtoul(count, &end, 10);
    if (lines == 0 || *end != '\0') {
        fprintf(stderr, "second spell-lines: the number of lines is not a number above 0\n");
        return 2;
    }
    make_spellings(SPELLINGS_SEED, lines, write_line, &is_first);
    return ferror(stdout) != 0;
}
