/* The commands that main.c chooses from. Each returns the program's exit number. */
#ifndef COMMANDS_H
#define COMMANDS_H

#include <stddef.h>
#include <stdint.h>
#include <stdio.h>

int selftest_command(void);

/* Writes the lists into a directory that is there, and what is due of them into its file `due`. With a number, which is
 * NULL for all, it leaves lists out and keeps at least so many, of every kind. */
int lists_command(const char *directory, const char *at_least);

/* Answers each line with a line: eight hexadecimal digits with the word's text, any other with the word that it is the
 * text of, or with the refusal. All features are on. */
int spell(FILE *in, FILE *out);

/* Writes lines for `spell`, the last without its end: so many, or 3,000 where the number is NULL. */
int spell_lines_command(const char *count);

enum {
    /* An accepted list has at most 7 numbers of 5 bytes, Z, a count of 2 bytes and 1,024 words of 5 bytes. What lies
     * past that is found to be extra at its first byte, so more of the input need not be kept. */
    MOST_LIST = 8192
};

/* Runs a list and prints what the list program prints of it. */
void print_run(FILE *out, const uint8_t *list, size_t list_len);

#endif
