/* The rows that were timed, and how they are printed. */
#ifndef TABLE_H
#define TABLE_H

#include "timing.h"

enum { MOST_NAME = 32 };

struct row {
    char name[MOST_NAME];
    struct times times;
};

/* A new row of this name. */
struct row *new_row(const char *name);

/* The times of the row of this name, or NULL. */
const struct times *times_of(const char *name);

/* A section's title, and the heads of the columns that each section has; `more` stands behind them. */
void print_heads(const char *title, const char *more);

/* A row's first columns, without the line's end. */
void print_row(const struct row *row);
void print_row_end(const struct row *row);

/* The last line: how many rows have a ratio above 1, and which. */
void print_slower_rows(void);

#endif
