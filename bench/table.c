#include "table.h"

#include <limits.h>
#include <stdio.h>
#include <stdlib.h>
#include <string.h>

enum { MOST_ROWS = 200 };

static struct row rows[MOST_ROWS];
static int row_count;

struct row *new_row(const char *name)
{
    if (row_count == MOST_ROWS)
        abort();
    struct row *row = &rows[row_count++];
    snprintf(row->name, sizeof row->name, "%s", name);
    return row;
}

const struct times *times_of(const char *name)
{
    for (int i = 0; i < row_count; i++)
        if (strcmp(rows[i].name, name) == 0)
            return &rows[i].times;
    return NULL;
}

void print_heads(const char *title, const char *more)
{
    printf("\n%s\n%-18s %10s %10s %6s  %s%s\n", title, "row", "library", "second", "ratio", "quartiles", more);
}

void print_row(const struct row *row)
{
    const struct times *t = &row->times;
    printf("%-18s %10.1f %10.1f %6.2f  %.2f to %.2f", row->name, t->library, t->second, t->ratio, t->low, t->high);
}

void print_row_end(const struct row *row)
{
    if (row->times.attempts > 1)
        printf("  attempt %u", (unsigned)row->times.attempts);
    puts(row->times.steady ? "" : "  unsteady");
    fflush(stdout);
}

/* A ratio in hundredths, as it is printed, so that no row is named which the table shows as 1.00. */
static int shown(const struct row *row)
{
    return (int)(100 * row->times.ratio + 0.5);
}

static int count_between(int above, int up_to)
{
    int count = 0;
    for (int i = 0; i < row_count; i++)
        count += shown(&rows[i]) > above && shown(&rows[i]) <= up_to;
    return count;
}

static void print_between(int above, int up_to)
{
    const char *before = " (";
    for (int i = 0; i < row_count; i++)
        if (shown(&rows[i]) > above && shown(&rows[i]) <= up_to) {
            printf("%s%s", before, rows[i].name);
            before = " ";
        }
    if (count_between(above, up_to) > 0)
        printf(")");
}

void print_slower_rows(void)
{
    int near = count_between(100, 105), far = count_between(105, INT_MAX);
    printf("\n%d of %d rows have a ratio above 1.00: %d above 1.05", near + far, row_count, far);
    print_between(105, INT_MAX);
    printf(", %d up to 1.05", near);
    print_between(100, 105);
    puts("");
}
