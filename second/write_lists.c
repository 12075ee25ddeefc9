/* The run lists as files, and what the list program must print of each. */
#include "lists.h"

#include "commands.h"

#include <stdlib.h>

struct sink {
    const char *directory;
    FILE *due;
    const char *kind; /* that of the list before */
    unsigned number, in_kind, each;
    int failed;
};

static void count_list(void *context, const char *of_kind, const struct list *list)
{
    (void)of_kind;
    (void)list;
    ++*(unsigned *)context;
}

static int write_bytes(const char *path, const struct list *list)
{
    FILE *out = fopen(path, "wb");
    if (out == NULL)
        return 0;
    size_t put = fwrite(list->bytes, 1, list->length, out);
    return fclose(out) == 0 && put == list->length;
}

/* A list's number is the same whether or not others are left out. */
static void store_list(void *context, const char *of_kind, const struct list *list)
{
    struct sink *sink = context;
    char path[4096];
    sink->number++;
    if (sink->kind != of_kind) {
        sink->kind = of_kind;
        sink->in_kind = 0;
    }
    if (sink->in_kind++ % sink->each != 0)
        return;
    int length = snprintf(path, sizeof path, "%s/%04u-%s.list", sink->directory, sink->number, of_kind);
    if (length < 0 || (size_t)length >= sizeof path || !write_bytes(path, list))
        sink->failed = 1;
    fprintf(sink->due, "%04u-%s\n", sink->number, of_kind);
    print_run(sink->due, list->bytes, list->length);
}

int lists_command(const char *directory, const char *at_least)
{
    unsigned all = 0;
    char path[4096], *end = "";
    make_lists(LISTS_SEED, count_list, &all);
    unsigned long wanted = at_least == NULL ? all : strtoul(at_least, &end, 10);
    if (wanted == 0 || *end != '\0') {
        fprintf(stderr, "second lists: the number of lists is not a number above 0\n");
        return 2;
    }
    int length = snprintf(path, sizeof path, "%s/due", directory);
    struct sink sink = {.directory = directory, .each = wanted < all ? (unsigned)(all / wanted) : 1};
    if (length >= 0 && (size_t)length < sizeof path)
        sink.due = fopen(path, "w");
    if (sink.due == NULL) {
        fprintf(stderr, "second lists: cannot write to the directory %s\n", directory);
        return 2;
    }
    make_lists(LISTS_SEED, store_list, &sink);
    sink.failed |= ferror(sink.due) != 0;
    sink.failed |= fclose(sink.due) != 0;
    if (sink.failed)
        fprintf(stderr, "second lists: could not write all of %s\n", directory);
    return sink.failed;
}
