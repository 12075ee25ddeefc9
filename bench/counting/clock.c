/* The clock of bench/count: the instructions that the plugin beside it has counted. */
#define _GNU_SOURCE
#include "clock.h"

#include "count.h"

#include <fcntl.h>
#include <stdint.h>
#include <stdio.h>
#include <stdlib.h>
#include <sys/mman.h>

static const volatile uint64_t *find_count(void)
{
    int file = open(COUNT_FILE, O_RDONLY);
    void *count = mmap(NULL, COUNT_BYTES, PROT_READ, MAP_SHARED, file, 0);
    if (file < 0 || count == MAP_FAILED) {
        perror("bench: the count of instructions cannot be read");
        exit(2);
    }
    return count;
}

double now(void)
{
    static const volatile uint64_t *count;
    if (count == NULL)
        count = find_count();
    return (double)*count;
}
