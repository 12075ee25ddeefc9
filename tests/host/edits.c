#include "edits.h"

#include "choices.h"

#include <stdlib.h>
#include <string.h>

static void append(struct text *t, const char *bytes, size_t length)
{
    size_t room = MOST_SHORT - t->length;
    if (length > room)
        length = room;
    memcpy(t->bytes + t->length, bytes, length);
    t->length += length;
}

struct text text_of(uint32_t word)
{
    static const struct second_settings all = {.vl = 128, .features = 31};
    struct text t;
    if (second_print(&all, word, t.bytes, MOST_SHORT, &t.length) != SECOND_ACCEPTED)
        abort();
    return t;
}

struct text text_from(const char *constant)
{
    struct text t = {.length = 0};
    append(&t, constant, strlen(constant));
    return t;
}

struct text replaced(const struct text *t, size_t from, size_t to, const char *with, size_t length)
{
    struct text made = {.length = 0};
    append(&made, t->bytes, from);
    append(&made, with, length);
    append(&made, t->bytes + to, t->length - to);
    return made;
}

struct text joined(const struct text *first, const struct text *then)
{
    return replaced(first, first->length, first->length, then->bytes, then->length);
}

struct text without_group(const struct text *t)
{
    size_t start = strlen(", vgx"), whole = strlen(", vgx2");
    for (size_t at = 0; at + whole <= t->length; at++)
        if (memcmp(t->bytes + at, ", vgx", start) == 0)
            return replaced(t, at, at + whole, "", 0);
    return *t;
}

struct text respaced(const struct text *t, const char *with)
{
    struct text made = {.length = 0};
    for (size_t i = 0; i < t->length; i++)
        if (t->bytes[i] == ' ')
            append(&made, with, strlen(with));
        else
            append(&made, t->bytes + i, 1);
    return made;
}

struct text in_capitals(const struct text *t)
{
    struct text made = *t;
    for (size_t i = 0; i < made.length; i++)
        if (made.bytes[i] >= 'a' && made.bytes[i] <= 'z')
            made.bytes[i] = (char)(made.bytes[i] - 'a' + 'A');
    return made;
}

int is_same_text(const struct text *a, const struct text *b)
{
    return a->length == b->length && memcmp(a->bytes, b->bytes, a->length) == 0;
}

/* Numbers */

static int is_digit(const struct text *t, size_t at)
{
    return at < t->length && t->bytes[at] >= '0' && t->bytes[at] <= '9';
}

static struct number next_number(const struct text *t, size_t at)
{
    while (at < t->length && !is_digit(t, at))
        at++;
    struct number n = {at, at, 0};
    for (; is_digit(t, n.to); n.to++)
        n.value = 10 * n.value + (uint32_t)(t->bytes[n.to] - '0');
    return n;
}

struct number number_at(const struct text *t, uint32_t which)
{
    struct number n = next_number(t, 0);
    for (uint32_t i = 0; i < which; i++)
        n = next_number(t, n.to);
    return n;
}

char choose_letter(void)
{
    static const char letters[] = "abdghlmqstuvwxz0123456789,.:-[]{} ";
    return letters[choose(sizeof letters - 1)];
}
