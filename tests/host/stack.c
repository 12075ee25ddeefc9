/* How much stack each call needs. The calls are made on a stack that was painted before, and what they need is how far
 * the paint is gone below the frame of who makes them.
 *
 * It ends with 0 where no call needs more than CALLINGLAMP_STACK, and with 1 otherwise.
 *
 * No frame of the library has a length that depends on what is given, and nothing in it calls itself, so that it is
 * enough to go every way once: words of every row, at each VL and under modes that permit them, lists of the most
 * words, and some that are refused. A run is first: where the program is linked dynamically, the C library looks up
 * memset when it is first called, on this stack, and that is to be in the number too. */
#define _XOPEN_SOURCE 700 /* for ucontext.h */
#include "callinglamp.h"
#include "choices.h"
#include "inputs.h"

#include <stdio.h>
#include <ucontext.h>

enum { UNITS = 4 * CALLINGLAMP_STACK / sizeof(uint64_t), WORDS = 20, LONGEST_NUMBER = 5 };
enum { LONGEST_LIST = (CALLINGLAMP_SETTINGS + 1 + CALLINGLAMP_MOST_WORDS) * LONGEST_NUMBER + CALLINGLAMP_MOST_Z };

static const uint64_t paint = 0xC0FFEE5EED5EA50Du;
static uint64_t stack[UNITS];

/* What the calls are lent. */
static uint32_t settings[CALLINGLAMP_SETTINGS], word, fields[CALLINGLAMP_FIELDS], counts[CALLINGLAMP_COUNTS];
static uint32_t report[CALLINGLAMP_PER_WORD * CALLINGLAMP_MOST_WORDS], totals[CALLINGLAMP_TOTALS];
static uint8_t z[CALLINGLAMP_MOST_Z], za[CALLINGLAMP_MOST_ZA], list[LONGEST_LIST];
static size_t z_length, za_length, list_length, text_length;
static char text[CALLINGLAMP_MOST_TEXT];
static uint64_t answer;

/* The calls */

static void call_decode(void)
{
    answer = callinglamp_decode(settings, word, fields);
}

static void call_encode(void)
{
    answer = callinglamp_encode(settings, fields);
}

static void call_partner(void)
{
    answer = callinglamp_partner(settings, word);
}

static void call_execute(void)
{
    answer = callinglamp_execute(settings, word, z, z_length, za, za_length, counts);
}

static void call_percent(void)
{
    answer = callinglamp_percent(counts[0] + counts[1], counts[2]);
}

static void call_run(void)
{
    answer = callinglamp_run(list, list_length, z, z_length, za, za_length, report,
                             CALLINGLAMP_PER_WORD * CALLINGLAMP_MOST_WORDS, totals);
}

static void call_print(void)
{
    answer = callinglamp_print(settings, word, text, sizeof text);
}

static void call_read(void)
{
    answer = callinglamp_read(settings, text, text_length);
}

static void call_version(void)
{
    answer = callinglamp_version();
}

static struct {
    const char *name;
    void (*make)(void);
    size_t most;       /* bytes, so far */
    unsigned accepted; /* how often */
} calls[] = {
    {"decode", call_decode, 0, 0},   {"encode", call_encode, 0, 0},   {"partner", call_partner, 0, 0},
    {"execute", call_execute, 0, 0}, {"run", call_run, 0, 0},         {"print", call_print, 0, 0},
    {"read", call_read, 0, 0},       {"percent", call_percent, 0, 0}, {"version", call_version, 0, 0},
};

enum { DECODE, ENCODE, PARTNER, EXECUTE, RUN, PRINT, READ, PERCENT, VERSION, CALLS };

/* The measure */

static ucontext_t here, there;
static void (*made)(void);
static const char *top;

static void on_the_stack(void)
{
    top = __builtin_frame_address(0);
    made();
}

/* Not by memset, which is not to be looked up yet. */
static void paint_stack(void)
{
    for (volatile uint64_t *unit = stack; unit < stack + UNITS; unit++)
        *unit = paint;
}

static void measure(int call)
{
    size_t unit = 0;
    paint_stack();
    getcontext(&there);
    there.uc_stack.ss_sp = stack;
    there.uc_stack.ss_size = sizeof stack;
    there.uc_link = &here;
    made = calls[call].make;
    makecontext(&there, on_the_stack, 0);
    swapcontext(&here, &there);
    while (stack[unit] == paint)
        unit++;
    size_t needed = (size_t)(top - (const char *)(stack + unit));
    if (needed > calls[call].most)
        calls[call].most = needed;
    calls[call].accepted += callinglamp_ok(answer);
}

/* The inputs */

static void put_number(uint32_t number)
{
    for (; number >= 128; number /= 128)
        list[list_length++] = (uint8_t)(128 + number % 128);
    list[list_length++] = (uint8_t)number;
}

static void choose_bytes(uint8_t *bytes, size_t length)
{
    for (size_t i = 0; i < length; i++)
        bytes[i] = (uint8_t)choose(256);
}

static void set(uint32_t vl, uint32_t modes)
{
    settings[0] = vl;
    settings[1] = 31;
    settings[2] = modes;
    for (int i = 3; i < CALLINGLAMP_SETTINGS; i++)
        settings[i] = choose_any();
    z_length = 32 * vl / 8;
    za_length = vl / 8 * vl / 8;
    choose_bytes(z, z_length);
}

/* A list of the most words, of every row. Then it ends inside its last number. */
static void measure_run(void)
{
    list_length = 0;
    for (int i = 0; i < CALLINGLAMP_SETTINGS; i++)
        put_number(settings[i]);
    for (size_t i = 0; i < z_length; i++)
        list[list_length++] = z[i];
    put_number(CALLINGLAMP_MOST_WORDS);
    for (uint32_t i = 0; i < CALLINGLAMP_MOST_WORDS; i++)
        put_number(choose_word_of_row(i % ROWS));
    measure(RUN);
    list_length--;
    measure(RUN);
}

static void measure_word(void)
{
    measure(DECODE);
    measure(ENCODE);
    measure(PARTNER);
    measure(EXECUTE);
    measure(PERCENT);
    measure(PRINT);
    if (!callinglamp_ok(answer))
        return;
    text_length = callinglamp_value(answer);
    measure(READ);
    /* Read to its end, and not of the language. */
    text_length--;
    measure(READ);
}

static void measure_all(void)
{
    for (int i = 0; i < 3; i++)
        for (uint32_t modes = 0; modes < 4; modes += 3) {
            set(vls[i], modes);
            measure_run();
            for (uint32_t j = 0; j < ROWS * WORDS; j++) {
                word = choose_word_of_row(j % ROWS);
                measure_word();
            }
        }
    measure(VERSION);
}

int main(void)
{
    size_t most = 0;
    int all_accepted = 1;
    start_choosing(1);
    measure_all();
    printf("stack, in bytes:");
    for (int i = 0; i < CALLS; i++) {
        printf(" %s %zu%s", calls[i].name, calls[i].most, i < CALLS - 1 ? "," : "");
        most = calls[i].most > most ? calls[i].most : most;
        all_accepted &= i >= PERCENT || calls[i].accepted > 0;
    }
    printf("; the header says %d\n", CALLINGLAMP_STACK);
    if (most > CALLINGLAMP_STACK)
        printf("that is more than the header says\n");
    if (!all_accepted)
        printf("a call was never accepted, so that its number says little\n");
    return most > CALLINGLAMP_STACK || !all_accepted;
}
