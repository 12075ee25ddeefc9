/* Execute and percent. */
#include "calls.h"
#include "choices.h"
#include "parts.h"

/* One time in three a word of A, B or C has its destination as a source. */
static void choose_destination(struct second_fields *f)
{
    if (f->family > SECOND_FAMILY_C || choose(3) != 0)
        return;
    f->destination = choose(2) == 0 ? f->first : f->second;
}

/* A step that is accepted. */
static struct one_case choose_good_step(uint32_t row, uint32_t vl)
{
    struct second_fields f = choose_fields_of_row(row);
    struct one_case step = {.s = {.vl = vl}};
    choose_destination(&f);
    choose_permitting(&f, &step.s);
    for (int i = 0; i < 4; i++)
        step.s.w[i] = choose_select();
    step.word = word_of(&f);
    uint32_t kind = choose(FILL_KINDS);
    step.z = (struct contents){kind, choose_any(), (uint32_t)second_z_length(vl)};
    step.za = (struct contents){kind, choose_any(), (uint32_t)second_za_length(vl)};
    return step;
}

/* Each fault may come with others, so that the order of the tests shows. */
static void damage_step(struct one_case *step)
{
    if (choose(4) == 0)
        step->z.length = (uint32_t)choose_wrong_length(step->z.length);
    if (choose(4) == 0)
        step->za.length = (uint32_t)choose_wrong_length(step->za.length);
    if (choose(3) == 0)
        step->word = choose_word();
    if (choose(2) == 0)
        step->s.modes = choose(4);
    if (choose(4) == 0)
        damage_settings(&step->s);
}

/* Exact lengths, and Z or ZA or both one byte off each way or with nothing. */
static void compare_lengths(uint32_t row, uint32_t vl)
{
    static const int off[] = {0, 1, -1};
    for (int i = 0; i < 16; i++) {
        struct one_case step = choose_good_step(row, vl);
        step.z.length = i % 4 == 3 ? 0 : step.z.length + (uint32_t)off[i % 4];
        step.za.length = i / 4 == 3 ? 0 : step.za.length + (uint32_t)off[i / 4];
        compare_case(&step);
    }
}

static void compare_row(uint32_t row, uint32_t vl)
{
    compare_lengths(row, vl);
    for (int i = 0; i < 1200; i++) {
        struct one_case step = choose_good_step(row, vl);
        compare_case(&step);
        damage_step(&step);
        if (i % 2 == 0)
            compare_case(&step);
    }
}

static void compare_percents(void)
{
    static const uint32_t edges[] = {0,   1,   2,    3,    99,   100,  101,  127,       128,       129,
                                     255, 256, 1023, 1024, 1025, 8191, 8192, 42949672, 42949673, 65535,
                                     65536, 1u << 24, (1u << 31) - 1, 1u << 31, UINT32_MAX - 1, UINT32_MAX};
    enum { EDGES = sizeof edges / sizeof *edges };
    for (size_t i = 0; i < EDGES * EDGES; i++)
        compare_percent(edges[i / EDGES], edges[i % EDGES]);
    for (int i = 0; i < 10000; i++) {
        uint32_t toggled = choose_select(), written = choose_select();
        compare_percent(toggled, written);
        compare_percent(toggled % (written / 2 + 1), written);
    }
}

void compare_steps(void)
{
    for (uint32_t row = 0; row < ROWS; row++)
        for (int v = 0; v < 3; v++)
            compare_row(row, vls[v]);
    compare_percents();
}
