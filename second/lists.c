/* Run lists. README.md says what the kinds are. */
#include "lists.h"

#include "choices.h"
#include "commands.h"

#include <string.h>

void put_number(struct list *list, uint32_t number)
{
    while (number >= 128) {
        list->bytes[list->length++] = (uint8_t)(number % 128 + 128);
        number /= 128;
    }
    list->bytes[list->length++] = (uint8_t)number;
}

/* A plan is what a whole list says. From the whole list come the damaged ones, by its items: the seven numbers of the
 * settings are items 0 to 6, then follow the Z bytes, the count, and the words. */

enum { W11_ITEM = 6, Z_ITEM, COUNT_ITEM, WORD_ITEM };

/* One word more than a list may have. */
enum { MOST_PLANNED = SECOND_MOST_WORDS + 1 };

struct plan {
    struct second_settings s;
    uint32_t z_kind;
    uint32_t count;
    uint32_t words[MOST_PLANNED];
};

static struct list whole, damaged;

/* Where each item of the whole list starts. The last start is the list's end. */
static size_t starts[WORD_ITEM + MOST_PLANNED + 1];

static const char *kind;
static take_list *taker;
static void *taker_context;

static void put_z(uint32_t vl, uint32_t z_kind)
{
    /* A bad VL says nothing of the length. */
    size_t length = vl == 256 || vl == 512 ? second_z_length(vl) : second_z_length(128);
    fill(whole.bytes + whole.length, length, z_kind, choose_any());
    whole.length += length;
}

static void build(const struct plan *p)
{
    const uint32_t numbers[] = {p->s.vl, p->s.features, p->s.modes, p->s.w[0], p->s.w[1], p->s.w[2], p->s.w[3]};
    whole.length = 0;
    for (int i = 0; i < Z_ITEM; i++) {
        starts[i] = whole.length;
        put_number(&whole, numbers[i]);
    }
    starts[Z_ITEM] = whole.length;
    put_z(p->s.vl, p->z_kind);
    starts[COUNT_ITEM] = whole.length;
    put_number(&whole, p->count);
    for (uint32_t i = 0; i < p->count; i++) {
        starts[WORD_ITEM + i] = whole.length;
        put_number(&whole, p->words[i]);
    }
    starts[WORD_ITEM + p->count] = whole.length;
}

static void put_bytes(const uint8_t *bytes, size_t count)
{
    memcpy(damaged.bytes + damaged.length, bytes, count);
    damaged.length += count;
}

static void put_random(size_t count)
{
    fill(damaged.bytes + damaged.length, count, FILL_RANDOM, choose_any());
    damaged.length += count;
}

static void start_damaged(size_t kept)
{
    memcpy(damaged.bytes, whole.bytes, kept);
    damaged.length = kept;
}

static void give(const struct list *list)
{
    taker(taker_context, kind, list);
}

static void give_plan(const struct plan *p)
{
    build(p);
    give(&whole);
}

static void give_cut(size_t length)
{
    start_damaged(length);
    give(&damaged);
}

/* Other bytes in an item's place, as the list's last ones and then with the rest of the list behind them. */
static void give_item(size_t item, const uint8_t *bytes, size_t count)
{
    start_damaged(starts[item]);
    put_bytes(bytes, count);
    give(&damaged);
    put_bytes(whole.bytes + starts[item + 1], whole.length - starts[item + 1]);
    give(&damaged);
}

/* Choosing */

static const uint32_t pairs[][2] = {{SECOND_FAMILY_A, 16}, {SECOND_FAMILY_A, 32}, {SECOND_FAMILY_B, 8},
                                    {SECOND_FAMILY_B, 16}, {SECOND_FAMILY_B, 32}, {SECOND_FAMILY_C, 16},
                                    {SECOND_FAMILY_C, 32}, {SECOND_FAMILY_D, 8},  {SECOND_FAMILY_D, 16},
                                    {SECOND_FAMILY_E, 16}};
enum { PAIRS = sizeof pairs / sizeof *pairs, FIRST_OF_C = 5 };

static struct second_fields choose_fields(uint32_t pair)
{
    struct second_fields f = {.family = pairs[pair][0], .lane = pairs[pair][1], .group = 1};
    if (f.family != SECOND_FAMILY_C)
        f.is_unsigned = choose(2);
    choose_rest(&f);
    return f;
}

static uint32_t choose_word(uint32_t pair)
{
    struct second_fields f = choose_fields(pair);
    return word_of(&f);
}

/* Mostly no word: random, of a reserved size, or one bit away from a word. Each choice has a statement of its own, here
 * and below, since compilers differ in which side of an operator they work out first. */
static uint32_t choose_strange(void)
{
    uint32_t bit = 1u << choose(32);
    static const uint32_t known[] = {0, 1, 127, 128, 0x2F026020, 0x2FC26020, 0x0EE28020, 0x44222020, UINT32_MAX};
    switch (choose(3)) {
    case 0:
        return choose_any();
    case 1:
        return known[choose(sizeof known / sizeof *known)];
    default:
        return choose_word(choose(PAIRS)) ^ bit;
    }
}

static uint32_t choose_mixed(void)
{
    return choose(4) == 0 ? choose_strange() : choose_word(choose(PAIRS));
}

/* Of each length from one byte to five, and near 2^32. */
static uint32_t choose_select(void)
{
    uint32_t shift = choose(32);
    return choose(4) == 0 ? UINT32_MAX - choose(6) : choose_any() >> shift;
}

static int is_valid(const struct second_settings *s)
{
    struct second_fields f;
    return second_decode(s, 0, &f) != SECOND_BAD_SETTINGS;
}

static struct plan choose_plan(uint32_t vl, uint32_t features, uint32_t modes)
{
    struct plan p = {.s = {.vl = vl, .features = features, .modes = modes}, .z_kind = FILL_RANDOM};
    for (int i = 0; i < 4; i++)
        p.s.w[i] = choose_select();
    return p;
}

static struct plan choose_valid_plan(uint32_t vl)
{
    struct plan p = choose_plan(vl, 0, 0);
    do {
        p.s.features = choose(32);
        p.s.modes = choose(4);
    } while (!is_valid(&p.s));
    return p;
}

static void add_word(struct plan *p, uint32_t word)
{
    p->words[p->count++] = word;
}

static void add_mixed(struct plan *p, uint32_t count)
{
    for (uint32_t i = 0; i < count; i++)
        add_word(p, choose_mixed());
}

/* A few words that run, so that damage to it shows as damage alone. */
static struct plan short_plan(uint32_t vl, uint32_t count)
{
    struct plan p = choose_plan(vl, 31, 3);
    for (uint32_t i = 0; i < count; i++)
        add_word(&p, choose_word(FIRST_OF_C + choose(PAIRS - FIRST_OF_C)));
    return p;
}

/* Whole lists */

/* Each sum of features with each sum of modes that it permits, at each VL: a word of each family and lane, which is
 * accepted or refused with 3 or 4, and two that are mostly no words. */
static void all_settings(void)
{
    for (uint32_t v = 0; v < 3; v++)
        for (uint32_t features = 0; features < 32; features++)
            for (uint32_t modes = 0; modes < 4; modes++) {
                struct plan p = choose_plan(vls[v], features, modes);
                if (!is_valid(&p.s))
                    continue;
                for (uint32_t i = 0; i < PAIRS; i++)
                    add_word(&p, choose_word(i));
                add_word(&p, choose_strange());
                add_word(&p, choose_strange());
                give_plan(&p);
            }
}

/* Words of one family and lane, all accepted, on random, mixed and extreme contents. */
static void families(void)
{
    static const uint32_t extremes[] = {1, 2, 3, 5, 6, 7, 8};
    for (uint32_t v = 0; v < 3; v++)
        for (uint32_t i = 0; i < PAIRS; i++)
            for (uint32_t turn = 0; turn < 3; turn++) {
                struct second_fields f = choose_fields(i);
                struct plan p = choose_plan(vls[v], 0, 0);
                choose_permitting(&f, &p.s);
                p.z_kind = turn == 0 ? FILL_RANDOM : turn == 1 ? FILL_MIXED : extremes[(i + v) % 7];
                for (uint32_t word = 0; word < 24; word++)
                    add_word(&p, choose_word(i));
                give_plan(&p);
            }
}

/* D and E by each select register, with each lane, group and offset. W is at the top of 32 bits, where the sum with an
 * offset passes them, round each stride, and of each length as a number. */
static void selects(void)
{
    static const uint32_t ws[] = {UINT32_MAX, UINT32_MAX - 1, UINT32_MAX - 4, UINT32_MAX - 6, 1u << 31, 1u << 28,
                                  (1u << 21) - 1, 16384, 128, 63, 31, 15, 7, 3};
    for (uint32_t select = 8; select < 12; select++)
        for (uint32_t w = 0; w < sizeof ws / sizeof *ws; w++) {
            struct plan p = choose_plan(vls[(select + w) % 3], 28 + choose(4), 3);
            p.s.w[select - 8] = ws[w];
            for (uint32_t i = 0; i < 16; i++) {
                struct second_fields f = choose_fields(i < 4 ? 7 : i < 8 ? 8 : 9);
                f.select = select;
                f.group = i % 2 == 0 ? 2 : 4;
                f.offset = i < 8 ? i / 2 % 2 * 4 : i / 2 % 4 * 2;
                choose_registers(&f);
                add_word(&p, word_of(&f));
            }
            give_plan(&p);
        }
}

static void counts(void)
{
    static const uint32_t tried[] = {0, 1, 2, 3, 4, 9, 12, 36, 60, 130};
    for (uint32_t v = 0; v < 3; v++)
        for (uint32_t i = 0; i < sizeof tried / sizeof *tried; i++)
            for (uint32_t turn = 0; turn < 3; turn++) {
                struct plan p = choose_valid_plan(vls[v]);
                add_mixed(&p, tried[i]);
                give_plan(&p);
            }
}

/* Row 15, at each VL: 1,024 words are accepted, mixed ones and those of one byte, and 1,025 are refused. */
static void row_15(void)
{
    for (uint32_t v = 0; v < 3; v++) {
        struct plan p = choose_plan(vls[v], 31, v);
        add_mixed(&p, SECOND_MOST_WORDS);
        give_plan(&p);
        add_mixed(&p, 1);
        give_plan(&p);
        for (p.count = 0; p.count < SECOND_MOST_WORDS;)
            add_word(&p, choose(128));
        give_plan(&p);
    }
}

/* The longest list that can be accepted: each number in it has the most bytes that a valid list can have there. */
static void plan_longest(struct plan *p)
{
    *p = choose_plan(512, 31, 3);
    for (int i = 0; i < 4; i++)
        p->s.w[i] = UINT32_MAX - choose(6);
    /* Words of C, D and E have their highest bits set, and so have five bytes. */
    while (p->count < SECOND_MOST_WORDS)
        add_word(p, choose_word(FIRST_OF_C + choose(PAIRS - FIRST_OF_C)));
}

static void longest(void)
{
    static struct plan p;
    static const uint8_t zero = 0;
    row_15();
    plan_longest(&p);
    give_plan(&p);
    give_cut(whole.length - 1);
    start_damaged(whole.length);
    put_bytes(&zero, 1);
    give(&damaged);
}

/* Refusals */

/* 7: the list ends before or inside each item. Inside a number are up to four bytes that go on. */
static void ends(void)
{
    static const uint8_t go_on[] = {0x80, 0xFF, 0x80, 0x81};
    struct plan p = short_plan(128, 3);
    build(&p);
    for (size_t item = 0; item < WORD_ITEM + 3; item++)
        for (size_t count = 0; item != Z_ITEM && count <= sizeof go_on; count++) {
            start_damaged(starts[item]);
            put_bytes(go_on, count);
            give(&damaged);
        }
    for (uint32_t v = 0; v < 3; v++) {
        p = short_plan(vls[v], 1);
        build(&p);
        size_t at = starts[Z_ITEM], z = second_z_length(vls[v]);
        const size_t there[] = {0, 1, z / 2, z - 2, z - 1, z};
        for (size_t i = 0; i < sizeof there / sizeof *there; i++)
            give_cut(at + there[i]);
    }
}

/* 8: in each item that is a number, one that is not the shortest, or whose fifth byte is 0, 15 or above. With 15 it is
 * a number, and what it says decides. */
static void numbers(void)
{
    static const struct {
        uint8_t count, bytes[5];
    } forms[] = {{2, {0x80, 0}},
                 {3, {0x81, 0x80, 0}},
                 {4, {0xFF, 0x80, 0x80, 0}},
                 {5, {0x83, 0x80, 0x80, 0x80, 0}},
                 {5, {0x80, 0x80, 0x80, 0x80, 15}},
                 {5, {0xFF, 0xFF, 0xFF, 0xFF, 15}},
                 {5, {0x80, 0x80, 0x80, 0x80, 16}},
                 {5, {0x80, 0x80, 0x80, 0x80, 127}},
                 {5, {0x80, 0x80, 0x80, 0x80, 128}},
                 {5, {0x80, 0x80, 0x80, 0x80, 255}}};
    struct plan p = short_plan(128, 3);
    build(&p);
    for (size_t item = 0; item < WORD_ITEM + 3; item++)
        for (size_t i = 0; item != Z_ITEM && i < sizeof forms / sizeof *forms; i++)
            give_item(item, forms[i].bytes, forms[i].count);
}

/* Settings that are refused, with nothing behind W11, with a good rest, and with more faults behind it, which must not
 * show. Before W11 another fault comes first. */
static void give_bad_settings(const struct second_settings *s)
{
    static const uint8_t not_shortest[] = {0x80, 0};
    struct plan p = short_plan(128, 2);
    p.s.vl = s->vl;
    p.s.features = s->features;
    p.s.modes = s->modes;
    build(&p);
    give(&whole);
    give_cut(starts[Z_ITEM]);
    give_cut(starts[Z_ITEM] + 100);
    start_damaged(starts[COUNT_ITEM]);
    put_bytes(not_shortest, sizeof not_shortest);
    give(&damaged);
    give_cut(starts[W11_ITEM]);
    start_damaged(starts[W11_ITEM]);
    put_bytes(not_shortest, sizeof not_shortest);
    give(&damaged);
}

static void bad_settings(void)
{
    static const struct second_settings bad[] = {
        {.vl = 0, .features = 1},          {.vl = 64, .features = 1},
        {.vl = 127, .features = 31},       {.vl = 129, .features = 1},
        {.vl = 384, .features = 31},       {.vl = 1024, .features = 31},
        {.vl = UINT32_MAX, .features = 1}, {.vl = 128, .features = 8},
        {.vl = 256, .features = 16},       {.vl = 512, .features = 24},
        {.vl = 128, .features = 27},       {.vl = 256, .features = 32},
        {.vl = 512, .features = 63},       {.vl = 128, .features = UINT32_MAX},
        {.vl = 128, .features = 0, .modes = 1},  {.vl = 256, .features = 3, .modes = 2},
        {.vl = 512, .features = 1, .modes = 3},  {.vl = 128, .features = 31, .modes = 4},
        {.vl = 128, .features = 31, .modes = 1u << 31}, {.vl = 0, .features = 32, .modes = 4}};
    for (size_t i = 0; i < sizeof bad / sizeof *bad; i++)
        give_bad_settings(&bad[i]);
}

/* 9: with nothing behind the count, with words, and with a fault behind it. */
static void too_many(void)
{
    static const uint32_t tried[] = {1025, 1026, 2047, 2048, 16384, 1u << 21, 1u << 28, UINT32_MAX};
    static const uint8_t bad[] = {0x80, 0x80, 0};
    for (size_t i = 0; i < sizeof tried / sizeof *tried; i++) {
        struct plan p = short_plan(vls[i % 3], 4);
        build(&p);
        start_damaged(starts[COUNT_ITEM]);
        put_number(&damaged, tried[i]);
        give(&damaged);
        size_t behind = damaged.length;
        put_bytes(whole.bytes + starts[WORD_ITEM], whole.length - starts[WORD_ITEM]);
        give(&damaged);
        damaged.length = behind;
        put_bytes(bad, sizeof bad);
        give(&damaged);
    }
}

/* 10: one extra byte and many, which need not be numbers. */
static void extra(void)
{
    static const uint8_t one[] = {0, 0x01, 0x80, 0xFF};
    static const size_t many[] = {2, 5, 100, 600};
    for (uint32_t v = 0; v < 3; v++)
        for (uint32_t count = 0; count < 4; count++) {
            struct plan p = short_plan(vls[v], count);
            build(&p);
            start_damaged(whole.length);
            put_bytes(&one[(v + count) % 4], 1);
            give(&damaged);
            for (size_t i = 0; i < sizeof many / sizeof *many; i++) {
                start_damaged(whole.length);
                put_random(many[i]);
                give(&damaged);
            }
        }
}

/* At every byte, or with few cuts in the Z bytes, where all are alike. */
static void give_cuts(const struct plan *p, int at_every_byte)
{
    build(p);
    for (size_t at = 0; at < whole.length; at++)
        if (at_every_byte || at <= starts[Z_ITEM] || at + 1 >= starts[COUNT_ITEM] || at % 128 == 0)
            give_cut(at);
}

/* Three lists cut at every byte: D and E; A and B, and a word of D that is refused with 4; C with ZA off. Two longer
 * ones with few cuts in the Z bytes. */
static void cuts(void)
{
    static const struct {
        struct second_settings s;
        uint32_t count, of[4];
    } every[] = {{{.vl = 128, .features = 28, .modes = 3, .w = {UINT32_MAX, 1u << 21, 128, 5}}, 3, {7, 9, 8}},
                 {{.vl = 128, .features = 31, .modes = 2, .w = {0, 127, 16384, 1u << 28}}, 4, {0, 3, 7, 2}},
                 {{.vl = 128, .features = 4, .modes = 1, .w = {300, 1u << 14, 0, UINT32_MAX - 1}}, 2, {5, 6}}};
    for (size_t i = 0; i < sizeof every / sizeof *every; i++) {
        struct plan p = {.s = every[i].s, .z_kind = FILL_RANDOM};
        for (uint32_t word = 0; word < every[i].count; word++)
            add_word(&p, choose_word(every[i].of[word]));
        give_cuts(&p, 1);
    }
    for (uint32_t v = 1; v < 3; v++) {
        struct plan p = short_plan(vls[v], 3 + v);
        give_cuts(&p, 0);
    }
}

/* Random bytes */

static void random_bytes(void)
{
    for (int i = 0; i < 100; i++) {
        damaged.length = 0;
        put_random(choose(701));
        give(&damaged);
    }
}

/* A good list up to some item, and random bytes from there: nearly all of random bytes alone end in the settings. */
static void random_tails(void)
{
    for (uint32_t i = 0; i < 120; i++) {
        struct plan p = choose_valid_plan(vls[i % 3]);
        add_mixed(&p, 1 + choose(6));
        build(&p);
        start_damaged(starts[i % 4 == 0 ? Z_ITEM + choose(2) : WORD_ITEM + choose(p.count)]);
        put_random(i % 8 == 0 ? choose(701) : choose(20));
        give(&damaged);
    }
}

/* Half of the changes are outside the Z bytes, where they do more. */
static void changes(void)
{
    for (uint32_t i = 0; i < 160; i++) {
        struct plan p = choose_valid_plan(vls[i % 3]);
        add_mixed(&p, 1 + choose(12));
        build(&p);
        size_t z = second_z_length(p.s.vl), at = choose((uint32_t)(i % 2 == 0 ? whole.length : whole.length - z));
        if (i % 2 == 1 && at >= starts[Z_ITEM])
            at += z;
        whole.bytes[at] ^= (uint8_t)(1 + choose(255));
        give(&whole);
    }
}

/* Inputs that are about as long as what the list program keeps, or longer: a good list with extra bytes, the longest
 * one likewise, random bytes, and a good start with random bytes behind it. */
static void long_inputs(void)
{
    static const size_t lengths[] = {MOST_LIST - 1, MOST_LIST, MOST_LIST + 1, 10000, MOST_MADE};
    static struct plan p;
    for (size_t i = 0; i < sizeof lengths / sizeof *lengths; i++) {
        p = short_plan(vls[i % 3], 2);
        build(&p);
        start_damaged(whole.length);
        put_random(lengths[i] - damaged.length);
        give(&damaged);
        start_damaged(starts[COUNT_ITEM]);
        put_random(lengths[i] - damaged.length);
        give(&damaged);
        damaged.length = 0;
        put_random(lengths[i]);
        give(&damaged);
        plan_longest(&p);
        build(&p);
        start_damaged(whole.length);
        put_random(lengths[i] - damaged.length);
        give(&damaged);
    }
}

void make_lists(uint32_t seed, take_list *take, void *context)
{
    static const struct {
        const char *name;
        void (*make)(void);
    } kinds[] = {{"settings", all_settings},     {"families", families},  {"selects", selects},
                 {"counts", counts},             {"longest", longest},    {"ends", ends},
                 {"numbers", numbers},           {"too-many", too_many},  {"extra", extra},
                 {"bad-settings", bad_settings}, {"cuts", cuts},          {"random", random_bytes},
                 {"tails", random_tails},        {"changes", changes},    {"long-inputs", long_inputs}};
    taker = take;
    taker_context = context;
    start_choosing(seed);
    for (size_t i = 0; i < sizeof kinds / sizeof *kinds; i++) {
        kind = kinds[i].name;
        kinds[i].make();
    }
}
