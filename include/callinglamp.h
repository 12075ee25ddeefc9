/* Callinglamp, for C and C++: the eight calls of the proved library, by numbers and bytes.
 *
 * `tools/build-c` proves the library, and lays it down with this header. Document 01, and the requests of document 02
 * that have landed, say what each call answers, and the words below are theirs.
 *
 * The families, what they need of the settings, and a word of each with its text:
 *     family  mnemonics                                          features          modes
 *     A       smlal smlsl umlal umlsl and .. 2, by element       AdvSIMD           SM off
 *     B       the same, by vector                                AdvSIMD           SM off
 *     C       sqdmlalb sqdmlalt sqdmlslb sqdmlslt, by element    SVE2 or SME       SM on, or SVE2
 *     D       smlall smlsll umlall umlsll, into ZA               SME2; for lanes   SM and ZA on
 *                                                                of 16 I16I64 too
 *     E       smlal smlsl umlal umlsl, into ZA                   SME2              SM and ZA on
 *
 *     A  6F536841  umlsl2 v1.4s, v2.8h, v3.h[5]
 *     B  0E238041  smlal v1.8h, v2.8b, v3.8b
 *     C  44B32841  sqdmlalb z1.s, z2.h, z3.h[5]
 *     D  C1A20008  smlsll za.s[w8, 0:3, vgx2], { z0.b-z1.b }, { z2.b-z3.b }
 *     E  C1FD6813  umlal za.s[w11, 6:7, vgx4], { z0.h-z3.h }, { z28.h-z31.h }
 *
 * What C must keep to, since nothing checks it:
 *   - no pointer is NULL, also where the length beside it is 0;
 *   - an array has at least the number of elements that is named with it, and a length is true;
 *   - what a call may change overlaps nothing else that is lent to the same call.
 * All else may be given: any number, any word, any length, any list. A call keeps nothing after it has returned, and
 * uses no memory but what is lent to it and the stack. Calls may be made from several threads, if what one may change
 * is lent to no other meanwhile.
 *
 * A refused call writes nothing: every lent byte and number, fields, counts and totals included, is as it was. */
#ifndef CALLINGLAMP_H
#define CALLINGLAMP_H

#include <stddef.h>
#include <stdint.h>

/* The version, 3.0.0, as one number: ten thousands are its major number, hundreds its minor one. The major number is
 * another where a caller has to change something, as where an array is longer or an answer comes out otherwise;
 * CHANGELOG.md says what. */
#define CALLINGLAMP_VERSION 30000

#ifdef __cplusplus
extern "C" {
#endif

/* The version of the library that was linked. Where it is not CALLINGLAMP_VERSION, the library and this header do not
 * belong together. */
uint32_t callinglamp_version(void);

/* Refusal numbers. A call tests in the order that stands with it, and the first test that fails decides. */
enum {
    CALLINGLAMP_ACCEPTED = 0,
    CALLINGLAMP_BAD_SETTINGS = 1,   /* VL, features or modes outside the rules */
    CALLINGLAMP_BAD_LENGTH = 2,     /* Z, ZA or report length wrong */
    CALLINGLAMP_UNKNOWN_WORD = 3,   /* no layout matches, a reserved size, or a feature missing */
    CALLINGLAMP_WRONG_MODE = 4,     /* the mode does not permit the family */
    CALLINGLAMP_NO_SUCH_WORD = 5,   /* no word has exactly these fields */
    CALLINGLAMP_NO_PARTNER = 6,     /* the word is of family C */
    CALLINGLAMP_LIST_ENDS = 7,      /* the list ends inside a number or the Z bytes, or before one that is due */
    CALLINGLAMP_BAD_NUMBER = 8,     /* a number whose last of several groups is zero, or whose fifth byte is above 15 */
    CALLINGLAMP_TOO_MANY_WORDS = 9, /* n above 1,024 */
    CALLINGLAMP_EXTRA_BYTES = 10,   /* bytes after the last word */
    CALLINGLAMP_NOT_TEXT = 11,      /* text that is not of the language */
    CALLINGLAMP_SHORT_ROOM = 12     /* the room is shorter than the text */
};

/* Every call but percent answers two numbers in one: the refusal number, 0 for accepted, and a value beside it. The
 * value is the word of an accepted encode, partner or read, the length of an accepted print's text, the place of a
 * refused list, and 0 otherwise. */
static inline uint32_t callinglamp_refusal(uint64_t answer)
{
    return (uint32_t)(answer & 0xFFFFFFFFu);
}

static inline uint32_t callinglamp_value(uint64_t answer)
{
    return (uint32_t)(answer >> 32);
}

/* 1 where the call was accepted, and 0 where it was refused. It is not for percent, whose answer is its number. */
static inline int callinglamp_ok(uint64_t answer)
{
    return callinglamp_refusal(answer) == CALLINGLAMP_ACCEPTED;
}

/* What a refusal number says to whoever runs a program, in a sentence without its full stop. `./lamp` and `./spell` say
 * it too: they take it from these lines. */
static inline const char *callinglamp_refusal_text(uint32_t number)
{
    switch (number) {
    case 0: return "accepted";
    case 1: return "the settings are not valid: VL, the features or the modes";
    case 2: return "Z, ZA or the report does not have the length that is due";
    case 3: return "the word is none of the five families, its size is reserved, or the settings lack a feature of it";
    case 4: return "the modes do not permit the word: A and B need SM off, C SM on or SVE2, D and E SM and ZA on";
    case 5: return "no word has these fields";
    case 6: return "the word is of family C, which has no partner";
    case 7: return "the list ends too early: inside a number or the Z bytes, or before a number that is due";
    case 8: return "a number of the list is not in its shortest form, or not below 2^32";
    case 9: return "the list has more than 1,024 words";
    case 10: return "the list goes on after its last word";
    case 11: return "the text is not that of a word, in lower case and with the one spacing";
    case 12: return "the room is shorter than the text";
    default: return "no refusal has this number";
    }
}

/* A call needs at most so many bytes of stack. Measured on x86-64: run needs 7,688 where it is the first to call memset
 * of a C library that is linked dynamically; 1.2.0 took 5,536 compiled for an Arm, under an emulator; every other call
 * less than 900. */
enum { CALLINGLAMP_STACK = 16384 };

/* settings[7]: VL, features, modes, W8, W9, W10, W11.
 *   VL         128, 256 or 512 bits
 *   features   a sum of CALLINGLAMP_FEATURE_..; SME2 needs SME, and I16I64 needs SME; 0 is valid, and enables no word
 *   modes      a sum of CALLINGLAMP_MODE_..; either needs SME
 *   W8 to W11  the select registers, any number
 * Settings that do not keep to this are refused with 1 by every call that takes them, before all else. */
enum { CALLINGLAMP_SETTINGS = 7 };

/* Z has 32 * VL/8 bytes, and ZA VL/8 * VL/8. Rooms of these lengths hold them at any VL; a call is told the lengths of
 * its own VL. */
enum { CALLINGLAMP_MOST_Z = 2048, CALLINGLAMP_MOST_ZA = 4096 };

enum {
    CALLINGLAMP_FEATURE_ADVSIMD = 1,
    CALLINGLAMP_FEATURE_SVE2 = 2,
    CALLINGLAMP_FEATURE_SME = 4,
    CALLINGLAMP_FEATURE_SME2 = 8,
    CALLINGLAMP_FEATURE_I16I64 = 16
};

enum { CALLINGLAMP_MODE_SM = 1, CALLINGLAMP_MODE_ZA = 2 };

/* fields[12]: what a word says, at the places that are named here. A field that a family lacks is 0; the group is
 * then 1. */
enum {
    CALLINGLAMP_FIELD_FAMILY = 0,      /* one of CALLINGLAMP_FAMILY_.. */
    CALLINGLAMP_FIELD_UNSIGNED = 1,    /* 1 is unsigned; C has 0 */
    CALLINGLAMP_FIELD_SUBTRACT = 2,    /* 1 subtracts */
    CALLINGLAMP_FIELD_LANE = 3,        /* 8, 16 or 32 bits */
    CALLINGLAMP_FIELD_PART = 4,        /* A, B: the half of the first source; C: 0 bottom, 1 top */
    CALLINGLAMP_FIELD_INDEX = 5,       /* A, C: the element of the second source */
    CALLINGLAMP_FIELD_DESTINATION = 6, /* A, B, C: the register that changes */
    CALLINGLAMP_FIELD_FIRST = 7,       /* the first source, or the first register of it */
    CALLINGLAMP_FIELD_SECOND = 8,      /* the second source, or the first register of it */
    CALLINGLAMP_FIELD_GROUP = 9,       /* D, E: 2 or 4 */
    CALLINGLAMP_FIELD_SELECT = 10,     /* D, E: 8 to 11, for W8 to W11 */
    CALLINGLAMP_FIELD_OFFSET = 11,     /* D, E: the first offset */
    CALLINGLAMP_FIELDS = 12
};

enum {
    CALLINGLAMP_FAMILY_BY_ELEMENT = 1, /* A */
    CALLINGLAMP_FAMILY_VECTOR = 2,     /* B */
    CALLINGLAMP_FAMILY_SATURATING = 3, /* C */
    CALLINGLAMP_FAMILY_LONG_LONG = 4,  /* D */
    CALLINGLAMP_FAMILY_LONG = 5        /* E */
};

/* What a word says.
 *   settings  as above
 *   word      any number: the word
 *   fields    accepted: the word's fields
 * Refused with 1; 3 where no layout matches the word, its size is reserved, or the settings lack a feature. */
uint64_t callinglamp_decode(const uint32_t settings[7], uint32_t word, uint32_t fields[12]);

/* The word that has just these fields. It is the answer's value.
 *   settings  as above
 *   fields    any numbers; those that are no fields (family not 1 to 5, unsigned or subtract above 1) belong to no word
 * Refused with 1; 5 where no word of the family's layout has exactly these fields, a field that the family lacks
 * included; 3 where the settings lack a feature. */
uint64_t callinglamp_encode(const uint32_t settings[7], const uint32_t fields[12]);

/* The word with S flipped: the same word, but that it subtracts where the other adds. It is the answer's value.
 * Run next, it leads back to where its word began, with the word's rises as falls and its falls as rises. For a word of
 * A or B that holds where its destination is no source of it and has zeros from byte 16 on before the word runs: what a
 * word clears there no partner brings back.
 *   settings  as above
 *   word      any number: the word
 * Refused with 1; 3 as in decode; 6 where the word is of family C. */
uint64_t callinglamp_partner(const uint32_t settings[7], uint32_t word);

/* counts[3]: rises, falls, written.
 *   rises    the number of bits of Z and ZA that were 0 and are 1
 *   falls    the number of bits of Z and ZA that were 1 and are 0
 *   written  the number of bits that the word writes, whether they change or not: VL in A, B and C, VL * group * 4 in D
 *            and VL * group * 2 in E
 * Toggled, the number of bits that changed, is rises + falls. */
enum { CALLINGLAMP_COUNTS = 3 };

/* Runs one word.
 *   settings       as above
 *   word           any number: the word
 *   z, z_length    Z: 32 registers of VL/8 bytes, 32 * VL/8 bytes in all
 *   za, za_length  ZA: VL/8 vectors of VL/8 bytes
 *   counts         accepted: as above
 * A word of A or B writes a V register, the low 16 bytes of its Z register, and sets the rest of the Z register to
 * zero, as Arm's manual says. The bits that this clears are falls. At VL 128 there is no rest. Its sources are read
 * first, and of them nothing but the low 16 bytes.
 * Refused with 1; 2 where a length is not exact, whatever the family; 3 as in decode; 4 where the modes do not permit
 * the family: A and B need SM off, C needs SM on or SVE2, D and E need SM and ZA on. */
uint64_t callinglamp_execute(const uint32_t settings[7], uint32_t word, uint8_t *z, size_t z_length, uint8_t *za,
                             size_t za_length, uint32_t counts[3]);

/* 100 * toggled / written, rounded down; 0 where written is 0. It is never refused, and its answer is the number.
 *   toggled  any number, as rises + falls; it may be the larger
 *   written  any number */
uint64_t callinglamp_percent(uint32_t toggled, uint32_t written);

/* A list has at most so many words, and a report so many numbers for each of them: MOST_WORDS * PER_WORD are enough for
 * any list. */
enum { CALLINGLAMP_MOST_WORDS = 1024, CALLINGLAMP_PER_WORD = 4, CALLINGLAMP_TOTALS = 4 };

/* Runs a list of words: VL, features, modes, W8 to W11; the Z bytes as they are; a count n; n words. Its numbers are in
 * groups of seven bits, low group first, top bit set when another follows, in the shortest form, below 2^32.
 *   list, list_length      the list's bytes
 *   z, z_length            as in execute, at the list's VL. Accepted: Z after the last word; what was there is not read
 *   za, za_length          likewise ZA, which starts at zero
 *   report, report_length  numbers of 32 bits, at least 4n of them. Accepted: four for each word, in order: the word's
 *                          refusal (3 or 4) or 0, rises, falls, written. The rest stays
 *   totals                 accepted: n, and the sums of rises, of falls and of written
 * A word that is refused with 3 or 4 changes no register, and the run goes on: the list is accepted. Its rises, falls
 * and written are 0. Over the run, ones of Z and ZA at the end plus falls is ones at the start plus rises.
 *
 * Refused for the first fault from left to right. The answer's value is the place of the fault, a byte of the list.
 *   7   place: the first byte of the number or of the Z bytes in which the list ends, or list_length where a number is
 *       due and has no byte at all
 *   8   place: the first byte of the number
 *   1   after W11; place 0
 *   2   Z and ZA lengths, which are exact, after the settings; the report's after n, and before the first word; place 0
 *   9   place: the first byte of n
 *   10  place: the first extra byte */
uint64_t callinglamp_run(const uint8_t *list, size_t list_length, uint8_t *z, size_t z_length, uint8_t *za,
                         size_t za_length, uint32_t *report, size_t report_length, uint32_t totals[4]);

/* The longest text has so many bytes, so that a room of this length is long enough for any word. LONGEST_TEXT is the
 * name that it had first. */
enum { CALLINGLAMP_MOST_TEXT = 61, CALLINGLAMP_LONGEST_TEXT = CALLINGLAMP_MOST_TEXT };

/* Prints Arm's preferred text of a word. Its length is the answer's value.
 *   settings           as above
 *   word               any number: the word
 *   room, room_length  accepted: the text, at the room's start; the rest stays
 * A text is in ASCII and in lower case. A space stands where one stands in the texts at the top of this file, and
 * nowhere else; no line end and no NUL follows.
 * Refused with 1; 3 as in decode; 12 where the room is shorter than the text. */
uint64_t callinglamp_print(const uint32_t settings[7], uint32_t word, char *room, size_t room_length);

/* Reads a text. The word that it says is the answer's value.
 *   settings           as above
 *   text, text_length  any bytes
 * The language is the texts that print gives under all features, and those of D and E also without ", vgx2" or
 * ", vgx4": nothing else, so no capital, no other space, no leading zero, no number that no word of the family can
 * carry, and nothing before or after.
 * Refused with 1; 11 where the text is not of the language, whatever the features; 3 where the settings lack a feature
 * of the word. */
uint64_t callinglamp_read(const uint32_t settings[7], const char *text, size_t text_length);

#ifdef __cplusplus
}
#endif

#endif
