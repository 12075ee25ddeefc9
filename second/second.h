/* The second program's library: document 01 and requests One, Two and Three of document 02 in C. The proved library is
 * held to it.
 *
 * Every call returns a refusal number of these papers, or 0. A refused call puts zeros in its small answers (fields, a
 * word, counts, a place, a length) and leaves every lent buffer (Z, ZA, report, room) as it was. */
#ifndef SECOND_H
#define SECOND_H

#include <stddef.h>
#include <stdint.h>

enum {
    SECOND_ADVSIMD = 1,
    SECOND_SVE2 = 2,
    SECOND_SME = 4,
    SECOND_SME2 = 8,
    SECOND_I16I64 = 16
};

enum { SECOND_SM = 1, SECOND_ZA = 2 };

enum {
    SECOND_ACCEPTED = 0,
    SECOND_BAD_SETTINGS = 1,
    SECOND_BAD_LENGTH = 2,
    SECOND_UNKNOWN_WORD = 3,
    SECOND_WRONG_MODE = 4,
    SECOND_NO_SUCH_WORD = 5,
    SECOND_NO_PARTNER = 6,
    SECOND_LIST_ENDS = 7,
    SECOND_BAD_NUMBER = 8,
    SECOND_TOO_MANY_WORDS = 9,
    SECOND_EXTRA_BYTES = 10,
    SECOND_NOT_TEXT = 11,
    SECOND_SHORT_ROOM = 12
};

/* 0 is no family, so that the zeros of a refusal name none. */
enum { SECOND_FAMILY_A = 1, SECOND_FAMILY_B, SECOND_FAMILY_C, SECOND_FAMILY_D, SECOND_FAMILY_E };

enum { SECOND_MOST_WORDS = 1024 };

struct second_settings {
    uint32_t vl;
    uint32_t features;
    uint32_t modes;
    uint32_t w[4]; /* W8 to W11 */
};

struct second_fields {
    uint32_t family;
    uint32_t is_unsigned;
    uint32_t subtract;
    uint32_t lane;
    uint32_t part;
    uint32_t index;
    uint32_t destination;
    uint32_t first;
    uint32_t second;
    uint32_t group;
    uint32_t select;
    uint32_t offset;
};

/* The lengths in bytes that Z and ZA have at a valid VL, and those that no VL exceeds. */
enum { SECOND_MOST_Z = 2048, SECOND_MOST_ZA = 4096 };
size_t second_z_length(uint32_t vl);
size_t second_za_length(uint32_t vl);

int second_decode(const struct second_settings *settings, uint32_t word, struct second_fields *fields);
int second_encode(const struct second_settings *settings, const struct second_fields *fields, uint32_t *word);
int second_partner(const struct second_settings *settings, uint32_t word, uint32_t *partner);

/* The longest text has so many bytes. */
enum { SECOND_LONGEST_TEXT = 61 };

/* Puts the word's text into the room, with no line end and no NUL: the room past it stays. */
int second_print(const struct second_settings *settings, uint32_t word, char *room, size_t room_len, size_t *length);

/* Reads a text, which may hold any bytes. */
int second_read(const struct second_settings *settings, const char *text, size_t text_len, uint32_t *word);

/* The bits of Z and ZA that were 0 and are 1, those that were 1 and are 0, and how many were written. Toggled is rises
 * plus falls. A word of A or B writes its whole Z register: its lanes, and zeros from byte 16 on. */
struct second_counts {
    uint32_t rises;
    uint32_t falls;
    uint32_t written;
};

int second_execute(const struct second_settings *settings, uint32_t word, uint8_t *z, size_t z_len, uint8_t *za,
                   size_t za_len, struct second_counts *counts);

uint64_t second_percent(uint32_t toggled, uint32_t written);

/* A report has so many numbers for each word: the refusal or 0, rises, falls, written. `report_len` counts numbers, not
 * bytes. `report_words` of an accepted list is its count n. */
enum { SECOND_PER_WORD = 4 };
int second_run(const uint8_t *list, size_t list_len, uint8_t *z, size_t z_len, uint8_t *za, size_t za_len,
               uint32_t *report, size_t report_len, size_t *place, uint32_t *report_words);

/* Reads one number of a list at *place and moves *place past it. Returns 0, 7 or 8; a fault moves nothing. */
int second_read_number(const uint8_t *list, size_t list_len, size_t *place, uint32_t *number);

#endif
