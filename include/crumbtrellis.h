/*
 * Crumbtrellis from C: block counts, coded speeds and the tape head, on numbers and bytes.
 *
 * Link with libcrumbtrellis.a, which `rt lib` in crates/crumbtrellis writes to crates/crumbtrellis/out/ (x86-64 Linux).
 *
 * Every function returns 0 for success, or the number of the refusal. For every input there is one answer:
 *   success:  returns 0, *place is 0, *value is the value, or *kind and *units are the speed;
 *   refusal:  returns its number, *place is its place, *value, *kind and *units are 0, and the buffer stays as it was.
 * Rows, bytes and blocks count from 0.
 *
 * What the caller owes:
 *   - `place`, `value` and `units` point to a uint64_t each and `kind` to a uint32_t, which may hold anything before the
 *     call; none may be null;
 *   - a pointer with its length points to that many bytes; where the length is 0 it may be null;
 *   - `place`, `value`, `kind`, `units` and the bytes of `buffer` overlap neither each other nor any other bytes handed
 *     over (slices that are only read, a shorthand, a profile and a tape, may overlap);
 *   - no other thread writes to any of these during the call.
 * No function keeps a pointer, allocates, or has state of its own; calls may run in several threads at once.
 *
 * Example: how many blocks has a tape?
 *
 *     const char *shorthand = "N3.G2.X+42.F3.M2*", *profile = "IPM 111";
 *     uint64_t place, blocks;
 *     uint32_t number = crumbtrellis_count_blocks(1057, (const uint8_t *)shorthand, strlen(shorthand),
 *                                                 (const uint8_t *)profile, strlen(profile),
 *                                                 tape, rows, &place, &blocks);
 *     if (number == 0)
 *         printf("blocks %llu\n", (unsigned long long)blocks);
 *     else
 *         printf("refused %u %llu\n", number, (unsigned long long)place);
 *
 * Without a profile, NULL and 0 stand in its place.
 */
#ifndef CRUMBTRELLIS_H
#define CRUMBTRELLIS_H

#include <stddef.h>
#include <stdint.h>

#ifdef __cplusplus
extern "C" {
#endif

/* The refusals: when, and at which place. A function's own comment says which of them it gives. */
enum crumbtrellis_refusal {
    CRUMBTRELLIS_EDITION = 1,           /* the edition is neither 1057 nor 2539; place 0 */
    CRUMBTRELLIS_SHORTHAND_FORM = 2,    /* the shorthand is out of form; the byte where the faulty item begins, its dot included,
                                           the length where "*" is missing, or the byte after "*" */
    CRUMBTRELLIS_SHORTHAND_EDITION = 3, /* the shorthand is beyond the edition; the byte where the item begins, its dot included */
    CRUMBTRELLIS_TAPE_LENGTH = 4,       /* the tape has over 1,000,000 rows; 1,000,000 */
    CRUMBTRELLIS_ODD_ROW = 5,           /* an odd number of holes; the lowest such row */
    CRUMBTRELLIS_NO_CHARACTER = 6,      /* not one of the 50 characters; the lowest such row */
    CRUMBTRELLIS_CONTROL_OUT = 7,       /* ")" outside a control-out, ":" or "%" inside one, "(" never closed; the lowest such
                                           row, an unclosed "(" at its own */
    CRUMBTRELLIS_HEAD = 8,              /* the tape does not begin with % and an end; the first wrong row, or the tape's length */
    CRUMBTRELLIS_SEQUENCE = 9,          /* no N or ":", or a wrong count of digits behind it; in 2539, where the number may be
                                           missing, a row that begins no block; the first wrong row. There a block with neither
                                           number nor word too; its LF */
    CRUMBTRELLIS_NOT_DUE = 10,          /* another character where a word, tab or end could stand, an address that is not due or,
                                           without addresses, any letter, a tab too many, CR without LF; that row, the CR's own */
    CRUMBTRELLIS_DIGITS = 11,           /* too few or too many digits in a word; the first wrong row */
    CRUMBTRELLIS_SIGN = 12,             /* a sign is missing or not allowed; the row found there, behind the address or, without
                                           addresses, behind the tab */
    CRUMBTRELLIS_SECOND_ZERO = 13,      /* the second of a speed's 3 to 5 digits is zero and not all are; the row of the address,
                                           or without addresses the word's first digit; 0 for a code given as a number */
    CRUMBTRELLIS_TAPE_ENDS = 14,        /* the tape ends inside a block; the tape's length */
    CRUMBTRELLIS_NO_BLOCK = 15,         /* block n is not there; the number of blocks */
    CRUMBTRELLIS_RECORD = 16,           /* a record's count over 22, no number where there must be one, or a word that is no item, out
                                           of order or of the wrong kind; 23, 0, or the word from 1 */
    CRUMBTRELLIS_NUMBER = 17,           /* a number does not fit its item, or is negative without a sign; 0 for the sequence
                                           number, else the word from 1 */
    CRUMBTRELLIS_INEXACT = 18,          /* a speed has no exact code; the word from 1 */
    CRUMBTRELLIS_BUFFER = 19,           /* the buffer is too small; the rows needed */
    CRUMBTRELLIS_NOT_CODABLE = 20,      /* a speed cannot be coded; 0 */
    CRUMBTRELLIS_CODE_LENGTH = 21,      /* a code's length is not 2 to 5, or the code has more digits; 0 */
    CRUMBTRELLIS_PROFILE_FORM = 22,     /* the profile is out of form; the first wrong byte of it, or its length */
    CRUMBTRELLIS_PROFILE_AGREEMENT = 23 /* the shorthand does not agree with the profile, or the profile's digits are out of
                                           order; 0 */
};

/* The kinds of a speed. Only a rate has units, which are ten-millionths; those of a stop and of a rapid are 0. */
enum crumbtrellis_speed {
    CRUMBTRELLIS_RATE = 0,
    CRUMBTRELLIS_STOP = 1,
    CRUMBTRELLIS_RAPID = 2
};

/*
 * The number of blocks of a tape, one byte a row, under an edition (1057 or 2539), a format shorthand in ASCII and a profile,
 * which is the general shorthand in ASCII ("IPM 111", "LSMD442A") and must agree with the other. A profile of length 0 is no
 * profile. Under a profile with T, and only then, words have no addresses and are known by their tabs.
 * The whole tape is judged. Refusals: 1; 2 or 3; 22; 23; 4; 5; 6; 7; then 8 to 14 at the first fault in tape order.
 */
uint32_t crumbtrellis_count_blocks(uint32_t edition, const uint8_t *shorthand, size_t shorthand_length, const uint8_t *profile,
                                   size_t profile_length, const uint8_t *tape, size_t tape_length, uint64_t *place,
                                   uint64_t *value);

/*
 * The speed that a code of 2 to 5 digits means. The code is given as a number: 46 in three digits is 046. In two digits 00 is
 * a stop, 99 a rapid, and any other a rate of the table of preferred numbers; in 3 to 5 every speed is a rate, all zeros too.
 * Refusals: 21, then 13, which no code of two digits gives.
 */
uint32_t crumbtrellis_speed_of(uint32_t digits, uint64_t code, uint64_t *place, uint32_t *kind, uint64_t *units);

/*
 * The code, of 2 to 5 digits, of a speed, as a number. In two digits a rate has the code of the nearest one in the table, the
 * larger of two equally near; in 3 to 5 it is rounded to one significant digit fewer than the code has digits, a half upwards,
 * and zero is all zeros. Refusals: 21; then 20 for a rate under 11,200,000 or over 800,000,000,000 units in two digits, for a
 * stop or a rapid in 3 to 5, for a rate that has no code there, for a kind over 2 and for a stop or a rapid with units.
 */
uint32_t crumbtrellis_code_of(uint32_t digits, uint32_t kind, uint64_t units, uint64_t *place, uint64_t *value);

/*
 * Writes the tape head, % and LF with their parity holes, to the front of the buffer; the value is the number of rows
 * written, 2. What stands behind them in the buffer stays. Refusal: 19 at 2.
 */
uint32_t crumbtrellis_punch_head(uint8_t *buffer, size_t buffer_length, uint64_t *place, uint64_t *value);

#ifdef __cplusplus
}
#endif

#endif
