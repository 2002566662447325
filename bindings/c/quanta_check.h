/*
 * Verdicts on sheets of the Quanta contract language, by the library libquanta_check.a.
 * README.md has how to build and link it.
 */
#ifndef QUANTA_CHECK_H
#define QUANTA_CHECK_H

#include <stddef.h>
#include <stdint.h>

#ifdef __cplusplus
extern "C" {
#endif

/* The largest sheet that is read. A line is ended by LF. */
#define QUANTA_MAX_BYTES 16384
#define QUANTA_MAX_LINES 1024

/* Entries of the scratch for each line, and as many as any sheet needs. */
#define QUANTA_SCRATCH_PER_LINE 8
#define QUANTA_MAX_SCRATCH (QUANTA_SCRATCH_PER_LINE * QUANTA_MAX_LINES)

/* A byte of the type table: the type of the expression that stands on the line. */
enum quanta_type {
    QUANTA_TYPE_NOT_REACHED = 0, /* no rule asked for a type before the verdict */
    QUANTA_TYPE_INT = 1,
    QUANTA_TYPE_BOOL = 2,
    QUANTA_TYPE_ADDRESS = 3,
    QUANTA_TYPE_ASSET = 4,
    QUANTA_TYPE_WORD64 = 5,
    QUANTA_TYPE_NAME = 6,
    QUANTA_TYPE_TIME = 7,
    QUANTA_TYPE_STR = 8,
    QUANTA_TYPE_COLLECTION = 9,
    QUANTA_TYPE_UNKNOWN = 10,
    QUANTA_TYPE_REFUSED = 11 /* the refusal came while it was typed */
};

typedef struct quanta_answer {
    /* 0: accepted. 1 to 11: the sheet is not read. From 12 on: a rule refuses the contract. */
    uint32_t number;
    /* 0 for 0 to 5; the line at fault, from 1, for 6 to 11; the span at fault from 12 on. */
    uint32_t place;
    /* How many lines have a type other than QUANTA_TYPE_NOT_REACHED. 0 for 1 to 11. */
    uint32_t count;
    /* The length of the message in bytes, written or not. 0 for 0 to 11. */
    uint32_t length;
} quanta_answer;

/*
 * Judges a sheet. There is an answer for all bytes and all lengths, whatever the buffers hold.
 *
 * Lengths are in bytes, scratch_len is in entries. The sheet is only read. Lent are
 *   scratch    QUANTA_SCRATCH_PER_LINE entries for each line of the sheet; fewer are refusal 5;
 *   types      a byte for each line; fewer are refusal 4;
 *   message    any length; QUANTA_MAX_BYTES bytes hold every message.
 *
 * Afterwards, by number:
 *              1 to 5      6 to 11     0 and from 12 on
 *   scratch    untouched   zeros       zeros
 *   types      untouched   untouched   a quanta_type for each line
 *   message    untouched   untouched   the message, if length <= message_len; else untouched
 *
 * The zeros are QUANTA_SCRATCH_PER_LINE entries for each line. Beyond those entries, the line
 * count and the message's length nothing is touched. The message is ASCII and has no NUL at its
 * end. Where length > message_len, lend length bytes and call again.
 *
 * The caller must see to it that
 *   - no pointer is null and scratch is aligned for uint16_t, also where the length is 0: an empty
 *     buffer may be lent as the address of any variable of its type, and is not accessed;
 *   - each pointer has as many elements behind it as its length says;
 *   - the buffers overlap neither each other nor the sheet.
 *
 * Nothing is allocated or kept between calls. Threads may call at the same time, each with
 * buffers of its own.
 */
quanta_answer quanta_check(const uint8_t *sheet, size_t sheet_len, uint16_t *scratch,
                           size_t scratch_len, uint8_t *types, size_t types_len, uint8_t *message,
                           size_t message_len);

#ifdef __cplusplus
}
#endif

#endif
