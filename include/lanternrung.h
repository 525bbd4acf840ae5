/* Lanternrung: JAXN (JSON with comments, NaN, dates and raw bytes) read into a tape and a store, and written back.
 *
 * The archive is made by `harness/archive lanternrung`, for Linux on x86-64: target/native/liblanternrung.a, and liblanternrung.so, which
 * needs no other library. docs/LINKING.md has whole programs in C and Rust.
 *
 * Every call ends, on any bytes. It answers done (`refused` 0, `place` 0) or one refusal (enum lr_refusal) with its place; in a refusal all
 * other fields are 0, and every buffer that was lent holds what it held before. No call keeps a pointer or allocates. Lent buffers must not
 * overlap. With a length of 0 the pointer is not looked through, and may be null.
 *
 * How much to lend. For reading: lanternrung_measure answers the records, of 16 bytes of tape each, and the store bytes. For writing: a write
 * with an output of length 0 answers 12 (LR_OUTPUT_TOO_SHORT), and its place is the length needed; lend that, and write again.
 *
 * The tape is one record of 16 bytes for each part of the text, in text order; numbers are little-endian, signed ones in two's complement,
 * and bytes that a kind does not name are 0. lanternrung_look answers a record with its fields; a program may also read the bytes itself:
 *
 *   kind       mark (bytes 0-1)  fields
 *   LR_NU      "nu"              none: null
 *   LR_BO      "bo"              4: 0 false, 1 true
 *   LR_NB      "nb"              2: 1 if minus; 4-7: power of ten, signed; 8-15: coefficient
 *   LR_NX      "nx"              4: 0 NaN, 1 Infinity, 2 -Infinity
 *   LR_ST      "st"              4-7: length; 8-15: start in the store: a string, in UTF-8
 *   LR_KY      "ky"              alike: the key of the value that comes next
 *   LR_BY      "by"              alike: binary
 *   LR_LD      "ld"              2-3: year; 4: month; 5: day
 *   LR_LT      "lt"              8-15: time of day, in nanoseconds
 *   LR_DT      "dt"              as "ld", and 8-15: time of day
 *   LR_OD      "od"              as "dt", and 6-7: offset in minutes, signed
 *   LR_AR      "ar"              4-7: count of the elements directly inside; 8-15: index just after the last record inside; its own index
 *                                and 1 if it is empty
 *   LR_OB      "ob"              alike, with the count of its members; a key and its value are one
 *
 * The store holds the bytes of strings, keys and binary in tape order, without gaps.
 */
#ifndef LANTERNRUNG_H
#define LANTERNRUNG_H

#include <stddef.h>
#include <stdint.h>

/* One more whenever a call, a struct, a number or a meaning here changes or is added. */
#define LR_VERSION 5

#ifdef __cplusplus
extern "C" {
#endif

/* What `refused` holds. refusals: begin (made by harness/refusals from docs/refusals.txt) */
enum lr_refusal {
    LR_DONE = 0,
    /* text over 16,777,216 bytes; place: 16777216 */
    LR_TEXT_TOO_LONG = 1,
    /* not UTF-8; place: first byte of the first ill-formed sequence */
    LR_NOT_UTF8 = 2,
    /* not the grammar; place: first byte no rule allows there, or the text's length */
    LR_NOT_GRAMMAR = 3,
    /* lone surrogate, surrogate in \u{}, above 10FFFF; place: its backslash */
    LR_BAD_ESCAPE = 4,
    /* time field outside its range or calendar; place: first byte of the time value; for date, 0 */
    LR_BAD_TIME = 5,
    /* number outside the range: its coefficient is 2^64 or more, or its power of ten is not from -9,999 to 9,999; place: its first byte, sign included */
    LR_BAD_NUMBER = 6,
    /* more than 64 arrays and objects open; place: the opening bracket */
    LR_TOO_DEEP = 7,
    /* tape too short; place: tape bytes needed */
    LR_TAPE_TOO_SHORT = 8,
    /* store too short; place: store bytes needed */
    LR_STORE_TOO_SHORT = 9,
    /* not a well-formed tape; place: 0; for look, the index */
    LR_NOT_WELL_FORMED = 10,
    /* no JSON form: non-finite, binary, time; place: index of the first such record */
    LR_NO_JSON_FORM = 11,
    /* output too short; place: bytes needed */
    LR_OUTPUT_TOO_SHORT = 12,
    /* written text over 16,777,216 bytes; place: length it would have */
    LR_WRITTEN_TOO_LONG = 13,
    /* index not below the number of whole records; place: the index */
    LR_NO_SUCH_RECORD = 14,
    /* repeated key: an object holds two equal keys; place: first byte of the first key in the text that repeats an earlier one */
    LR_REPEATED_KEY = 15
};
/* refusals: end. docs/REFUSALS.md says of each what was found, and what to do. */

#ifndef LR_STATUS
#define LR_STATUS
typedef struct {
    uint32_t refused; /* enum lr_refusal; 0: done */
    uint64_t place;
} lr_status;
#endif

typedef struct {
    uint32_t refused;
    uint64_t place;
    uint64_t records; /* 16 bytes of tape each */
    uint64_t bytes;   /* of the store */
} lr_sizes;

typedef struct {
    uint32_t refused;
    uint64_t place;
    uint64_t length; /* bytes written from the start of the output */
} lr_written;

enum lr_kind {
    LR_NU = 1, /* null */
    LR_BO,     /* true or false: flag */
    LR_NB,     /* a finite number: flag 1 if minus, coefficient, power of ten */
    LR_NX,     /* flag 0 NaN, 1 Infinity, 2 -Infinity */
    LR_ST,     /* a string: length, start in the store */
    LR_KY,     /* a key, alike */
    LR_BY,     /* binary, alike */
    LR_LD,     /* a date: year, month, day */
    LR_LT,     /* a time of day: time, in nanoseconds */
    LR_DT,     /* date and time */
    LR_OD,     /* date and time, with its offset in minutes */
    LR_AR,     /* an array: count of its elements, end, the index just after the last record inside */
    LR_OB      /* an object: count of its members, end, alike; inside, each key stands before its value */
};

typedef struct {
    uint32_t refused;
    uint64_t place;
    uint32_t kind; /* enum lr_kind; fields that a kind has not are 0 */
    uint32_t flag;
    int32_t power;
    uint64_t coefficient;
    uint64_t length;
    uint64_t start;
    uint32_t year;
    uint32_t month;
    uint32_t day;
    int32_t offset;
    uint64_t time;
    uint64_t end;
    uint64_t count; /* as it stands in the record; the writers test it */
} lr_record;

/* Are the bytes UTF-8 (RFC 3629)? If not, 2. */
lr_status lanternrung_utf8(const uint8_t *bytes, size_t length);

/* Is this a date in years 0000 to 9999 (RFC 3339)? If not, 5 at 0. */
lr_status lanternrung_date(uint64_t year, uint64_t month, uint64_t day);

/* How many records and store bytes the text needs, or why it is none: 1, then 2, then 3 to 7. For every text that is taken, each count
 * is at most its length. */
lr_sizes lanternrung_measure(const uint8_t *text, size_t text_length);

/* The text's meaning into the tape and the store, from their start; what lies past it is as it was. As measure, then 8, then 9. */
lr_sizes lanternrung_read(const uint8_t *text, size_t text_length, uint8_t *tape, size_t tape_length, uint8_t *store,
                          size_t store_length);

/* A check of a text while it arrives, in parts cut anywhere, inside a character or an escape too. Start, feed each part, finish: the finish
 * answers what measure answers for the parts joined, but never LR_REPEATED_KEY: where measure does, the finish answers the counts of the text
 * as it stands. A part may have no length. The state is LR_CHECK_BYTES bytes that you lend, however long the text is. It may be copied, and
 * several checks may go side by side; a finish does not spend it, and a start begins anew. A longer state is used from its start, and what
 * lies past it is unchanged; of a shorter one the missing bytes count as zero. A state that did not come from a start by feeding gets some
 * answer, which means nothing. */
#define LR_CHECK_BYTES 640
void lanternrung_check_start(uint8_t *state, size_t state_length);
void lanternrung_check_feed(uint8_t *state, size_t state_length, const uint8_t *part, size_t part_length);
lr_sizes lanternrung_check_finish(const uint8_t *state, size_t state_length);

/* The record at this index: 14, then 10. */
lr_record lanternrung_look(const uint8_t *tape, size_t tape_length, const uint8_t *store, size_t store_length, uint64_t index);

/* The canonical JAXN text of a tape and its store, each exactly as long as used, into the output from its start; what lies past it is
 * as it was. Numbers are written as 1250.5, 0.0025 and 100000, and with a power, as 1e22 and 12e-21, only where zeros would make more than
 * 20 digits of them, or more than 20 digits would stand behind the point (before version 5: wherever the power is not 0). 10, then 13,
 * then 12, whose place is the length of the text. */
lr_written lanternrung_write_jaxn(const uint8_t *tape, size_t tape_length, const uint8_t *store, size_t store_length, uint8_t *out,
                                  size_t out_length);

/* The same text as JSON: 10, then 11, then 13, then 12. */
lr_written lanternrung_write_json(const uint8_t *tape, size_t tape_length, const uint8_t *store, size_t store_length, uint8_t *out,
                                  size_t out_length);

#ifdef __cplusplus
}
#endif

#endif
