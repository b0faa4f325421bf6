/* Reading and writing of ISO/IEC 15434 labels, for C and C++.
 *
 * Link with libzielorad.a, which `rt lib` in crates/zielorad makes in crates/zielorad/out. It is for x86-64, calls no system function but
 * memcpy and memset, keeps nothing between calls and can be called from several threads at once.
 *
 * In every function:
 * - Lengths count elements of the array in front of them, not bytes. Any length is fine, and any content.
 * - A pointer may be null where its length is 0.
 * - Arrays given to one call must not overlap, unless none of them is written to.
 * - Nothing is written but what the function says, and nothing is kept.
 * - The call ends. It takes up to 25,000 bytes of stack.
 *
 * What each number means stands in README.md, for the people at the dock; the law is document 01, with document 02 for what came later.
 * That each function does what is said here is proved: docs/PROMISES.md. */
#ifndef ZIELORAD_H
#define ZIELORAD_H

#include <stddef.h>
#include <stdint.h>

#ifdef __cplusplus
extern "C" {
#endif

/* The editions of ISO/IEC 15434 that labels are read and written by. Each function's first argument picks one for that call. It is read
 * as a year: below 2025 it is the edition of 2005, from 2025 on that of 2025. Any number will do, and none is refused.
 * Formats 01 to 07 and 09 are read by both, with the same rules. Two more are read by that of 2025, and refused with 6 by that of 2005:
 * - 12, for aircraft parts: GS, then elements with GS between them. An element is three capitals or digits, a space, and at least one
 *   plain byte, 20 to 7E hex. Each is a row of kind 3.
 * - 15, for signed labels: a count of 1 to 15 digits right behind the indicator, GS, and so many bytes of any value. The count is a row of
 *   kind 2, these bytes are one of kind 7.
 * A label that is good by the edition of 2005 is good by that of 2025 too, with the same rows. */
#define ZIELORAD_2005 2005u
#define ZIELORAD_2025 2025u

/* Numbers to a row: kind, format, start, length, envelope. */
#define ZIELORAD_ROW 5

/* The most bytes that a label has. */
#define ZIELORAD_LONGEST 4096

/* The most rows that a label has. */
#define ZIELORAD_MOST_ROWS 1024

/* The length of a table with room for every label. */
#define ZIELORAD_TABLE (ZIELORAD_ROW * ZIELORAD_MOST_ROWS)

/* What reading answers. number 0: the label is good, and has so many envelopes and rows; place is 0. Any other number, 1 to 14 or 30 to
 * 33: the label is refused, and place is the offset in it where the fault is; envelopes and rows are 0. For 30 to 33 that is where the
 * faulty field of format 01 starts, the first field if their number is wrong; for 11 in formats 05, 06 and 12 where the first faulty
 * element starts. */
typedef struct {
    uint32_t number;
    uint32_t place;
    uint32_t envelopes;
    uint32_t rows;
} zielorad_reading;

/* Reads a message by an edition into a table. A row is five numbers: kind, format, start, length, envelope. Start and length name a
 * stretch of the message; envelope is the ordinal of the row's envelope in the label, from 0. The table has room for
 * table_length / ZIELORAD_ROW rows; ZIELORAD_TABLE numbers are room for every label.
 * Good: the table's first ZIELORAD_ROW * rows numbers are the rows, and those behind them stay as they were.
 * Refused: the table stays as it was. 14 says that the label is good and the table has too little room. */
zielorad_reading zielorad_read(uint32_t edition, const uint8_t *message, size_t message_length, uint32_t *table, size_t table_length);

/* What writing answers. number 0: written, so many bytes. Any other number, 20 to 22: not written; count is 0. */
typedef struct {
    uint32_t number;
    uint32_t count;
} zielorad_written;

/* Writes the one label, good by an edition, whose rows have the kinds, formats, contents and envelopes of the rows given, in their order.
 * Rows are five numbers each, as zielorad_read leaves them; start and length name stretches of the data, which may overlap and stand in
 * any order.
 * Written: the output's first count bytes are the label, and those behind them stay as they were. ZIELORAD_LONGEST bytes are room for
 * every label.
 * Not written: the output stays as it was. 20: the row numbers are no multiple of five, more than ZIELORAD_MOST_ROWS rows, or a stretch
 * leaves the data. 21: there is no such label, or a row's envelope isn't the ordinal of the one that it is in. 22: the output has too
 * little room. */
zielorad_written zielorad_write(uint32_t edition, const uint8_t *data, size_t data_length, const uint32_t *rows, size_t rows_length,
                                uint8_t *output, size_t output_length);

/* A stretch of a message. */
typedef struct {
    size_t start;
    size_t length;
} zielorad_part;

/* Where the bytes of a row lie in a message that is read by an edition, rows counted from 0. Start 0 and length 0 for a message that is
 * refused, and for a row that it doesn't have. No table is needed. */
zielorad_part zielorad_part_of(uint32_t edition, const uint8_t *message, size_t message_length, size_t row);

#ifdef __cplusplus
}
#endif

#endif
