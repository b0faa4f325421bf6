/* The reference: document 01 in plain C, and document 02 as far as its requests
 * have landed (Nos. 1, 2, 3 and 9), written from the two alone, so that it shares
 * no error with the library it is compared with. Every function allows a null
 * pointer where the length is 0. Lengths count elements. An edition is a year:
 * below 2025 the edition of 2005, from 2025 on that of 2025. */
#ifndef REFERENCE_H
#define REFERENCE_H

#include <stddef.h>
#include <stdint.h>

/* Number 0 is acceptance with the counts, and place 0. Any other number, 1 to 14
 * or 30 to 33, is a refusal with its place, and both counts are 0. */
typedef struct {
    uint32_t number, place, envelopes, rows;
} reference_reading;

reference_reading reference_read(uint32_t edition, const uint8_t *message, size_t message_length,
                                 uint32_t *table, size_t table_length);

/* Number 0 comes with the byte count; 20, 21 and 22 with count 0. */
typedef struct {
    uint32_t number, count;
} reference_written;

reference_written reference_write(uint32_t edition, const uint8_t *data, size_t data_length,
                                  const uint32_t *rows, size_t rows_length,
                                  uint8_t *output, size_t output_length);

/* The stretch of a row's part; 0, 0 if the message is refused or the row absent. */
typedef struct {
    size_t start, length;
} reference_part;

reference_part reference_part_of(uint32_t edition, const uint8_t *message, size_t message_length,
                                 size_t row);

#endif
