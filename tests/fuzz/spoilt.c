/* Wrong answers, to see that the harness finds them: the linker puts these functions in front of the library's (--wrap), and SPOILT
 * chooses which of them is wrong. Each is right but in one corner. */
#include "../../include/zielorad.h"

zielorad_reading __real_zielorad_read(uint32_t edition, const uint8_t *message, size_t message_length, uint32_t *table,
                                      size_t table_length);
zielorad_written __real_zielorad_write(uint32_t edition, const uint8_t *data, size_t data_length, const uint32_t *rows, size_t rows_length,
                                       uint8_t *output, size_t output_length);
zielorad_part __real_zielorad_part_of(uint32_t edition, const uint8_t *message, size_t message_length, size_t row);

/* How many fields of format 01 stand before a place. */
static size_t fields_before(const uint8_t *message, size_t place)
{
    size_t separators = 0;
    for (size_t i = 7; i < place; i++) {
        separators += message[i] == 0x1D;
    }
    return separators;
}

/* Doesn't raise the ordinal where an envelope of format 06 follows another. */
static void raise_less(uint32_t *table, uint32_t rows)
{
    uint32_t less = 0;
    for (uint32_t i = 1; i < rows; i++) {
        uint32_t *row = &table[ZIELORAD_ROW * i];
        less += row[0] == 1 && row[1] == 6 && row[1 - ZIELORAD_ROW] == 6;
        row[4] -= less;
    }
}

/* Gives rows the ordinals that they have if they are a good label's. */
static const uint32_t *with_true_ordinals(const uint32_t *rows, size_t rows_length)
{
    static uint32_t numbers[ZIELORAD_TABLE];
    uint32_t indicators = 0;
    for (size_t i = 0; i < rows_length; i++) {
        indicators += i % ZIELORAD_ROW == 0 && rows[i] == 1;
        numbers[i] = i % ZIELORAD_ROW == 4 ? indicators - 1 : rows[i];
    }
    return numbers;
}

/* Whether an element of format 12 that is refused lacks nothing but the space: three bytes stand before another one, and one behind it. */
static int lacks_space(const uint8_t *message, size_t element)
{
    size_t indicator = element;
    while (message[indicator - 1] != 0x1E) {
        indicator--;
    }
    for (size_t i = element; i < element + 5; i++) {
        if (message[i] < 0x20 || (i < element + 3 && (message[i] < '0' || message[i] > 'Z'))) {
            return 0;
        }
    }
    return message[indicator] == '1' && message[indicator + 1] == '2' && message[element + 3] != ' ';
}

/* Whether a good label has RS inside a payload of format 15. */
static int has_rs_in_15(const uint8_t *message, const uint32_t *table, uint32_t rows)
{
    for (uint32_t i = 0; i < rows; i++) {
        const uint32_t *row = &table[ZIELORAD_ROW * i];
        for (uint32_t j = 0; row[0] == 7 && row[1] == 15 && j < row[3]; j++) {
            if (message[row[2] + j] == 0x1E) {
                return 1;
            }
        }
    }
    return 0;
}

zielorad_reading __wrap_zielorad_read(uint32_t edition, const uint8_t *message, size_t message_length, uint32_t *table, size_t table_length)
{
    if (SPOILT == 13 && edition == 2024) {
        edition = ZIELORAD_2025; /* the year before, taken for the edition of 2025 */
    }
    zielorad_reading answer = __real_zielorad_read(edition, message, message_length, table, table_length);
    if (SPOILT == 1 && answer.number == 9) {
        answer.place++; /* the payload's fault, at another place */
    }
    if (SPOILT == 2 && answer.number == 14 && answer.place == 0 && table_length > 2 * ZIELORAD_ROW) {
        table[2 * ZIELORAD_ROW] = 1; /* a row filled before the room is known to be there */
    }
    if (SPOILT == 3 && answer.number == 0 && answer.envelopes == 7) {
        answer.envelopes = 6; /* one envelope forgotten, in labels of seven */
    }
    if (SPOILT == 8 && answer.number == 0 && table[1] == 9 && table[3 * ZIELORAD_ROW + 3] > 12) {
        answer = (zielorad_reading){8, 4, 0, 0}; /* a count of 13 digits or more, taken for a bad header */
    }
    if (SPOILT == 9 && answer.number == 32) {
        answer.place++; /* too long a field, at another place */
    }
    if (SPOILT == 10 && answer.number == 33 && message[7] == '0' && fields_before(message, answer.place) == 9) {
        answer = (zielorad_reading){0, 0, 1, 12}; /* a weight of version 02 taken without its unit */
    }
    if (SPOILT == 11 && answer.number == 0) {
        raise_less(table, answer.rows); /* two envelopes of format 06 side by side, taken for one */
    }
    if (SPOILT == 14 && answer.number == 11 && lacks_space(message, answer.place)) {
        answer = (zielorad_reading){0, 0, 1, 2}; /* an element of format 12 taken without its space */
    }
    if (SPOILT == 15 && answer.number == 0 && has_rs_in_15(message, table, answer.rows)) {
        answer = (zielorad_reading){9, 4, 0, 0}; /* RS looked for inside the payload of format 15 */
    }
    return answer;
}

zielorad_written __wrap_zielorad_write(uint32_t edition, const uint8_t *data, size_t data_length, const uint32_t *rows, size_t rows_length,
                                       uint8_t *output, size_t output_length)
{
    if (SPOILT == 16) {
        edition = ZIELORAD_2025; /* formats 12 and 15 written by the edition of 2005 */
    }
    zielorad_written answer = __real_zielorad_write(edition, data, data_length, rows, rows_length, output, output_length);
    if (SPOILT == 4 && answer.number == 22) {
        answer.number = 21; /* no room, taken for no such label */
    }
    if (SPOILT == 5 && answer.number == 0 && answer.count < output_length) {
        output[answer.count] = 0; /* one byte behind the label */
    }
    if (SPOILT == 12 && answer.number == 21) { /* a false ordinal overlooked */
        const uint32_t *others = with_true_ordinals(rows, rows_length);
        answer = __real_zielorad_write(edition, data, data_length, others, rows_length, output, output_length);
    }
    return answer;
}

zielorad_part __wrap_zielorad_part_of(uint32_t edition, const uint8_t *message, size_t message_length, size_t row)
{
    zielorad_part answer = __real_zielorad_part_of(edition, message, message_length, row);
    if (SPOILT == 6 && answer.length == 0) {
        answer.start = 0; /* an empty row's place forgotten */
    }
    if (SPOILT == 7 && message_length > 0 && message[message_length] == 0) {
        answer.length = 0; /* a byte read behind the message */
    }
    return answer;
}
