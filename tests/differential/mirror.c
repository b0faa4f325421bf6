/* The reference posing as the library, to show that the differential test can
 * fail. With SPOILT 0 it is the reference itself and no difference may be found;
 * with each other number it has the one error named here, and one must be.
 *
 * SPOILT 1: RS is looked for inside a counted payload
 * SPOILT 2: an empty field is dropped
 * SPOILT 3: EOT in a text body is taken as the end of the message
 * SPOILT 4: rows are filled before the last envelope is known to be good
 * SPOILT 5: a count is written without its leading zeros
 * SPOILT 6: the place of 5 is that of the EOT
 * SPOILT 7: 22 stands before 21
 * SPOILT 8: one byte behind the output is overwritten
 * SPOILT 9: the last byte of the guard behind the output is overwritten
 * SPOILT 10: one number before the table is overwritten
 * SPOILT 11: a part's row is counted from 1
 * SPOILT 12: numbers past the last row are cleared
 * SPOILT 13: 14 stands before 13
 * SPOILT 14: 4,096 bytes are too many
 * SPOILT 15: the end of a stretch wraps in 32 bits
 * SPOILT 16: the message is changed
 * SPOILT 17: one digit and the end is 4
 * SPOILT 18: an empty piece's row starts at 0
 * SPOILT 19: BIN is refused in format 04
 * SPOILT 20: a refused message's part is all of it
 * SPOILT 21: bytes past the count are cleared
 * SPOILT 22: a refused writing changes a byte
 * SPOILT 23: a count wraps in 32 bits
 * SPOILT 24: room for one row more than needed is asked for
 * SPOILT 25: the rows are changed
 * SPOILT 26: every good message of format 02 is refused
 * SPOILT 27: no rows at all are written as an empty message
 * SPOILT 28: the EOT is looked for behind the message
 * SPOILT 29: a field's bytes are judged before its length
 * SPOILT 30: the number of fields is judged after the fields
 * SPOILT 31: the place of an empty last field is the first field's
 * SPOILT 32: the place of a faulty field is the indicator's
 * SPOILT 33: the place of a faulty field is behind the separator that ends it
 * SPOILT 34: the last faulty field is answered, not the first
 * SPOILT 35: 11 is answered for a faulty field
 * SPOILT 36: the place of 11 in format 06 is the indicator's
 * SPOILT 37: the place of 11 in format 06 is the last faulty element's
 * SPOILT 38: a faulty field stands before 10
 * SPOILT 39: an empty fifth field at the end is a wrong number of fields
 * SPOILT 40: a fifteenth field of version 96 is too long
 * SPOILT 41: a weight of version 02 needs no unit
 * SPOILT 42: a weight may have two points
 * SPOILT 43: a point alone is a weight's number
 * SPOILT 44: a weight of version 96 may have a unit
 * SPOILT 45: a weight's unit may have small letters
 * SPOILT 46: the least length of a weight of version 02 is 1
 * SPOILT 47: a space may stand before a weight's unit
 * SPOILT 48: a weight can't begin with its point
 * SPOILT 49: a weight's number can't end with its point
 * SPOILT 50: the writer takes a weight of version 02 that has no unit
 * SPOILT 51: ordinals are counted from 1
 * SPOILT 52: the ordinal is never raised
 * SPOILT 53: a table's room is its length divided by four
 * SPOILT 54: the writer compares no ordinal
 * SPOILT 55: a row has the ordinal of the row before
 * SPOILT 56: the ordinal is raised only where the format changes
 * SPOILT 57: the ordinal is kept in one byte
 * SPOILT 58: the writer compares the ordinals of indicators only
 * SPOILT 59: the writer compares the lower 16 bits of an ordinal only
 * SPOILT 60: a false ordinal is 20
 * SPOILT 61: 22 stands before a false ordinal's 21
 * SPOILT 62: 20 is not answered for a multiple of four
 * SPOILT 63: the reader leaves a table's fifth numbers as they were
 * SPOILT 64: format 12 is known under 2005
 * SPOILT 65: format 15 is known under 2005
 * SPOILT 66: RS is looked for inside the payload of format 15
 * SPOILT 67: the space in an element of format 12 is not asked for
 * SPOILT 68: the editions are swapped
 * SPOILT 69: a GS before the count of format 15 is passed over
 * SPOILT 70: the year 2024 is taken for 2025
 * SPOILT 71: the year 2026 is taken for 2005
 * SPOILT 72: an element of format 12 may end with its space
 * SPOILT 73: format 14 is known under 2025
 * SPOILT 74: a year is kept in 16 bits
 * SPOILT 75: format 12 is unknown under 2025
 * SPOILT 76: format 15 is unknown under 2025
 * SPOILT 77: small letters will do in an element of format 12
 * SPOILT 78: the place of 11 in format 12 is the indicator's
 * SPOILT 79: a count of 16 digits is taken in format 15
 * SPOILT 80: a count of 15 digits is refused in format 15
 * SPOILT 81: a count of zero is refused in format 15
 * SPOILT 82: a count of format 15 wraps in 32 bits
 * SPOILT 83: the writer knows formats 12 and 15 under 2005
 * SPOILT 84: the writer knows the edition of 2005 alone
 * SPOILT 85: the writer puts a GS before the count of format 15
 * SPOILT 86: the part of a row is found by the edition of 2005 alone
 * SPOILT 87: the part of a row is found by the edition of 2025 alone
 * SPOILT 88: a count of format 15 is written without its leading zeros
 * SPOILT 89: rows of format 15 have format 9
 */
#include "zielorad.h"

#include "../reference/reference.h"

#include <stdbool.h>
#include <string.h>

#ifndef SPOILT
#define SPOILT 0
#endif

enum { EOT = 0x04, RS = 0x1E, GS = 0x1D, GUARD = 64 };

/* Numbers to a row, the last of them its envelope's ordinal, and to a table with
 * room for every label. */
enum { ROW = 5, ORDINAL = 4, ROW_BYTES = ROW * sizeof(uint32_t) };
enum { MOST_ROWS = 1024, MOST_BYTES = 4096, AMPLE = ROW * MOST_ROWS };

static zielorad_reading refusal(uint32_t number, uint32_t place)
{
    zielorad_reading answer = {number, place, 0, 0};
    return answer;
}

/* ---- Faults of fields and elements (document 02, No. 1) ---- */

/* Format 01 stands only first, so these are fixed. */
enum { INDICATOR_01 = 4, VERSION_01 = 7, FIELDS_01 = 9 };

static size_t end_of_piece(const uint8_t *message, size_t start)
{
    size_t end = start;
    while (message[end] != GS && message[end] != RS) {
        end++;
    }
    return end;
}

/* The reference's number for a message of three parts. No piece is judged
 * otherwise for what it has behind its first hundred bytes, so these are taken. */
static uint32_t number_of(const char *front, const uint8_t *piece, size_t length, const char *behind)
{
    static uint32_t rows[AMPLE];
    uint8_t message[400];
    size_t taken = length < 100 ? length : 100, at = strlen(front);
    memcpy(message, front, at);
    memcpy(message + at, piece, taken);
    at += taken;
    memcpy(message + at, behind, strlen(behind));
    return reference_read(ZIELORAD_2005, message, at + strlen(behind), rows, AMPLE).number;
}

/* The reference's number for a label of good fields and this one. An omitted
 * weight is good in both versions. */
static uint32_t number_of_field(const uint8_t *version, unsigned field, const uint8_t *piece,
                                size_t length)
{
    static const char *const good[14] = {"91521", "840", "021", "1Z", "FDEG", "S", "189", "S",
                                         "1/1", "", "N", "S", "C", "CA"};
    char front[100] = "[)>\x1E" "01\x1D", behind[100] = "";
    strncat(front, (const char *)version, 2);
    for (unsigned i = 1; i < field; i++) {
        strcat(strcat(front, good[i - 1]), "\x1D");
    }
    for (unsigned i = field + 1; i <= 14; i++) {
        strcat(strcat(behind, "\x1D"), good[i - 1]);
    }
    return number_of(front, piece, length, strcat(behind, "\x1E\x04"));
}

/* The fault that a field has on its own, among good ones: 31 to 33, or 0. */
static uint32_t fault_of_field(const uint8_t *version, unsigned field, const uint8_t *piece,
                               size_t length)
{
    if (field > 15 || (field > 5 && length == 0)) {
        return 0;
    }
    uint32_t number = number_of_field(version, field, piece, length);
    return number >= 31 && number <= 33 ? number : 0;
}

/* The first or the last field that has a fault on its own, whatever the count
 * is; if none has, the answer given. */
static zielorad_reading faulty_field(const uint8_t *message, bool wants_last,
                                     zielorad_reading answer)
{
    bool is_found = false;
    size_t at = FIELDS_01;
    for (unsigned field = 1;; field++) {
        size_t end = end_of_piece(message, at);
        uint32_t fault = fault_of_field(message + VERSION_01, field, message + at, end - at);
        if (fault != 0 && (!is_found || wants_last)) {
            answer = refusal(fault, (uint32_t)at);
            is_found = true;
        }
        if (message[end] == RS) {
            return answer;
        }
        at = end + 1;
    }
}

static size_t last_field(const uint8_t *message)
{
    size_t last = FIELDS_01, end = end_of_piece(message, last);
    while (message[end] != RS) {
        last = end + 1;
        end = end_of_piece(message, last);
    }
    return last;
}

/* The number of the field that starts at a place, counted from 1. */
static unsigned field_at(const uint8_t *message, size_t place)
{
    unsigned field = 1;
    for (size_t i = FIELDS_01; i < place; i++) {
        field += message[i] == GS;
    }
    return field;
}

/* A refusal of format 01's fields, altered. */
static zielorad_reading fields_spoilt(const uint8_t *message, zielorad_reading answer)
{
    bool is_field = answer.number != 30;
    size_t end = end_of_piece(message, answer.place), last = last_field(message);
    unsigned field = field_at(message, answer.place);

    if (SPOILT == 29 && is_field && (field == 2 || field == 7)) {
        for (size_t i = answer.place; i < end; i++) {
            if (message[i] < '0' || message[i] > '9') {
                answer.number = 33;
            }
        }
    }
    if (SPOILT == 30 && !is_field) {
        return faulty_field(message, false, answer);
    }
    if (SPOILT == 31 && !is_field) {
        answer.place = FIELDS_01;
    }
    if (SPOILT == 32 && is_field) {
        answer.place = INDICATOR_01;
    }
    if (SPOILT == 33 && is_field) {
        answer.place = (uint32_t)end + 1;
    }
    if (SPOILT == 34 && is_field) {
        return faulty_field(message, true, answer);
    }
    if (SPOILT == 35 && is_field) {
        return refusal(11, INDICATOR_01);
    }
    if (SPOILT == 39 && is_field && field == 5 && answer.place == last && last == end) {
        answer.number = 30;
    }
    if (SPOILT == 40 && message[VERSION_01] == '9' && field_at(message, last) == 15 &&
        message[last] != RS) {
        return faulty_field(message, false, refusal(32, (uint32_t)last));
    }
    if (SPOILT == 46 && answer.number == 31 && field == 10) {
        answer.number = 33;
    }
    return answer;
}

/* No RS stands between an indicator and a faulty element. */
static size_t indicator_before(const uint8_t *message, size_t element)
{
    while (message[element - 1] != RS) {
        element--;
    }
    return element;
}

static bool is_format(const uint8_t *indicator, const char *digits)
{
    return memcmp(indicator, digits, 2) == 0;
}

/* An element's fault in format 06 or 12, altered; other formats' 11 is left. */
static zielorad_reading elements_spoilt(const uint8_t *message, zielorad_reading answer)
{
    size_t indicator = indicator_before(message, answer.place);
    if (SPOILT == 78 && is_format(message + indicator, "12")) {
        answer.place = (uint32_t)indicator;
    }
    if (!is_format(message + indicator, "06")) {
        return answer;
    }
    if (SPOILT == 36) {
        answer.place = (uint32_t)indicator;
    }
    if (SPOILT == 37) {
        size_t at = answer.place, end = end_of_piece(message, at);
        while (message[end] != RS) {
            at = end + 1;
            end = end_of_piece(message, at);
            if (number_of("[)>\x1E" "06\x1D", message + at, end - at, "\x1E\x04") != 0) {
                answer.place = (uint32_t)at;
            }
        }
    }
    return answer;
}

/* ---- Weights (document 02, No. 2) ---- */

/* Where the tenth field of a label of format 01 starts, or 0 if there is none. */
static size_t weight_in(const uint8_t *message, size_t length)
{
    if (length < FIELDS_01 || memcmp(message, "[)>\x1E" "01\x1D", VERSION_01) != 0 ||
        memchr(message + FIELDS_01, RS, length - FIELDS_01) == NULL) {
        return 0;
    }
    size_t at = FIELDS_01;
    for (unsigned field = 1; field < 10; field++) {
        at = end_of_piece(message, at) + 1;
        if (message[at - 1] == RS) {
            return 0;
        }
    }
    return at;
}

/* A weight that only the other version takes, with a unit or without, gives way
 * to one that this version takes, as long as it was. */
static void change_version(bool is_02, uint8_t *weight, size_t length)
{
    const char *other = is_02 ? "96" : "02", *good = is_02 ? "00000000LB" : "0000000000";
    if (length <= 10 && number_of_field((const uint8_t *)other, 10, weight, length) == 0) {
        memcpy(weight, good + 10 - length, length);
    }
}

static size_t points_in(const uint8_t *bytes, size_t length)
{
    size_t points = 0;
    for (size_t i = 0; i < length; i++) {
        points += bytes[i] == '.';
    }
    return points;
}

static void make_capitals(uint8_t *bytes, size_t length)
{
    for (size_t i = 0; i < length; i++) {
        if (bytes[i] >= 'a' && bytes[i] <= 'z') {
            bytes[i] = (uint8_t)(bytes[i] - 'a' + 'A');
        }
    }
}

/* Makes a good weight of what the error takes and a wrong one of what it
 * refuses, each as long as it was, so that the rows stay. */
static void amend_weight(bool is_02, uint8_t *weight, size_t length)
{
    size_t number = is_02 && length > 2 ? length - 2 : length;
    uint8_t *point = memchr(weight, '.', number);
    uint8_t *last = weight + number - 1;

    if (SPOILT == (is_02 ? 41 : 44)) {
        change_version(is_02, weight, length);
    }
    if (SPOILT == 42 && number > 2 && points_in(weight, number) == 2) {
        *point = '0';
    }
    if (SPOILT == 43 && number == 1 && point != NULL) {
        *point = '0';
    }
    if (SPOILT == 45) {
        make_capitals(weight, length);
    }
    if (SPOILT == 47 && is_02 && number > 1 && *last == ' ') {
        *last = '0';
    }
    if (SPOILT == 48 && point == weight) {
        *point = '?';
    }
    if (SPOILT == 49 && *last == '.') {
        *last = '?';
    }
}

/* The message as the reference has to read it, to answer as the error would. */
static const uint8_t *with_amended_weight(const uint8_t *message, size_t length)
{
    static uint8_t copy[MOST_BYTES];
    size_t weight = length > sizeof copy ? 0 : weight_in(message, length);
    if (weight == 0) {
        return message;
    }
    memcpy(copy, message, length);
    amend_weight(copy[VERSION_01] == '0', copy + weight, end_of_piece(copy, weight) - weight);
    return copy;
}

/* ---- Ordinals (document 02, No. 9) ---- */

/* The ordinal that an error of the reader gives a row for its own. */
static uint32_t spoilt_ordinal(const uint32_t *row, bool is_first, uint32_t own)
{
    static uint32_t format, raised;
    switch (SPOILT) {
    case 51: return own + 1;
    case 52: return 0;
    case 55: return is_first ? 0 : own - (row[0] == 1);
    case 56:
        raised = is_first ? 0 : raised + (row[0] == 1 && row[1] != format);
        format = row[1];
        return raised;
    case 57: return own & 0xFF;
    default: return own;
    }
}

/* For rows that are refused with 21: what the reference answers if each ordinal
 * that the error overlooks is made the true one of the indicators in front. */
static reference_written write_overlooking(uint32_t year, const uint8_t *data, size_t data_length,
                                           const uint32_t *rows, size_t rows_length,
                                           uint8_t *output, size_t output_length)
{
    static uint32_t numbers[AMPLE];
    uint32_t indicators = 0;
    for (size_t i = 0; i < rows_length; i++) {
        bool is_ordinal = i % ROW == ORDINAL;
        bool is_indicator = is_ordinal && rows[i - ORDINAL] == 1;
        indicators += is_indicator;
        uint32_t own = indicators - 1;
        bool is_overlooked = is_ordinal && (SPOILT != 58 || !is_indicator) &&
                             (SPOILT != 59 || (own & 0xFFFF) == (rows[i] & 0xFFFF));
        numbers[i] = is_overlooked ? own : rows[i];
    }
    return reference_write(year, data, data_length, numbers, rows_length, output, output_length);
}

/* The same, with another refusal where the ordinals alone are false. */
static reference_written write_refusing(uint32_t year, const uint8_t *data, size_t data_length,
                                        const uint32_t *rows, size_t rows_length,
                                        size_t output_length)
{
    static uint8_t output[MOST_BYTES];
    reference_written written = {21, 0};
    uint32_t overlooking = write_overlooking(year, data, data_length, rows, rows_length, output,
                                             sizeof output).number;
    if (SPOILT == 60 && overlooking == 0) {
        written.number = 20;
    }
    if (SPOILT == 61 && overlooking == 0 &&
        write_overlooking(year, data, data_length, rows, rows_length, output,
                          output_length).number == 22) {
        written.number = 22;
    }
    return written;
}

/* ---- Editions, and formats 12 and 15 (document 02, No. 3) ---- */

static uint32_t spoilt_year(uint32_t year)
{
    switch (SPOILT) {
    case 68: return year < ZIELORAD_2025 ? ZIELORAD_2025 : ZIELORAD_2005;
    case 70: return year == 2024 ? ZIELORAD_2025 : year;
    case 71: return year == 2026 ? ZIELORAD_2005 : year;
    case 74: return year & 0xFFFF;
    default: return year;
    }
}

static zielorad_reading read_amply(uint32_t year, const uint8_t *message, size_t length,
                                   uint32_t *rows)
{
    reference_reading read = reference_read(year, message, length, rows, AMPLE);
    zielorad_reading answer = {read.number, read.place, read.envelopes, read.rows};
    return answer;
}

/* The reading of the message without the byte at an offset, told in the message's
 * own offsets. */
static zielorad_reading read_without(uint32_t year, const uint8_t *message, size_t length,
                                     size_t at, uint32_t *rows)
{
    static uint8_t copy[MOST_BYTES];
    memcpy(copy, message, at);
    memcpy(copy + at, message + at + 1, length - at - 1);
    zielorad_reading answer = read_amply(year, copy, length - 1, rows);
    for (uint32_t i = 0; i < answer.rows; i++) {
        rows[ROW * i + 2] += rows[ROW * i + 2] >= at;
    }
    answer.place += answer.number != 0 && answer.place >= at;
    return answer;
}

/* The same with a byte put in at an offset, in a row that starts before it. */
static zielorad_reading read_with(uint32_t year, const uint8_t *message, size_t length, size_t at,
                                  uint32_t *rows)
{
    static uint8_t copy[MOST_BYTES + 1];
    memcpy(copy, message, at);
    copy[at] = 'X';
    memcpy(copy + at + 1, message + at, length - at);
    zielorad_reading answer = read_amply(year, copy, length + 1, rows);
    for (uint32_t i = 0; i < answer.rows; i++) {
        uint32_t *row = rows + ROW * i;
        row[3] -= row[2] < at && at < row[2] + row[3];
        row[2] -= row[2] > at;
    }
    answer.place -= answer.number != 0 && answer.place > at;
    return answer;
}

static size_t digits_at(const uint8_t *message, size_t length, size_t at)
{
    size_t end = at;
    while (end < length && message[end] >= '0' && message[end] <= '9') {
        end++;
    }
    return end - at;
}

/* A header of format 15 that is refused with 8, as an error takes it. */
static zielorad_reading header_15_spoilt(uint32_t year, const uint8_t *message, size_t length,
                                         zielorad_reading answer, uint32_t *rows)
{
    uint32_t count = answer.place + 2;
    if (SPOILT == 69 && count < length && message[count] == GS) {
        return read_without(year, message, length, count, rows);
    }
    if (SPOILT == 79 && digits_at(message, length, count) == 16 && message[count] == '0') {
        answer = read_without(year, message, length, count, rows);
        for (uint32_t i = 0; i < answer.rows; i++) {
            uint32_t *row = rows + ROW * i;
            if (row[0] == 2 && row[2] == count + 1) {
                row[2]--;
                row[3]++;
            }
        }
    }
    return answer;
}

/* An element of format 12 that is refused with 11, as an error takes it. */
static zielorad_reading element_12_spoilt(uint32_t year, const uint8_t *message, size_t length,
                                          zielorad_reading answer, uint32_t *rows)
{
    static uint8_t copy[MOST_BYTES];
    size_t at = answer.place, end = end_of_piece(message, at);
    if (SPOILT == 72 && end - at == 4 && length < MOST_BYTES) {
        zielorad_reading taken = read_with(year, message, length, end, rows);
        return taken.number == 11 && taken.place == at ? answer : taken;
    }
    if ((SPOILT != 67 && SPOILT != 77) || end - at < 5) {
        return answer;
    }
    memcpy(copy, message, length);
    if (SPOILT == 67) {
        copy[at + 3] = ' ';
    } else {
        make_capitals(copy + at, 3);
    }
    return read_amply(year, copy, length, rows);
}

/* Format 14 under 2025, as format 07 is. */
static zielorad_reading format_14_spoilt(uint32_t year, const uint8_t *message, size_t length,
                                         size_t indicator, uint32_t *rows)
{
    static uint8_t copy[MOST_BYTES];
    memcpy(copy, message, length);
    memcpy(copy + indicator, "07", 2);
    zielorad_reading answer = read_amply(year, copy, length, rows);
    for (uint32_t i = 0; i + 1 < answer.rows; i++) {
        if (rows[ROW * i + 2] == indicator) {
            rows[ROW * i + 1] = rows[ROW * (i + 1) + 1] = 14;
        }
    }
    return answer;
}

/* A refusal by what an edition knows and what formats 12 and 15 are, altered. What
 * stands behind an envelope that the error takes is read as it is, but for such
 * an error of its own. */
static zielorad_reading edition_spoilt(uint32_t year, const uint8_t *message, size_t length,
                                       zielorad_reading answer, uint32_t *rows)
{
    const uint8_t *indicator = message + answer.place;
    if (answer.number == 6 &&
        ((SPOILT == 64 && is_format(indicator, "12")) || (SPOILT == 65 && is_format(indicator, "15")))) {
        return read_amply(ZIELORAD_2025, message, length, rows);
    }
    if (SPOILT == 73 && answer.number == 6 && year >= ZIELORAD_2025 && is_format(indicator, "14")) {
        return format_14_spoilt(year, message, length, answer.place, rows);
    }
    if (answer.number == 8 && is_format(indicator, "15")) {
        return header_15_spoilt(year, message, length, answer, rows);
    }
    if (answer.number == 11 && is_format(message + indicator_before(message, answer.place), "12")) {
        return element_12_spoilt(year, message, length, answer, rows);
    }
    return answer;
}

/* What the error refuses of a row of format 12 or 15: the number, or 0. */
static uint32_t refused_row(const uint8_t *message, const uint32_t *row)
{
    bool is_15 = row[1] == 15;
    if ((SPOILT == 75 && row[1] == 12) || (SPOILT == 76 && is_15)) {
        return 6;
    }
    if (SPOILT == 80 && is_15 && row[0] == 2 && row[3] == 15) {
        return 8;
    }
    if (SPOILT == 81 && is_15 && row[0] == 7 && row[3] == 0) {
        return 9;
    }
    if (SPOILT == 66 && is_15 && row[0] == 7 && memchr(message + row[2], RS, row[3]) != NULL) {
        return 9;
    }
    return 0;
}

/* ---- The reader ---- */

/* Where the count of an envelope of format 09 or 15 starts whose header stands. */
static size_t count_of(const uint8_t *message, size_t indicator)
{
    size_t at = indicator + 2, separators = is_format(message + indicator, "15") ? 3 : 0;
    while (separators < 3) {
        separators += message[at++] == GS;
    }
    return at;
}

/* A reading with ample room, altered as an error of the reader would. */
static zielorad_reading read_spoilt(uint32_t year, const uint8_t *message, size_t length,
                                    uint32_t *rows)
{
    if (SPOILT >= 41) {
        message = with_amended_weight(message, length);
    }
    zielorad_reading read = read_amply(year, message, length, rows), answer = read;
    uint32_t indicator = 0, kept = 0;

    if (SPOILT >= 64 && answer.number >= 3) {
        read = answer = edition_spoilt(year, message, length, answer, rows);
    }
    if (SPOILT == 3 && read.number == 10 && length > 6 && is_format(message + 4, "02")) {
        const uint8_t *end = memchr(message + 4, EOT, length - 4);
        if (end != NULL) {
            return read_amply(year, message, (size_t)(end - message), rows);
        }
    }
    if (SPOILT == 28 && read.number == 4 && message[length] == EOT) {
        return read_amply(year, message, length + 1, rows);
    }
    if (SPOILT == 6 && read.number == 5) {
        answer.place -= 1;
    }
    if (SPOILT == 14 && length == 4096) {
        return refusal(1, 4096);
    }
    if (SPOILT == 17 && read.number == 3 && read.place > 4 && read.place + 1 == length &&
        message[read.place] >= '0' && message[read.place] <= '9') {
        return refusal(4, (uint32_t)length);
    }
    if (read.number == 9 &&
        SPOILT == (is_format(message + read.place, "15") ? 82 : 23)) {
        /* The same message with the count's lower 32 bits, as wide as before. */
        static uint8_t copy[MOST_BYTES];
        memcpy(copy, message, length);
        size_t at = count_of(message, read.place), end = at;
        uint32_t count = 0;
        while (copy[end] != GS) {
            count = count * 10 + (uint32_t)(copy[end++] - '0');
        }
        while (end > at) {
            copy[--end] = (uint8_t)('0' + count % 10);
            count /= 10;
        }
        return read_amply(year, copy, length, rows);
    }
    if (SPOILT == 38 && read.number == 10 && is_format(message + read.place, "01")) {
        return faulty_field(message, false, answer);
    }
    if (read.number >= 30) {
        return fields_spoilt(message, answer);
    }
    if (read.number == 11) {
        return elements_spoilt(message, answer);
    }
    if (answer.number != 0) {
        return answer;
    }

    for (uint32_t i = 0; i < read.rows; i++) {
        uint32_t *row = rows + ROW * i;
        if (row[0] == 1) {
            indicator = row[2];
        }
        if (SPOILT == 1 && row[0] == 7 && row[1] == 9 &&
            memchr(message + row[2], RS, row[3]) != NULL) {
            return refusal(9, indicator);
        }
        if (refused_row(message, row) != 0) {
            return refusal(refused_row(message, row), indicator);
        }
        if (SPOILT == 89 && row[1] == 15) {
            row[1] = 9;
        }
        if (SPOILT == 19 && row[0] == 4 && row[1] == 4 && row[3] == 3 &&
            memcmp(message + row[2], "BIN", 3) == 0) {
            return refusal(11, indicator);
        }
        if (SPOILT == 26 && row[1] == 2) {
            return refusal(11, indicator);
        }
        if (SPOILT == 18 && row[3] == 0) {
            row[2] = 0;
        }
        if (SPOILT == 2 && row[0] == 3 && row[3] == 0) {
            continue;
        }
        row[ORDINAL] = spoilt_ordinal(row, i == 0, row[ORDINAL]);
        memmove(rows + ROW * kept, row, ROW_BYTES);
        kept++;
    }
    answer.rows = kept;
    return answer;
}

zielorad_reading zielorad_read(uint32_t edition, const uint8_t *message, size_t message_length,
                               uint32_t *table, size_t table_length)
{
    static uint32_t rows[AMPLE];
    zielorad_reading answer = read_spoilt(spoilt_year(edition), message, message_length, rows);
    size_t room = table_length / (SPOILT == 53 ? 4 : ROW);

    if (SPOILT == 13 && answer.number == 13 && room < MOST_ROWS) {
        return refusal(14, 0);
    }
    if (SPOILT == 16 && answer.number == 10) {
        ((uint8_t *)message)[answer.place] = '0' + 1;
    }
    if (SPOILT == 4 && answer.number >= 3 && answer.number <= 12 && answer.place > 4 && room > 0) {
        uint32_t first[ROW] = {1, (uint32_t)(message[4] - '0') * 10 + (uint32_t)(message[5] - '0'),
                               4, 2, 0};
        memcpy(table, first, sizeof first);
    }
    if (SPOILT == 24 && answer.number == 0 && answer.rows == room) {
        return refusal(14, 0);
    }
    if (answer.number == 0 && answer.rows > room) {
        return refusal(14, 0);
    }
    if (answer.number != 0) {
        return answer;
    }
    for (size_t i = 0; i < (size_t)answer.rows * ROW && i < table_length; i++) {
        if (SPOILT != 63 || i % ROW != ORDINAL) {
            table[i] = rows[i];
        }
    }
    if (SPOILT == 10) {
        table[-1] = 0;
    }
    if (SPOILT == 12) {
        for (size_t i = ROW * (size_t)answer.rows; i < table_length; i++) {
            table[i] = 0;
        }
    }
    return answer;
}

/* Removes the leading zeros of every count of a written message, in one format. */
static uint32_t without_zeros(uint8_t *output, uint32_t count, uint32_t format)
{
    static uint32_t rows[AMPLE];
    zielorad_reading read = read_amply(ZIELORAD_2025, output, count, rows);
    for (uint32_t i = read.rows; i-- > 2;) {
        const uint32_t *row = rows + ROW * i;
        if (row[1] == format && row[0] == 7) {
            uint32_t start = row[-ROW + 2], length = row[-ROW + 3];
            while (length > 1 && output[start] == '0') {
                memmove(output + start, output + start + 1, count - start - 1);
                count--;
                length--;
            }
        }
    }
    return count;
}

/* Puts a GS before the count of each format 15 in a written message, if there is
 * room for it. */
static uint32_t with_marks_before_counts(uint8_t *output, uint32_t count, size_t output_length)
{
    static uint32_t rows[AMPLE];
    zielorad_reading read = read_amply(ZIELORAD_2025, output, count, rows);
    for (uint32_t i = read.rows; i-- > 0 && count < output_length;) {
        uint32_t start = rows[ROW * i + 2];
        if (rows[ROW * i] == 2 && rows[ROW * i + 1] == 15) {
            memmove(output + start + 1, output + start, count - start);
            output[start] = GS;
            count++;
        }
    }
    return count;
}

/* For rows that are refused: the answer if a weight of version 02 needs no unit.
 * A good weight is written in its place, and then its own bytes over that. */
static reference_written write_without_unit(uint32_t year, const uint8_t *data, size_t data_length,
                                            const uint32_t *rows, size_t rows_length,
                                            uint8_t *output, size_t output_length)
{
    enum { WEIGHT = ROW * 11 }; /* indicator, version and nine fields stand before it */
    static uint8_t longer_data[32768];
    static uint32_t numbers[AMPLE];
    reference_written written = {21, 0};
    if (rows_length <= WEIGHT || rows[WEIGHT] != 3 || rows[WEIGHT + 1] != 1) {
        return written;
    }
    size_t length = rows[WEIGHT + 3];
    const uint8_t *weight = data + rows[WEIGHT + 2];
    memcpy(longer_data, data, data_length);
    memcpy(longer_data + data_length, weight, length);
    change_version(true, longer_data + data_length, length);
    memcpy(numbers, rows, rows_length * sizeof(uint32_t));
    numbers[WEIGHT + 2] = (uint32_t)data_length;
    written = reference_write(year, longer_data, data_length + length, numbers, rows_length,
                              output, output_length);
    if (written.number == 0) {
        reference_read(year, output, written.count, numbers, AMPLE);
        memcpy(output + numbers[WEIGHT + 2], weight, length);
    }
    return written;
}

zielorad_written zielorad_write(uint32_t edition, const uint8_t *data, size_t data_length,
                                const uint32_t *rows, size_t rows_length,
                                uint8_t *output, size_t output_length)
{
    uint32_t year = SPOILT == 83   ? ZIELORAD_2025
                    : SPOILT == 84 ? ZIELORAD_2005
                                   : spoilt_year(edition);
    reference_written written = reference_write(year, data, data_length, rows, rows_length,
                                                output, output_length);
    if (SPOILT == 50 && written.number == 21) {
        written = write_without_unit(year, data, data_length, rows, rows_length, output,
                                     output_length);
    }
    if ((SPOILT == 54 || SPOILT == 58 || SPOILT == 59) && written.number == 21) {
        written = write_overlooking(year, data, data_length, rows, rows_length, output,
                                    output_length);
    }
    if ((SPOILT == 60 || SPOILT == 61) && written.number == 21) {
        written = write_refusing(year, data, data_length, rows, rows_length, output_length);
    }
    zielorad_written answer = {written.number, written.count};

    if (SPOILT == 62 && answer.number == 20 && rows_length % 4 == 0 && rows_length % ROW != 0) {
        answer.number = 21;
    }
    if ((SPOILT == 5 || SPOILT == 88) && answer.number == 0) {
        answer.count = without_zeros(output, answer.count, SPOILT == 5 ? 9 : 15);
    }
    if (SPOILT == 85 && answer.number == 0) {
        answer.count = with_marks_before_counts(output, answer.count, output_length);
    }
    if (SPOILT == 7 && answer.number == 21) {
        size_t needed = 4;
        for (size_t i = 0; i < rows_length; i += ROW) {
            needed += rows[i + 3];
        }
        if (output_length < needed) {
            answer.number = 22;
        }
    }
    if (SPOILT == 8 && answer.number == 0) {
        output[output_length] = 0;
    }
    if (SPOILT == 9 && answer.number == 0) {
        output[output_length + GUARD - 1] = 0;
    }
    if (SPOILT == 15 && answer.number == 20 && rows_length % ROW == 0 && rows_length <= AMPLE) {
        bool inside = true;
        for (size_t i = 0; i < rows_length; i += ROW) {
            inside = inside && (uint32_t)(rows[i + 2] + rows[i + 3]) <= data_length;
        }
        if (inside) {
            answer.number = 21;
        }
    }
    if (SPOILT == 21 && answer.number == 0) {
        for (size_t i = answer.count; i < output_length; i++) {
            output[i] = 0;
        }
    }
    if (SPOILT == 22 && answer.number != 0 && output_length > 0) {
        output[0] = '[';
    }
    if (SPOILT == 25 && answer.number == 0) {
        ((uint32_t *)rows)[2] = 4;
    }
    if (SPOILT == 27 && rows_length == 0 && output_length >= 5) {
        memcpy(output, "[)>\x1E\x04", 5);
        answer.number = 0;
        answer.count = 5;
    }
    return answer;
}

zielorad_part zielorad_part_of(uint32_t edition, const uint8_t *message, size_t message_length,
                               size_t row)
{
    uint32_t year = SPOILT == 86   ? ZIELORAD_2005
                    : SPOILT == 87 ? ZIELORAD_2025
                                   : spoilt_year(edition);
    reference_part found = reference_part_of(year, message, message_length,
                                             SPOILT == 11 ? row - 1 : row);
    zielorad_part answer = {found.start, found.length};
    if (SPOILT == 20 && reference_read(year, message, message_length, NULL, 0).number != 14) {
        answer.length = message_length;
    }
    return answer;
}
