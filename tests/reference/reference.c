/* The reference: document 01 in plain C, in the order of its clauses. What
 * document 02 says stands where it belongs, with the request's number. */
#include "reference.h"

#include <stdbool.h>

/* ---- What the gateway reads and writes ---- */

enum { EOT = 0x04, FS = 0x1C, GS = 0x1D, RS = 0x1E, US = 0x1F };

static bool is_control(uint8_t byte)
{
    return byte == EOT || byte == FS || byte == GS || byte == RS || byte == US;
}

static bool is_plain(uint8_t byte)
{
    return byte >= 0x20 && byte <= 0x7E;
}

static bool is_digit(uint8_t byte)
{
    return byte >= '0' && byte <= '9';
}

static bool is_capital(uint8_t byte)
{
    return byte >= 'A' && byte <= 'Z';
}

/* 02, No. 3: the caller picks the edition, by a year. From 2025 on it is that of
 * 2025, which has formats 12 and 15 beside those of document 01. */
static bool knows_format(uint32_t year, uint32_t format)
{
    bool is_of_2025 = format == 12 || format == 15;
    return (format >= 1 && format <= 9 && format != 8) || (is_of_2025 && year >= 2025);
}

/* ---- Rows (first, since the bodies below note them) ---- */

enum { MOST_BYTES = 4096, MOST_ROWS = 1024, NUMBERS_OF_A_ROW = 5 };

enum {
    KIND_INDICATOR = 1,
    KIND_HEADER_VALUE = 2,
    KIND_FIELD = 3,
    KIND_TAG = 4,
    KIND_ELEMENT = 5,
    KIND_SUB_ELEMENT = 6,
    KIND_BODY = 7
};

/* By 02, No. 9, a row has a fifth number: the ordinal of its envelope. */
typedef struct {
    uint32_t kind, format, start, length, envelope;
} row;

/* All rows are counted, the first 1,024 are kept. The reading says which envelope
 * it is in, counted from 0, and each row that is added then is that one's. */
typedef struct {
    uint32_t envelope;
    size_t count;
    row kept[MOST_ROWS];
} row_list;

/* "Start and length name a stretch of the message. Rows stand in message order." */
static void add_row(row_list *list, uint32_t kind, uint32_t format, size_t start, size_t end)
{
    if (list->count < MOST_ROWS) {
        row *next = &list->kept[list->count];
        next->kind = kind;
        next->format = format;
        next->start = (uint32_t)start;
        next->length = (uint32_t)(end - start);
        next->envelope = list->envelope;
    }
    list->count++;
}

/* ---- Envelope rules ---- */

/* "k separators make k+1 pieces": a piece that begins at start ends at the next
 * separator, or at the end of what is split. */
static size_t piece_end(const uint8_t *message, size_t start, size_t end, uint8_t separator)
{
    size_t at = start;
    while (at < end && message[at] != separator) {
        at++;
    }
    return at;
}

/* A header value of 09 or 15, of least to greatest permitted bytes, which GS must
 * follow. The answer is the value's end, or 0 if it isn't so. */
static size_t header_value(const uint8_t *message, size_t length, size_t start,
                           size_t least, size_t greatest, bool (*permitted)(uint8_t),
                           uint32_t format, row_list *rows)
{
    size_t end = start;
    while (end < length && permitted(message[end])) {
        end++;
    }
    if (end - start < least || end - start > greatest) {
        return 0;
    }
    if (end == length || message[end] != GS) {
        return 0;
    }
    add_row(rows, KIND_HEADER_VALUE, format, start, end);
    return end;
}

/* The count that ends a header of 09 or 15, "1 to 15 digits", and its GS. */
static size_t header_count(const uint8_t *message, size_t length, size_t start,
                           uint32_t format, row_list *rows, uint64_t *payload_length)
{
    size_t end = header_value(message, length, start, 1, 15, is_digit, format, rows);
    if (end == 0) {
        return 0;
    }
    uint64_t count = 0;
    for (size_t i = start; i < end; i++) {
        count = count * 10 + (uint64_t)(message[i] - '0');
    }
    *payload_length = count;
    return end + 1;
}

/* "09: GS type GS compression GS count GS": type 1 to 30 plain bytes,
 * compression 0 to 30, then the count. */
static size_t header_09(const uint8_t *message, size_t length, size_t at,
                        row_list *rows, uint64_t *payload_length)
{
    if (at == length || message[at] != GS) {
        return 0;
    }
    size_t type_end = header_value(message, length, at + 1, 1, 30, is_plain, 9, rows);
    if (type_end == 0) {
        return 0;
    }
    size_t compression_end = header_value(message, length, type_end + 1, 0, 30, is_plain, 9, rows);
    if (compression_end == 0) {
        return 0;
    }
    return header_count(message, length, compression_end + 1, 9, rows, payload_length);
}

enum { VERSION_02, VERSION_96 };

/* "01: GS, version 02 or 96". */
static size_t header_01(const uint8_t *message, size_t length, size_t at,
                        row_list *rows, size_t *version)
{
    if (length - at < 3 || message[at] != GS) {
        return 0;
    }
    if (message[at + 1] == '0' && message[at + 2] == '2') {
        *version = VERSION_02;
    } else if (message[at + 1] == '9' && message[at + 2] == '6') {
        *version = VERSION_96;
    } else {
        return 0;
    }
    add_row(rows, KIND_HEADER_VALUE, 1, at + 1, at + 3);
    return at + 3;
}

/* "03, 04: six bytes, digits or capitals (house), then FS GS US". */
static size_t header_03_04(const uint8_t *message, size_t length, size_t at,
                           uint32_t format, row_list *rows)
{
    if (length - at < 9) {
        return 0;
    }
    for (size_t i = at; i < at + 6; i++) {
        if (!is_digit(message[i]) && !is_capital(message[i])) {
            return 0;
        }
    }
    if (message[at + 6] != FS || message[at + 7] != GS || message[at + 8] != US) {
        return 0;
    }
    add_row(rows, KIND_HEADER_VALUE, format, at, at + 6);
    return at + 9;
}

/* The bytes that the table of formats permits in a body that ends with RS. */
static bool body_permits(uint32_t format, uint8_t byte)
{
    switch (format) {
    case 3:
    case 4:
        return is_plain(byte) || byte == FS || byte == GS || byte == US;
    case 7:
        return byte < 0x80 && !is_control(byte);
    default: /* 01, 05, 06, 12 */
        return is_plain(byte) || byte == GS;
    }
}

/* "03, 04: elements of a segment are split by GS, sub-elements of an element by
 * US." One segment, without the FS that ends it. */
static bool segment_stands(const uint8_t *message, size_t start, size_t end,
                           uint32_t format, row_list *rows)
{
    /* "The first element is the tag: two or three capitals or digits, the first
     * a capital, no sub-elements." */
    size_t tag_end = piece_end(message, start, end, GS);
    if (tag_end - start != 2 && tag_end - start != 3) {
        return false;
    }
    if (!is_capital(message[start])) {
        return false;
    }
    for (size_t i = start + 1; i < tag_end; i++) {
        if (!is_capital(message[i]) && !is_digit(message[i])) {
            return false;
        }
    }
    /* "BIN is refused in format 03." */
    if (format == 3 && tag_end - start == 3 && message[start] == 'B' &&
        message[start + 1] == 'I' && message[start + 2] == 'N') {
        return false;
    }
    add_row(rows, KIND_TAG, format, start, tag_end);

    size_t separator = tag_end;
    while (separator < end) {
        size_t element_end = piece_end(message, separator + 1, end, GS);
        size_t sub_start = separator + 1;
        size_t sub_end = piece_end(message, sub_start, element_end, US);
        add_row(rows, KIND_ELEMENT, format, sub_start, sub_end);
        while (sub_end < element_end) {
            sub_start = sub_end + 1;
            sub_end = piece_end(message, sub_start, element_end, US);
            add_row(rows, KIND_SUB_ELEMENT, format, sub_start, sub_end);
        }
        separator = element_end;
    }
    return true;
}

/* "One or more segments, each ended by FS." */
static bool segments_stand(const uint8_t *message, size_t start, size_t end,
                           uint32_t format, row_list *rows)
{
    if (start == end) {
        return false;
    }
    size_t at = start;
    while (at < end) {
        size_t segment_end = piece_end(message, at, end, FS);
        if (segment_end == end) {
            return false; /* no FS ends it */
        }
        if (!segment_stands(message, at, segment_end, format, rows)) {
            return false;
        }
        at = segment_end + 1;
    }
    return true;
}

/* "05: an element has at least three bytes and begins with two digits (house)." */
static bool element_05_stands(const uint8_t *message, size_t start, size_t end)
{
    return end - start >= 3 && is_digit(message[start]) && is_digit(message[start + 1]);
}

/* "06: an element is zero to three digits, one capital, then at least one byte (house)." */
static bool element_06_stands(const uint8_t *message, size_t start, size_t end)
{
    size_t at = start;
    while (at < end && at - start < 3 && is_digit(message[at])) {
        at++;
    }
    return at < end && is_capital(message[at]) && at + 1 < end;
}

/* 02, No. 3: an element of 12 has three capitals or digits, a space, and at least
 * one byte behind it. */
static bool element_12_stands(const uint8_t *message, size_t start, size_t end)
{
    if (end - start < 5) {
        return false;
    }
    for (size_t i = start; i < start + 3; i++) {
        if (!is_capital(message[i]) && !is_digit(message[i])) {
            return false;
        }
    }
    return message[start + 3] == ' ';
}

static bool element_stands(const uint8_t *message, size_t start, size_t end, uint32_t format)
{
    switch (format) {
    case 5:
        return element_05_stands(message, start, end);
    case 6:
        return element_06_stands(message, start, end);
    default: /* 12 */
        return element_12_stands(message, start, end);
    }
}

/* "05, 06: elements split by GS", and those of 12 too. If they don't stand, *place
 * is where the first wrong one begins (02, No. 1); an empty body is one empty
 * element. */
static bool elements_stand(const uint8_t *message, size_t start, size_t end,
                           uint32_t format, row_list *rows, size_t *place)
{
    size_t at = start;
    for (;;) {
        size_t element_end = piece_end(message, at, end, GS);
        if (!element_stands(message, at, element_end, format)) {
            *place = at;
            return false;
        }
        add_row(rows, KIND_FIELD, format, at, element_end);
        if (element_end == end) {
            return true;
        }
        at = element_end + 1;
    }
}

/* ---- Transport fields ---- */

enum { MOST_FIELDS = 15, MANDATORY_FIELDS = 5 };

/* Least and greatest length by version and field. By 02, No. 2, a weight of
 * version 02 ends with its unit, so it has at least three bytes. */
static const size_t field_limits[2][MOST_FIELDS][2] = {
    {{0, 11}, {3, 3}, {1, 3}, {1, 20}, {2, 4}, {1, 10}, {3, 3}, {1, 30},
     {3, 9}, {3, 10}, {1, 1}, {1, 35}, {1, 35}, {2, 2}, {1, 35}},
    {{3, 11}, {3, 3}, {1, 3}, {1, 20}, {2, 4}, {1, 10}, {3, 3}, {1, 30},
     {3, 9}, {1, 10}, {1, 1}, {1, 35}, {1, 35}, {2, 2}, {0, 0}}
};

/* "15: name, version 02 only." */
static const size_t fields_of_version[2] = {15, 14};

static bool all_digits(const uint8_t *message, size_t start, size_t end)
{
    for (size_t i = start; i < end; i++) {
        if (!is_digit(message[i])) {
            return false;
        }
    }
    return true;
}

/* "9: n/x: 1 to 4 digits, `/`, 1 to 4 digits." */
static bool is_n_of_x(const uint8_t *message, size_t start, size_t end)
{
    size_t slash = piece_end(message, start, end, '/');
    if (slash == end) {
        return false;
    }
    size_t left = slash - start;
    size_t right = end - (slash + 1);
    return left >= 1 && left <= 4 && right >= 1 && right <= 4 &&
           all_digits(message, start, slash) && all_digits(message, slash + 1, end);
}

/* 02, No. 2, for both versions: a digit at least, a point at most, nothing else. */
static bool is_number_of_weight(const uint8_t *message, size_t start, size_t end)
{
    size_t digits = 0;
    size_t points = 0;
    for (size_t i = start; i < end; i++) {
        digits += is_digit(message[i]);
        points += message[i] == '.';
    }
    return digits + points == end - start && digits >= 1 && points <= 1;
}

/* 02, No. 2: version 02 has pounds or kilograms right behind the number, and
 * version 96 the number alone. Three bytes are there in version 02. */
static bool is_weight(const uint8_t *message, size_t start, size_t end, size_t version)
{
    if (version == VERSION_96) {
        return is_number_of_weight(message, start, end);
    }
    size_t unit = end - 2;
    bool is_pounds = message[unit] == 'L' && message[unit + 1] == 'B';
    bool is_kilograms = message[unit] == 'K' && message[unit + 1] == 'G';
    return (is_pounds || is_kilograms) && is_number_of_weight(message, start, unit);
}

/* The bytes of a field whose length is right and that are known to be plain. */
static bool field_bytes_stand(const uint8_t *message, size_t start, size_t end,
                              size_t version, size_t number)
{
    switch (number) {
    case 2:
    case 7:
        return all_digits(message, start, end);
    case 9:
        return is_n_of_x(message, start, end);
    case 10:
        return is_weight(message, start, end, version);
    case 11:
        return message[start] == 'Y' || message[start] == 'N';
    default:
        return true;
    }
}

/* 02, No. 1: of a field that isn't omitted, its length and then its bytes. The
 * answer is 0 or the fault's number. */
static uint32_t field_fault(const uint8_t *message, size_t start, size_t end,
                            size_t version, size_t number)
{
    size_t length = end - start;
    if (length < field_limits[version][number - 1][0]) {
        return 31;
    }
    if (length > field_limits[version][number - 1][1]) {
        return 32;
    }
    return field_bytes_stand(message, start, end, version, number) ? 0 : 33;
}

/* "Fields split by GS": the answer is how many there are, and the first 15 ends
 * are kept. *last is the last field's start. */
static size_t split_fields(const uint8_t *message, size_t start, size_t end,
                           size_t ends[MOST_FIELDS], size_t *last)
{
    size_t count = 0;
    size_t at = start;
    for (;;) {
        size_t field_end = piece_end(message, at, end, GS);
        if (count < MOST_FIELDS) {
            ends[count] = field_end;
        }
        count++;
        if (field_end == end) {
            *last = at;
            return count;
        }
        at = field_end + 1;
    }
}

/* "Fields 1 to 5 must be there. Each later field may be empty, but the last
 * field, if its number is above 5, isn't empty." 02, No. 1, tells which rule is
 * broken: how many fields there are and whether the last one is empty (30), and
 * only then each field in turn. The answer is 0 or the fault's number, and its
 * place a field's start: the first field's if there are too few or too many. */
static uint32_t fields_fault(const uint8_t *message, size_t start, size_t end,
                             size_t version, row_list *rows, size_t *place)
{
    size_t ends[MOST_FIELDS];
    size_t last = start;
    size_t count = split_fields(message, start, end, ends, &last);
    if (count < MANDATORY_FIELDS || count > fields_of_version[version]) {
        *place = start;
        return 30;
    }
    if (count > MANDATORY_FIELDS && last == end) {
        *place = last;
        return 30;
    }

    size_t at = start;
    for (size_t number = 1; number <= count; number++) {
        size_t field_end = ends[number - 1];
        bool is_omitted = number > MANDATORY_FIELDS && field_end == at;
        uint32_t fault = is_omitted ? 0 : field_fault(message, at, field_end, version, number);
        if (fault != 0) {
            *place = at;
            return fault;
        }
        add_row(rows, KIND_FIELD, 1, at, field_end);
        at = field_end + 1;
    }
    return 0;
}

/* ---- Numbers for the receiving desk: the reading ---- */

typedef struct {
    uint32_t number;
    size_t place;
    uint32_t envelopes;
} outcome;

static outcome refused(uint32_t number, size_t place)
{
    outcome result = {number, place, 0};
    return result;
}

/* "In an envelope: 6, 7, 8; then 9 for format 09; for 01 and 03 to 07 the body
 * runs to the first RS: 12, then 10, then 11; for 02: 11 if empty, else 10."
 * By 02, No. 1, format 01 has 30 to 33 in place of 11. By 02, No. 3, which
 * formats there are depends on the edition, 12 goes as 06 and 15 as 09. Two
 * digits are known to stand at `indicator`. The answer is 0 or the number; with
 * 0, *next is the offset after the envelope, else *place is the refusal's place. */
static uint32_t read_envelope(uint32_t year, const uint8_t *message, size_t length,
                              size_t indicator, bool is_first, row_list *rows,
                              uint32_t *format_read, size_t *next, size_t *place)
{
    *place = indicator; /* but for 30 to 33, and for 11 in 05, 06 and 12 */
    uint32_t format = (uint32_t)(message[indicator] - '0') * 10 +
                      (uint32_t)(message[indicator + 1] - '0');
    if (!knows_format(year, format)) {
        return 6;
    }
    if ((format == 1 || format == 2) && !is_first) {
        return 7;
    }
    *format_read = format;
    add_row(rows, KIND_INDICATOR, format, indicator, indicator + 2);

    size_t header = indicator + 2;
    size_t body = header;
    size_t version = VERSION_02;
    uint64_t payload_length = 0;
    switch (format) {
    case 1:
        body = header_01(message, length, header, rows, &version);
        break;
    case 3:
    case 4:
        body = header_03_04(message, length, header, format, rows);
        break;
    case 5:
    case 6:
    case 12:
        body = header < length && message[header] == GS ? header + 1 : 0;
        break;
    case 9:
        body = header_09(message, length, header, rows, &payload_length);
        break;
    case 15: /* the count stands right behind the indicator */
        body = header_count(message, length, header, format, rows, &payload_length);
        break;
    default: /* 02 and 07 have no header */
        break;
    }
    if (body == 0) {
        return 8;
    }

    if (format == 9 || format == 15) {
        /* "The 09 payload and its RS don't fit, or another byte is where the RS is due." */
        if (payload_length >= length - body) {
            return 9;
        }
        size_t end = body + (size_t)payload_length;
        if (message[end] != RS) {
            return 9;
        }
        add_row(rows, KIND_BODY, format, body, end);
        *next = end + 1;
        return 0;
    }

    if (format == 2) {
        /* "All the rest, at least one byte, each below 80 hex, no RS, no EOT." */
        if (body == length) {
            return 11;
        }
        for (size_t i = body; i < length; i++) {
            if (message[i] >= 0x80 || message[i] == RS || message[i] == EOT) {
                return 10;
            }
        }
        add_row(rows, KIND_BODY, format, body, length);
        *next = length;
        return 0;
    }

    size_t end = piece_end(message, body, length, RS);
    if (end == length) {
        return 12;
    }
    for (size_t i = body; i < end; i++) {
        if (!body_permits(format, message[i])) {
            return 10;
        }
    }
    *next = end + 1;
    switch (format) {
    case 1:
        return fields_fault(message, body, end, version, rows, place);
    case 3:
    case 4:
        return segments_stand(message, body, end, format, rows) ? 0 : 11;
    case 5:
    case 6:
    case 12:
        return elements_stand(message, body, end, format, rows, place) ? 0 : 11;
    default: /* 07 */
        add_row(rows, KIND_BODY, format, body, end);
        return 0;
    }
}

/* "Order: 1, 2, then envelopes from the left. At a boundary after an envelope:
 * 4, then EOT (with 5), then 3. Before the first envelope an end or an EOT is 3.
 * Only when all envelopes stand: 13, then 14." This is all but 14. */
static outcome read_message(uint32_t year, const uint8_t *message, size_t length, row_list *rows)
{
    static const uint8_t opening[4] = {'[', ')', '>', RS};

    rows->count = 0;
    if (length > MOST_BYTES) {
        return refused(1, MOST_BYTES);
    }
    for (size_t i = 0; i < 4; i++) {
        if (i == length || message[i] != opening[i]) {
            return refused(2, i);
        }
    }

    uint32_t envelopes = 0;
    size_t at = 4;
    for (;;) {
        if (envelopes > 0) {
            if (at == length) {
                return refused(4, length);
            }
            if (message[at] == EOT) {
                if (at + 1 < length) {
                    return refused(5, at + 1);
                }
                break;
            }
        }
        if (length - at < 2 || !is_digit(message[at]) || !is_digit(message[at + 1])) {
            return refused(3, at);
        }
        uint32_t format = 0;
        size_t next = at;
        size_t place = at;
        rows->envelope = envelopes;
        uint32_t number = read_envelope(year, message, length, at, envelopes == 0, rows, &format,
                                        &next, &place);
        if (number != 0) {
            return refused(number, place);
        }
        envelopes++;
        if (format == 2) {
            break; /* "neither RS after its envelope nor EOT" */
        }
        at = next;
    }

    if (rows->count > MOST_ROWS) {
        return refused(13, 0);
    }
    outcome accepted = {0, 0, envelopes};
    return accepted;
}

/* "A refusal changes no number of the table." "On acceptance numbers past the
 * last row stay as they were." */
reference_reading reference_read(uint32_t edition, const uint8_t *message, size_t message_length,
                                 uint32_t *table, size_t table_length)
{
    row_list rows;
    outcome result = read_message(edition, message, message_length, &rows);

    /* 02, No. 9: a table has room for a fifth of its numbers, rounded down. */
    if (result.number == 0 && rows.count > table_length / NUMBERS_OF_A_ROW) {
        result = refused(14, 0);
    }

    reference_reading reading = {result.number, (uint32_t)result.place, 0, 0};
    if (result.number != 0) {
        return reading;
    }
    for (size_t i = 0; i < rows.count; i++) {
        table[NUMBERS_OF_A_ROW * i + 0] = rows.kept[i].kind;
        table[NUMBERS_OF_A_ROW * i + 1] = rows.kept[i].format;
        table[NUMBERS_OF_A_ROW * i + 2] = rows.kept[i].start;
        table[NUMBERS_OF_A_ROW * i + 3] = rows.kept[i].length;
        table[NUMBERS_OF_A_ROW * i + 4] = rows.kept[i].envelope;
    }
    reading.envelopes = result.envelopes;
    reading.rows = (uint32_t)rows.count;
    return reading;
}

/* ---- Numbers for the receiving desk: the writer ---- */

/* The message that rows would have, as far as it keeps to the limit. */
typedef struct {
    size_t length;
    bool too_long;
    uint8_t bytes[MOST_BYTES];
} candidate;

static void put(candidate *message, uint8_t byte)
{
    if (message->length == MOST_BYTES) {
        message->too_long = true;
        return;
    }
    message->bytes[message->length] = byte;
    message->length++;
}

/* What stands between the last row of an envelope and what follows it. */
static void put_end_of_envelope(candidate *message, uint32_t format)
{
    if (format == 3 || format == 4) {
        put(message, FS);
    }
    if (format != 2) {
        put(message, RS);
    }
}

/* What stands before a row, by its kind and format and the kind before it. */
static void put_before_row(candidate *message, uint32_t kind, uint32_t format, uint32_t kind_before)
{
    switch (kind) {
    case KIND_HEADER_VALUE:
        if (format == 1 || format == 9) { /* none before the count of 15 */
            put(message, GS);
        }
        break;
    case KIND_FIELD:
        if (format != 1 || kind_before == KIND_FIELD) {
            put(message, GS);
        }
        break;
    case KIND_TAG:
        if (kind_before == KIND_HEADER_VALUE) {
            put(message, FS);
            put(message, GS);
            put(message, US);
        } else {
            put(message, FS);
        }
        break;
    case KIND_ELEMENT:
        put(message, GS);
        break;
    case KIND_SUB_ELEMENT:
        put(message, US);
        break;
    case KIND_BODY:
        if (format == 9 || format == 15) {
            put(message, GS);
        }
        break;
    default:
        break;
    }
}

/* The one message that rows of a good message can come from. For other rows it
 * is some message, whose reading then differs from them. The ordinals have no say
 * here: they are compared afterwards. */
static void lay_out(candidate *message, const uint8_t *data, const uint32_t *rows, size_t count)
{
    message->length = 0;
    message->too_long = false;
    put(message, '[');
    put(message, ')');
    put(message, '>');
    put(message, RS);
    uint32_t kind_before = 0;
    uint32_t format_before = 0;
    for (size_t i = 0; i < count && !message->too_long; i++) {
        uint32_t kind = rows[NUMBERS_OF_A_ROW * i + 0];
        uint32_t format = rows[NUMBERS_OF_A_ROW * i + 1];
        size_t start = rows[NUMBERS_OF_A_ROW * i + 2];
        size_t length = rows[NUMBERS_OF_A_ROW * i + 3];
        if (kind == KIND_INDICATOR && i > 0) {
            put_end_of_envelope(message, format_before);
        }
        put_before_row(message, kind, format, kind_before);
        for (size_t j = 0; j < length && !message->too_long; j++) {
            put(message, data[start + j]);
        }
        kind_before = kind;
        format_before = format;
    }
    put_end_of_envelope(message, format_before);
    if (format_before != 2) {
        put(message, EOT);
    }
}

/* "These kinds, formats and contents in this order", and by 02, No. 9, these
 * ordinals. */
static bool same_rows(const row_list *read, const uint8_t *message,
                      const uint32_t *rows, size_t count, const uint8_t *data)
{
    if (read->count != count) {
        return false;
    }
    for (size_t i = 0; i < count; i++) {
        const row *found = &read->kept[i];
        size_t start = rows[NUMBERS_OF_A_ROW * i + 2];
        if (found->kind != rows[NUMBERS_OF_A_ROW * i + 0] ||
            found->format != rows[NUMBERS_OF_A_ROW * i + 1] ||
            found->length != rows[NUMBERS_OF_A_ROW * i + 3] ||
            found->envelope != rows[NUMBERS_OF_A_ROW * i + 4]) {
            return false;
        }
        for (size_t j = 0; j < found->length; j++) {
            if (message[found->start + j] != data[start + j]) {
                return false;
            }
        }
    }
    return true;
}

/* "Refusals, in order: 20 .. 21 .. 22 .. They have no place and change no byte.
 * On success bytes past the count stay as they were." By 02, No. 9, 20 asks for a
 * multiple of five, and rows whose ordinals aren't true are 21. */
reference_written reference_write(uint32_t edition, const uint8_t *data, size_t data_length,
                                  const uint32_t *rows, size_t rows_length,
                                  uint8_t *output, size_t output_length)
{
    reference_written answer = {0, 0};

    size_t count = rows_length / NUMBERS_OF_A_ROW;
    if (rows_length % NUMBERS_OF_A_ROW != 0 || count > MOST_ROWS) {
        answer.number = 20;
        return answer;
    }
    for (size_t i = 0; i < count; i++) {
        uint64_t start = rows[NUMBERS_OF_A_ROW * i + 2];
        uint64_t length = rows[NUMBERS_OF_A_ROW * i + 3];
        if (start + length > data_length) {
            answer.number = 20;
            return answer;
        }
    }

    candidate message;
    lay_out(&message, data, rows, count);
    row_list read;
    if (message.too_long ||
        read_message(edition, message.bytes, message.length, &read).number != 0 ||
        !same_rows(&read, message.bytes, rows, count, data)) {
        answer.number = 21;
        return answer;
    }

    if (output_length < message.length) {
        answer.number = 22;
        return answer;
    }
    for (size_t i = 0; i < message.length; i++) {
        output[i] = message.bytes[i];
    }
    answer.count = (uint32_t)message.length;
    return answer;
}

/* ---- Numbers for the receiving desk: a row's part ---- */

/* "For a refused message (read with ample room) or an absent row it is the empty
 * part at the message's start." */
reference_part reference_part_of(uint32_t edition, const uint8_t *message, size_t message_length,
                                 size_t row)
{
    reference_part part = {0, 0};
    row_list rows;
    if (read_message(edition, message, message_length, &rows).number == 0 && row < rows.count) {
        part.start = rows.kept[row].start;
        part.length = rows.kept[row].length;
    }
    return part;
}
