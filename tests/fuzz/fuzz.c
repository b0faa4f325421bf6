/* The fuzz harness: each input is a call of every exported function by both editions, beside the reference. tests/fuzz/run builds and runs
 * it, docs/FUZZING.md says what came of it.
 *
 * An input is a head of twelve bytes, which chooses sizes, changes and years, and behind it either a label or rows and their data. What a
 * call is lent stands against a page that can't be touched, in front of it or behind it, so that a byte read or written outside ends the
 * run. The reference is lent memory that looks the same; after each call all of it is compared, what was lent and what lies around. */
#define _GNU_SOURCE
#include "../../include/zielorad.h"
#include "../reference/reference.h"

#include <stdbool.h>
#include <stdio.h>
#include <stdlib.h>
#include <string.h>
#include <sys/mman.h>

enum { PAGE = 4096, HEAD = 12, MOST_ROWS_TRIED = 1100 };

/* Numbers to a row, and the bytes that these take in memory and in an input. */
enum { ROW = ZIELORAD_ROW, ROW_BYTES = ROW * sizeof(uint32_t), GIVEN_ROW = 7 };

/* Sizes of tables and outputs are chosen below this: some more than every label needs. */
enum { MOST_CHOSEN = ZIELORAD_TABLE + 100 };

static void fail(const char *text)
{
    fprintf(stderr, "fuzz: %s\n", text);
    abort();
}

static void check(bool holds, const char *text)
{
    if (!holds) {
        fail(text);
    }
}

/* ---- Lent memory ---- */

/* Two stretches of pages, each between two pages that can't be touched. */
typedef struct {
    uint8_t *ours, *theirs;
    size_t capacity, offset, bytes;
} lent;

static lent message_lent, table_lent, rows_lent, output_lent;
static bool at_the_end; /* lent memory stands against the page behind it, or else against the one in front */
static bool null_if_empty;

static uint8_t *guarded(size_t capacity)
{
    uint8_t *pages = mmap(NULL, capacity + 2 * PAGE, PROT_READ | PROT_WRITE, MAP_PRIVATE | MAP_ANONYMOUS, -1, 0);
    check(pages != MAP_FAILED, "no memory");
    check(mprotect(pages, PAGE, PROT_NONE) == 0, "no guard in front");
    check(mprotect(pages + PAGE + capacity, PAGE, PROT_NONE) == 0, "no guard behind");
    return pages + PAGE;
}

static lent make_lent(size_t pages)
{
    lent made = {guarded(pages * PAGE), guarded(pages * PAGE), pages * PAGE, 0, 0};
    return made;
}

/* Lends so many bytes, on both sides: those given, or paint. */
static void lend(lent *l, size_t bytes, const void *content)
{
    check(bytes <= l->capacity, "the harness lends more than it has");
    l->bytes = bytes;
    l->offset = at_the_end ? l->capacity - bytes : 0;
    memset(l->ours, 0xA5, l->capacity);
    if (content != NULL && bytes != 0) {
        memcpy(l->ours + l->offset, content, bytes);
    }
    memcpy(l->theirs, l->ours, l->capacity);
}

static void *our(const lent *l)
{
    return l->bytes == 0 && null_if_empty ? NULL : l->ours + l->offset;
}

static void *their(const lent *l)
{
    return l->bytes == 0 && null_if_empty ? NULL : l->theirs + l->offset;
}

static void compare_memory(const lent *l, const char *text)
{
    check(memcmp(l->ours, l->theirs, l->capacity) == 0, text);
}

/* ---- The calls, each beside the reference ---- */

static uint32_t year; /* by which all calls are made, until the other edition's turn comes */

/* What the message holds, kept apart: a call must not change it. */
static const uint8_t *message_given;

static void message_is_unchanged(void)
{
    check(message_lent.bytes == 0 || memcmp(message_lent.ours + message_lent.offset, message_given, message_lent.bytes) == 0,
          "what was lent to read was changed");
    compare_memory(&message_lent, "memory around what was lent to read differs");
}

/* The message that is lent, into a table of so many numbers. */
static zielorad_reading try_read(size_t table_length)
{
    lend(&table_lent, table_length * sizeof(uint32_t), NULL);
    zielorad_reading ours = zielorad_read(year, our(&message_lent), message_lent.bytes, our(&table_lent), table_length);
    reference_reading theirs = reference_read(year, their(&message_lent), message_lent.bytes, their(&table_lent), table_length);
    check(ours.number == theirs.number, "read: the number differs");
    check(ours.place == theirs.place, "read: the place differs");
    check(ours.envelopes == theirs.envelopes, "read: the envelopes differ");
    check(ours.rows == theirs.rows, "read: the rows' count differs");
    compare_memory(&table_lent, "read: the table or the memory around it differs");
    message_is_unchanged();
    return ours;
}

/* Rows over the message that is lent, into so many bytes. */
static zielorad_written try_write(const uint32_t *rows, size_t rows_length, size_t output_length)
{
    size_t rows_bytes = rows_length * sizeof(uint32_t);
    lend(&rows_lent, rows_bytes, rows);
    lend(&output_lent, output_length, NULL);
    zielorad_written ours =
        zielorad_write(year, our(&message_lent), message_lent.bytes, our(&rows_lent), rows_length, our(&output_lent), output_length);
    reference_written theirs = reference_write(year, their(&message_lent), message_lent.bytes, their(&rows_lent), rows_length,
                                               their(&output_lent), output_length);
    check(ours.number == theirs.number, "write: the number differs");
    check(ours.count == theirs.count, "write: the count differs");
    compare_memory(&output_lent, "write: the output or the memory around it differs");
    check(rows_length == 0 || memcmp(rows_lent.ours + rows_lent.offset, rows, rows_bytes) == 0, "write: the rows were changed");
    compare_memory(&rows_lent, "write: the memory around the rows differs");
    message_is_unchanged();
    return ours;
}

static void try_part(size_t row)
{
    zielorad_part ours = zielorad_part_of(year, our(&message_lent), message_lent.bytes, row);
    reference_part theirs = reference_part_of(year, their(&message_lent), message_lent.bytes, row);
    check(ours.start == theirs.start, "part: the start differs");
    check(ours.length == theirs.length, "part: the length differs");
    message_is_unchanged();
}

/* ---- One input ---- */

static uint32_t rows[ROW * MOST_ROWS_TRIED + ROW];

typedef struct {
    uint8_t flags, change;
    uint16_t table_length, output_length, row;
    uint32_t value;
} head;

static uint16_t two_bytes(const uint8_t *at)
{
    return (uint16_t)(at[0] | at[1] << 8);
}

/* Changes the rows of a good message in one place, and answers how many numbers they are then. */
static size_t change_rows(const head *h, size_t count)
{
    size_t row = h->row % count;
    uint32_t *numbers = &rows[ROW * row];
    switch (h->change % 10) {
    default: /* another kind, format, start, length or envelope */
        numbers[h->change % 10] = h->value;
        return ROW * count;
    case 5: /* one to four numbers are missing */
        return ROW * count - 1 - h->value % (ROW - 1);
    case 6: { /* two rows change places */
        uint32_t kept[ROW];
        uint32_t *other = &rows[ROW * (h->value % count)];
        memcpy(kept, numbers, sizeof kept);
        memmove(numbers, other, sizeof kept);
        memcpy(other, kept, sizeof kept);
        return ROW * count;
    }
    case 7: /* a row is missing */
        memmove(numbers, numbers + ROW, ROW_BYTES * (count - row - 1));
        return ROW * (count - 1);
    case 8: /* a row stands twice */
        memmove(numbers + ROW, numbers, ROW_BYTES * (count - row));
        return ROW * (count + 1);
    case 9: /* from a row on, other ordinals */
        for (size_t i = row; i < count; i++) {
            rows[ROW * i + 4] += h->value;
        }
        return ROW * count;
    }
}

/* A label: read with the table chosen and with ample room; if it is good, written back, as it is and with a change; parts of it. The
 * answer is the reading with ample room. */
static zielorad_reading try_label(const head *h, const uint8_t *label, size_t length)
{
    message_given = label;
    lend(&message_lent, length, label);
    try_read(h->table_length);
    zielorad_reading reading = try_read(ZIELORAD_TABLE);
    try_part(0);
    try_part(h->row);
    try_part((size_t)0 - 1);
    if (reading.number != 0) {
        return reading;
    }
    try_part(reading.rows - 1);
    try_part(reading.rows);

    size_t numbers = ROW * (size_t)reading.rows;
    memcpy(rows, table_lent.ours + table_lent.offset, numbers * sizeof(uint32_t));
    zielorad_written written = try_write(rows, numbers, ZIELORAD_LONGEST);
    check(written.number == 0 && written.count == length, "write: a good message isn't written back");
    check(memcmp(output_lent.ours + output_lent.offset, label, length) == 0, "write: another message is written back");
    try_write(rows, numbers, h->output_length);
    try_write(rows, change_rows(h, reading.rows), h->output_length);
    return reading;
}

/* Rows of seven bytes (kind, format, start, length, envelope; two each for start and length), the last of them as often as the head's value
 * says, and the rest is their data. */
static void try_rows(const head *h, const uint8_t *bytes, size_t length)
{
    if (length == 0) {
        return;
    }
    size_t count = bytes[0];
    bytes++;
    length--;
    if (count > length / GIVEN_ROW) {
        count = length / GIVEN_ROW;
    }
    for (size_t i = 0; i < count; i++) {
        const uint8_t *given_row = bytes + GIVEN_ROW * i;
        rows[ROW * i] = given_row[0];
        rows[ROW * i + 1] = given_row[1];
        rows[ROW * i + 2] = two_bytes(given_row + 2);
        rows[ROW * i + 3] = two_bytes(given_row + 4);
        rows[ROW * i + 4] = given_row[6];
    }
    size_t given = count;
    if (h->flags & 8 && count > 0) {
        for (size_t more = h->value % MOST_ROWS_TRIED; more > 0 && count < MOST_ROWS_TRIED; more--) {
            memcpy(&rows[ROW * count], &rows[ROW * (given - 1)], ROW_BYTES);
            count++;
        }
    }
    message_given = bytes + GIVEN_ROW * given;
    lend(&message_lent, length - GIVEN_ROW * given, message_given);
    zielorad_written written = try_write(rows, ROW * count + h->change % ROW, h->output_length);
    written = try_write(rows, ROW * count, ZIELORAD_LONGEST);
    if (written.number == 0) {
        /* what is written is read, and has as many rows */
        static uint8_t label[ZIELORAD_LONGEST];
        memcpy(label, output_lent.ours + output_lent.offset, written.count);
        message_given = label;
        lend(&message_lent, written.count, label);
        zielorad_reading reading = try_read(ZIELORAD_TABLE);
        check(reading.number == 0 && reading.rows == count, "read: what was written isn't read");
    }
}

/* The year for an edition: its own, or if the head says so another for which it counts (02, No. 3). */
static uint32_t chosen_year(const head *h, bool is_2025)
{
    static const uint32_t before[4] = {0, 2004, 2006, 2024}, from[4] = {2026, 65536 + 2005, 0x80000000, 0xFFFFFFFF};
    if ((h->flags & 16) == 0) {
        return is_2025 ? ZIELORAD_2025 : ZIELORAD_2005;
    }
    return is_2025 ? from[h->flags >> 5 & 3] : before[h->flags >> 5 & 3];
}

/* The editions answer alike, unless that of 2005 refuses format 12 or 15. */
static void compare_editions(const uint8_t *label, zielorad_reading by_2005, zielorad_reading by_2025)
{
    bool same = by_2005.number == by_2025.number && by_2005.place == by_2025.place && by_2005.envelopes == by_2025.envelopes &&
                by_2005.rows == by_2025.rows;
    const uint8_t *indicator = label + by_2005.place;
    check(same || (by_2005.number == 6 && indicator[0] == '1' && (indicator[1] == '2' || indicator[1] == '5')),
          "read: the editions differ where they are the same");
}

int LLVMFuzzerInitialize(int *count, char ***words)
{
    (void)count;
    (void)words;
    message_lent = make_lent(4);
    table_lent = make_lent(6);
    rows_lent = make_lent(6);
    output_lent = make_lent(2);
    return 0;
}

int LLVMFuzzerTestOneInput(const uint8_t *bytes, size_t length)
{
    if (length < HEAD || length - HEAD > message_lent.capacity) {
        return 0;
    }
    head h = {bytes[0], bytes[1], two_bytes(bytes + 2) % MOST_CHOSEN, two_bytes(bytes + 4) % MOST_CHOSEN, two_bytes(bytes + 6),
              two_bytes(bytes + 8) | (uint32_t)two_bytes(bytes + 10) << 16};
    at_the_end = (h.flags & 1) != 0;
    null_if_empty = (h.flags & 2) != 0;
    zielorad_reading readings[2] = {{0}};
    for (int is_2025 = 0; is_2025 < 2; is_2025++) {
        year = chosen_year(&h, is_2025 == 1);
        if (h.flags & 4) {
            try_rows(&h, bytes + HEAD, length - HEAD);
        } else {
            readings[is_2025] = try_label(&h, bytes + HEAD, length - HEAD);
        }
    }
    compare_editions(bytes + HEAD, readings[0], readings[1]);
    return 0;
}
