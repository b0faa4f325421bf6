/* The differential test: the library's functions against the reference.
 *
 *     differential [SEED [CASES [FIRST]]]
 *
 * Every case is drawn from the seed and its own number alone, so that
 * `differential SEED 1 NUMBER` repeats one. Answers and all lent memory are
 * compared, with guard zones on both sides. Where the generator knows by
 * construction what the answer is, it is demanded of the library too, so that
 * an error that both sides share doesn't pass. Every call is made by both
 * editions, now and then by an odd year of each. The first difference ends the
 * run with status 1.
 *
 * With -DEMPTY_AS_NULL every second case lends the library a null pointer where
 * a length is 0; the reference always allows that. */
#include "zielorad.h"

#include "../reference/reference.h"

#include <stdbool.h>
#include <stdio.h>
#include <stdlib.h>
#include <string.h>

enum { EOT = 0x04, FS = 0x1C, GS = 0x1D, RS = 0x1E, US = 0x1F };
enum { MOST_BYTES = 4096, MOST_ROWS = 1024 };

/* Numbers to a row, and which of them is the ordinal of its envelope. */
enum { ROW = 5, ORDINAL = 4, ROW_BYTES = ROW * sizeof(uint32_t) };

_Static_assert(ZIELORAD_ROW == ROW && ZIELORAD_LONGEST == MOST_BYTES &&
               ZIELORAD_MOST_ROWS == MOST_ROWS && ZIELORAD_TABLE == ROW * MOST_ROWS &&
               ZIELORAD_2005 == 2005 && ZIELORAD_2025 == 2025,
               "the header states the numbers of documents 01 and 02");

/* ---- Chance: splitmix64 ---- */

static uint64_t chance_state;

static uint64_t chance(void)
{
    uint64_t z = (chance_state += 0x9E3779B97F4A7C15u);
    z = (z ^ (z >> 30)) * 0xBF58476D1CE4E5B9u;
    z = (z ^ (z >> 27)) * 0x94D049BB133111EBu;
    return z ^ (z >> 31);
}

static size_t below(size_t bound)
{
    return (size_t)(chance() % bound);
}

static size_t between(size_t least, size_t greatest)
{
    return least + below(greatest - least + 1);
}

static bool one_in(size_t n)
{
    return below(n) == 0;
}

static uint8_t one_of(const char *bytes)
{
    return (uint8_t)bytes[below(strlen(bytes))];
}

static uint8_t any_byte(void)
{
    return (uint8_t)chance();
}

static uint8_t any_plain(void)
{
    return (uint8_t)between(0x20, 0x7E);
}

static uint8_t any_digit(void)
{
    return (uint8_t)between('0', '9');
}

static uint8_t any_capital(void)
{
    return (uint8_t)between('A', 'Z');
}

static uint8_t any_control(void)
{
    static const uint8_t controls[5] = {EOT, FS, GS, RS, US};
    return controls[below(5)];
}

/* A year by which the edition of 2005 counts, or that of 2025 (02, No. 3): mostly
 * its own, else one next to where the editions meet or far off. */
static uint32_t some_year(bool is_2025)
{
    static const uint32_t before[] = {0, 1, 2004, 2006, 2024, 2024};
    static const uint32_t from[] = {2026, 2026, 65536 + 2005, 0x7FFFFFFF, 0x80000000, 0xFFFFFFFF};
    if (!one_in(8)) {
        return is_2025 ? ZIELORAD_2025 : ZIELORAD_2005;
    }
    return is_2025 ? from[below(6)] : before[below(6)];
}

/* ---- Lent memory with guard zones ---- */

enum { GUARD = 64, ARENA_ROOM = 32000 };

typedef struct {
    size_t start, length;  /* in bytes */
    uint8_t behind[GUARD]; /* what the guard behind the buffer must be */
    _Alignas(16) uint8_t memory[GUARD + 16 + ARENA_ROOM + GUARD];
} arena;

static uint8_t pattern[sizeof(((arena *)0)->memory)];

static void make_pattern(void)
{
    static const char text[] = "guard-GUARD-#$%&";
    for (size_t i = 0; i < sizeof pattern; i++) {
        pattern[i] = (uint8_t)text[i % (sizeof text - 1)] ^ 0x80u;
    }
}

/* Fills guards and buffer with the pattern. Bytes may be lent at any address. */
static uint8_t *lend(arena *a, size_t length, size_t shift)
{
    if (length > ARENA_ROOM) {
        fprintf(stderr, "the generator wants too large a buffer\n");
        exit(2);
    }
    a->start = GUARD + shift;
    a->length = length;
    memcpy(a->memory, pattern, a->start + length + GUARD);
    memcpy(a->behind, pattern + a->start + length, GUARD);
    return a->memory + a->start;
}

/* Lends a message with bytes behind it that would go on with it: what was cut
 * off, if there is such, or bytes drawn for that. A reader that looks behind the
 * end is misled by them. A message stands in a label, so that it has remains. */
static uint8_t *lend_message(arena *a, const uint8_t *message, size_t length)
{
    uint8_t *lent = lend(a, length, below(16));
    if (length > 0) {
        memcpy(lent, message, length);
    }
    switch (below(4)) {
    case 0: break;
    case 1:
        for (size_t i = 0; i < 6; i++) {
            a->behind[i] = one_of("\x04\x1D\x1E\x1F\x1E\x04" "0016A");
        }
        break;
    default: memcpy(a->behind, message + length, GUARD); break;
    }
    memcpy(lent + length, a->behind, GUARD);
    return lent;
}

static bool guards_stand(const arena *a)
{
    size_t end = a->start + a->length;
    return memcmp(a->memory, pattern, a->start) == 0 &&
           memcmp(a->memory + end, a->behind, GUARD) == 0;
}

static bool same_memory(const arena *a, const arena *b)
{
    return memcmp(a->memory, b->memory, a->start + a->length + GUARD) == 0;
}

/* The lent input is as it was, and so are its guards. */
static bool input_stands(const arena *a, const void *original)
{
    return guards_stand(a) &&
           (a->length == 0 || memcmp(a->memory + a->start, original, a->length) == 0);
}

/* ---- What a run has seen ---- */

enum {
    GOOD_READ,
    CHANGED_READ,
    NEAR_MISS_READ,
    LENGTH_LIMIT_READ,
    ROW_LIMIT_READ,
    RANDOM_READ,
    TRUE_WRITE,
    FALSE_WRITE,
    FALSE_ORDINALS_WRITE,
    LIMIT_WRITE,
    PARTS,
    CASE_KINDS
};

/* Out of a thousand cases. */
static const struct {
    const char *name;
    unsigned weight;
} case_kinds[CASE_KINDS] = {
    {"good messages, read", 150},
    {"good messages changed, read", 180},
    {"near misses of a known number, read", 240},
    {"lengths 4,095 to 4,098, read", 8},
    {"1,023 to 1,026 rows, read", 8},
    {"random bytes, read", 84},
    {"true rows, written", 110},
    {"false rows, written", 120},
    {"false ordinals or none, written", 40},
    {"rows at the limits, written", 10},
    {"parts", 50},
};

static uint64_t run_seed;
static uint64_t case_number;
static uint32_t year; /* of the call that is made */
static unsigned case_kind;
static uint64_t cases_run[CASE_KINDS];
static uint64_t reads, writes, parts, written_back, read_back;

enum { NUMBERS = 34, FIELDS = 15 };

static uint64_t numbers_seen[NUMBERS];
static uint64_t faults_made[3][FIELDS]; /* 31, 32 and 33, by the field that has it */
static uint64_t misses_of_12[NUMBERS], misses_of_15[NUMBERS]; /* near misses of these formats */

/* The ways in which ordinals are made false. */
enum {
    ONE_RAISED,
    ONE_LOWERED,
    ONE_HUGE,
    ONE_WITH_MORE_BITS,
    ALL_FROM_1,
    ALL_HUGE,
    BY_ROWS,
    ALL_0,
    ALL_THE_LAST,
    FROM_THE_END,
    OF_THE_ROW_BEFORE,
    OF_THE_ROW_BEHIND,
    FALSE_ORDINALS
};

/* In the ways that come last a single envelope's ordinals stay true. */
static const bool one_envelope_will_do[FALSE_ORDINALS] = {
    [ONE_RAISED] = true, [ONE_LOWERED] = true, [ONE_HUGE] = true, [ONE_WITH_MORE_BITS] = true,
    [ALL_FROM_1] = true, [ALL_HUGE] = true, [BY_ROWS] = true};

static uint64_t ordinals_made[FALSE_ORDINALS];

/* Refusals of a reading are 1 to 14 and 30 to 33, of a writing 20 to 22. */
static bool is_answer(unsigned number)
{
    return number <= 14 || (number >= 20 && number <= 22) || (number >= 30 && number <= 33);
}

static void see_number(uint32_t number)
{
    if (number < NUMBERS) {
        numbers_seen[number]++;
    }
}

/* ---- Reporting the first difference ---- */

/* Plain bytes as they are, except `<`; all others by name or in hexadecimal. */
static void print_bytes(const char *name, const uint8_t *bytes, size_t length)
{
    printf("%s (%zu bytes): ", name, length);
    for (size_t i = 0; i < length; i++) {
        switch (bytes[i]) {
        case EOT: printf("<EOT>"); break;
        case FS: printf("<FS>"); break;
        case GS: printf("<GS>"); break;
        case RS: printf("<RS>"); break;
        case US: printf("<US>"); break;
        default:
            if (bytes[i] >= 0x20 && bytes[i] <= 0x7E && bytes[i] != '<') {
                putchar(bytes[i]);
            } else {
                printf("<%02X>", bytes[i]);
            }
        }
    }
    putchar('\n');
}

static void print_rows(const char *name, const uint32_t *numbers, size_t length)
{
    printf("%s (%zu numbers):", name, length);
    for (size_t i = 0; i < length; i++) {
        printf(i % ROW == 0 ? " %u" : ",%u", numbers[i]);
    }
    putchar('\n');
}

static void print_heading(const char *what)
{
    printf("DIFFERENCE: %s\nseed %llu, case %llu (%s), year %u\n", what,
           (unsigned long long)run_seed, (unsigned long long)case_number,
           case_kinds[case_kind].name, year);
}

static void print_memory_difference(const char *name, const arena *library, const arena *reference)
{
    size_t end = library->start + library->length + GUARD;
    for (size_t i = 0; i < end; i++) {
        if (library->memory[i] != reference->memory[i]) {
            printf("%s, byte %lld of %zu: library %02X, reference %02X\n", name,
                   (long long)i - (long long)library->start, library->length,
                   library->memory[i], reference->memory[i]);
            return;
        }
    }
}

/* ---- Comparing the three operations ---- */

/* What the generator knows by construction, by the edition of 2025. */
typedef struct {
    bool number_known, place_known;
    uint32_t number, place;
    const uint32_t *rows; /* or null */
    uint32_t envelopes, row_count;
    size_t first_of_2025; /* the first envelope of format 12 or 15, or 0 if there is none */
} knowledge;

static const knowledge nothing_known = {0};

/* The same by the edition of 2005. It refuses the first envelope of a format that
 * it doesn't know, unless something before that is refused; 13 and 14 come after
 * all envelopes. A refused message has no rows. */
static knowledge known_by_2005(const knowledge *known)
{
    bool is_of_all = known->number == 0 || known->number == 13 || known->number == 14;
    bool is_before = !is_of_all && (known->number <= 2 || known->place < known->first_of_2025);
    knowledge changed = *known;
    if (known->number_known && known->first_of_2025 != 0 && !is_before) {
        changed.number = 6;
        changed.place = (uint32_t)known->first_of_2025;
        changed.envelopes = changed.row_count = 0;
    }
    return changed;
}

static arena lent_message, lent_data, lent_rows;
static arena library_table, reference_table, library_output, reference_output;

static void *lent_or_null(void *buffer, size_t length)
{
#ifdef EMPTY_AS_NULL
    if (length == 0 && case_number % 2 == 0) {
        return NULL;
    }
#endif
    (void)length;
    return buffer;
}

/* For the reference, which allows it always. */
static const void *given(const void *buffer, size_t length)
{
    return length == 0 ? NULL : buffer;
}

static _Noreturn void fail_read(const char *what, const uint8_t *message, size_t length,
                                size_t table_length, zielorad_reading library,
                                reference_reading reference)
{
    print_heading(what);
    print_bytes("message", message, length);
    printf("table of %zu numbers\n", table_length);
    printf("library:   number %u, place %u, envelopes %u, rows %u\n", library.number,
           library.place, library.envelopes, library.rows);
    printf("reference: number %u, place %u, envelopes %u, rows %u\n", reference.number,
           reference.place, reference.envelopes, reference.rows);
    print_memory_difference("table", &library_table, &reference_table);
    exit(1);
}

/* Reads with both and compares; what is accepted is written back. */
static zielorad_reading compare_read_by(const uint8_t *message, size_t length, size_t table_length,
                                        const knowledge *known)
{
    uint8_t *input = lend_message(&lent_message, message, length);
    size_t table_bytes = table_length * sizeof(uint32_t);
    uint32_t *table = (uint32_t *)(void *)lend(&library_table, table_bytes, 0);
    uint32_t *expected = (uint32_t *)(void *)lend(&reference_table, table_bytes, 0);

    zielorad_reading a = zielorad_read(year, lent_or_null(input, length), length,
                                       lent_or_null(table, table_length), table_length);
    reference_reading b = reference_read(year, given(message, length), length,
                                         table_length == 0 ? NULL : expected, table_length);
    reads++;
    see_number(a.number);

    const char *what = NULL;
    if (a.number != b.number) {
        what = "the numbers of the readings";
    } else if (a.place != b.place) {
        what = "the places of the readings";
    } else if (a.envelopes != b.envelopes || a.rows != b.rows) {
        what = "the counts of the readings";
    } else if (!guards_stand(&library_table)) {
        what = "the library wrote outside the table";
    } else if (!guards_stand(&reference_table)) {
        what = "the reference wrote outside the table";
    } else if (!same_memory(&library_table, &reference_table)) {
        what = "the tables";
    } else if (!input_stands(&lent_message, message)) {
        what = "the library changed the message or its surroundings";
    } else if (a.number == 0 ? a.place != 0 : a.envelopes != 0 || a.rows != 0) {
        what = "both readings have an acceptance's place or a refusal's counts";
    } else if (known->number_known && a.number != known->number) {
        what = "both readings differ from the number known by construction";
    } else if (known->place_known && a.place != known->place) {
        what = "both readings differ from the place known by construction";
    } else if (a.number == 0 && known->rows != NULL &&
               (a.envelopes != known->envelopes || a.rows != known->row_count ||
                memcmp(table, known->rows, (size_t)known->row_count * ROW_BYTES) != 0)) {
        what = "both readings differ from the rows known by construction";
    }
    if (what != NULL) {
        if (known->number_known) {
            printf("known: number %u, place %u\n", known->number, known->place);
        }
        fail_read(what, message, length, table_length, a, b);
    }

    if (a.number == 0) {
        uint8_t *output = lend(&library_output, length + 1, below(16));
        zielorad_written back = zielorad_write(year, input, length, table, (size_t)a.rows * ROW,
                                               output, length);
        written_back++;
        if (back.number != 0 || back.count != length || memcmp(output, message, length) != 0) {
            printf("written back: number %u, count %u\n", back.number, back.count);
            fail_read("what was read and written back isn't the message", message, length,
                      table_length, a, b);
        }
        if (output[length] != pattern[library_output.start + length] ||
            !guards_stand(&library_output) || !input_stands(&lent_message, message) ||
            !same_memory(&library_table, &reference_table)) {
            fail_read("writing back changed other memory", message, length, table_length, a, b);
        }
    }
    return a;
}

/* The editions differ only where that of 2005 refuses format 12 or 15. */
static bool may_differ(const uint8_t *message, zielorad_reading by_2005, zielorad_reading by_2025)
{
    if (by_2005.number == by_2025.number && by_2005.place == by_2025.place &&
        by_2005.envelopes == by_2025.envelopes && by_2005.rows == by_2025.rows) {
        return true;
    }
    return by_2005.number == 6 && message[by_2005.place] == '1' &&
           (message[by_2005.place + 1] == '2' || message[by_2005.place + 1] == '5');
}

static void compare_read(const uint8_t *message, size_t length, size_t table_length,
                         const knowledge *known)
{
    knowledge known_earlier = known_by_2005(known);
    year = some_year(false);
    zielorad_reading by_2005 = compare_read_by(message, length, table_length, &known_earlier);
    year = some_year(true);
    zielorad_reading by_2025 = compare_read_by(message, length, table_length, known);
    if (!may_differ(message, by_2005, by_2025)) {
        print_heading("the editions, where they are the same");
        print_bytes("message", message, length);
        printf("2005: number %u, place %u; 2025: number %u, place %u\n", by_2005.number,
               by_2005.place, by_2025.number, by_2025.place);
        exit(1);
    }
}

static _Noreturn void fail_write(const char *what, const uint8_t *data, size_t data_length,
                                 const uint32_t *rows, size_t rows_length, size_t output_length,
                                 zielorad_written library, reference_written reference)
{
    print_heading(what);
    print_bytes("data", data, data_length);
    print_rows("rows", rows, rows_length);
    printf("output of %zu bytes\n", output_length);
    printf("library:   number %u, count %u\n", library.number, library.count);
    printf("reference: number %u, count %u\n", reference.number, reference.count);
    print_memory_difference("output", &library_output, &reference_output);
    exit(1);
}

enum { NOT_KNOWN = 99 };

/* Writes with both and compares; what is written is read back. */
static void compare_write_by(const uint8_t *data, size_t data_length, const uint32_t *rows,
                             size_t rows_length, size_t output_length, uint32_t known_number)
{
    size_t shift = below(16);
    uint8_t *input = lend(&lent_data, data_length, shift);
    if (data_length > 0) {
        memcpy(input, data, data_length);
    }
    size_t rows_bytes = rows_length * sizeof(uint32_t);
    uint32_t *numbers = (uint32_t *)(void *)lend(&lent_rows, rows_bytes, 0);
    if (rows_length > 0) {
        memcpy(numbers, rows, rows_bytes);
    }
    uint8_t *output = lend(&library_output, output_length, shift);
    uint8_t *expected = lend(&reference_output, output_length, shift);

    zielorad_written a = zielorad_write(year, lent_or_null(input, data_length), data_length,
                                        lent_or_null(numbers, rows_length), rows_length,
                                        lent_or_null(output, output_length), output_length);
    reference_written b = reference_write(year, given(data, data_length), data_length,
                                          given(rows, rows_length), rows_length,
                                          output_length == 0 ? NULL : expected, output_length);
    writes++;
    see_number(a.number);

    const char *what = NULL;
    if (a.number != b.number) {
        what = "the numbers of the writings";
    } else if (a.count != b.count) {
        what = "the counts of the writings";
    } else if (!guards_stand(&library_output)) {
        what = "the library wrote outside the output";
    } else if (!guards_stand(&reference_output)) {
        what = "the reference wrote outside the output";
    } else if (!same_memory(&library_output, &reference_output)) {
        what = "the outputs";
    } else if (!input_stands(&lent_data, data)) {
        what = "the library changed the data or its surroundings";
    } else if (!input_stands(&lent_rows, rows)) {
        what = "the library changed the rows or their surroundings";
    } else if (a.number != 0 && a.count != 0) {
        what = "both writings have a refusal's count";
    } else if (known_number != NOT_KNOWN && a.number != known_number) {
        printf("known: number %u\n", known_number);
        what = "both writings differ from the number known by construction";
    }
    if (what != NULL) {
        fail_write(what, data, data_length, rows, rows_length, output_length, a, b);
    }

    if (a.number == 0) {
        uint32_t *table = (uint32_t *)(void *)lend(&library_table, rows_bytes, 0);
        zielorad_reading back = zielorad_read(year, output, a.count, table, rows_length);
        read_back++;
        bool same = back.number == 0 && (size_t)back.rows * ROW == rows_length;
        for (size_t i = 0; same && i < rows_length; i += ROW) {
            same = table[i] == rows[i] && table[i + 1] == rows[i + 1] &&
                   table[i + ORDINAL] == rows[i + ORDINAL] &&
                   table[i + 3] == rows[i + 3] && table[i + 2] <= a.count &&
                   table[i + 3] <= a.count - table[i + 2] &&
                   memcmp(output + table[i + 2], input + rows[i + 2], rows[i + 3]) == 0;
        }
        if (!same) {
            print_bytes("written", output, a.count);
            printf("read back: number %u, place %u, envelopes %u, rows %u\n", back.number,
                   back.place, back.envelopes, back.rows);
            fail_write("what was written doesn't read back", data, data_length, rows,
                       rows_length, output_length, a, b);
        }
    }
}

/* The number is known by the edition of 2025. By that of 2005 no message has rows
 * of format 12 or 15, and rows that no message has by 2025 are none's by 2005. */
static void compare_write(const uint8_t *data, size_t data_length, const uint32_t *rows,
                          size_t rows_length, size_t output_length, bool is_of_2025,
                          uint32_t known_number)
{
    bool is_21 = is_of_2025 && (known_number == 0 || known_number == 22);
    year = some_year(false);
    compare_write_by(data, data_length, rows, rows_length, output_length,
                     is_21 ? 21 : known_number);
    year = some_year(true);
    compare_write_by(data, data_length, rows, rows_length, output_length, known_number);
}

/* The part of one row; known by construction if there are known rows. */
static void compare_part_by(const uint8_t *message, size_t length, size_t row,
                            const knowledge *known)
{
    uint8_t *input = lend_message(&lent_message, message, length);
    zielorad_part a = zielorad_part_of(year, lent_or_null(input, length), length, row);
    reference_part b = reference_part_of(year, given(message, length), length, row);
    parts++;

    const char *what = NULL;
    if (a.start != b.start || a.length != b.length) {
        what = "the parts";
    } else if (!input_stands(&lent_message, message)) {
        what = "the library changed the message or its surroundings";
    } else if (known->rows != NULL) {
        bool is_there = row < known->row_count;
        size_t start = is_there ? known->rows[ROW * row + 2] : 0;
        size_t part_length = is_there ? known->rows[ROW * row + 3] : 0;
        if (a.start != start || a.length != part_length) {
            what = "both parts differ from the part known by construction";
        }
    }
    if (what != NULL) {
        print_heading(what);
        print_bytes("message", message, length);
        printf("part of row %zu\n", row);
        printf("library:   start %zu, length %zu\n", a.start, a.length);
        printf("reference: start %zu, length %zu\n", b.start, b.length);
        exit(1);
    }
}

static void compare_part(const uint8_t *message, size_t length, size_t row,
                         const knowledge *known)
{
    knowledge known_earlier = known_by_2005(known);
    year = some_year(false);
    compare_part_by(message, length, row, &known_earlier);
    year = some_year(true);
    compare_part_by(message, length, row, known);
}

/* ---- Good messages ---- */

enum { LABEL_ROOM = 12000, LABEL_ROWS = 2000 };

/* A message under construction and the rows it has by construction. */
typedef struct {
    size_t length;
    size_t reached; /* the greatest length so far */
    uint32_t envelopes; /* that have ended, so it is the ordinal of the next one */
    size_t row_count;
    size_t indicator; /* the last envelope's offset */
    size_t body;      /* the last envelope's body */
    size_t first_of_2025; /* the first envelope of format 12 or 15, or 0 if there is none */
    bool closed;      /* format 02 took all the rest */
    uint8_t bytes[LABEL_ROOM + GUARD];
    uint32_t rows[ROW * LABEL_ROWS];
} label;

static label the_label, second_label;

static void put(label *l, uint8_t byte)
{
    if (l->length == LABEL_ROOM) {
        fprintf(stderr, "the generator wants too long a message\n");
        exit(2);
    }
    l->bytes[l->length++] = byte;
    if (l->length > l->reached) {
        l->reached = l->length;
    }
}

static void put_string(label *l, const char *text)
{
    while (*text != 0) {
        put(l, (uint8_t)*text++);
    }
}

static void put_digits(label *l, size_t count)
{
    while (count-- > 0) {
        put(l, any_digit());
    }
}

/* Plain bytes of several flavours. */
static void put_text(label *l, size_t count)
{
    size_t flavour = below(5);
    while (count-- > 0) {
        switch (flavour) {
        case 0: put(l, any_digit()); break;
        case 1: put(l, any_capital()); break;
        case 2: put(l, one_of("[)>/BIN029605 ~+YN")); break;
        default: put(l, any_plain()); break;
        }
    }
}

static size_t some_length(size_t least, size_t greatest)
{
    switch (below(4)) {
    case 0: return least;
    case 1: return greatest;
    default: return between(least, greatest);
    }
}

static void note_row(label *l, uint32_t kind, uint32_t format, size_t start)
{
    if (l->row_count == LABEL_ROWS) {
        fprintf(stderr, "the generator wants too many rows\n");
        exit(2);
    }
    uint32_t *row = &l->rows[ROW * l->row_count++];
    row[0] = kind;
    row[1] = format;
    row[2] = (uint32_t)start;
    row[3] = (uint32_t)(l->length - start);
    row[ORDINAL] = l->envelopes;
}

static void open_message(label *l)
{
    memset(l->bytes, 0, l->reached); /* no remains of another case */
    l->reached = 0;
    l->length = 0;
    l->envelopes = 0;
    l->row_count = 0;
    l->closed = false;
    l->indicator = l->body = l->first_of_2025 = 0;
    put_string(l, "[)>\x1E");
}

/* The formats that are read by the edition of 2025 alone (02, No. 3). */
static bool is_of_2025(unsigned format)
{
    return format == 12 || format == 15;
}

static void put_indicator(label *l, unsigned format)
{
    l->indicator = l->length;
    if (is_of_2025(format) && l->first_of_2025 == 0) {
        l->first_of_2025 = l->indicator;
    }
    put(l, (uint8_t)('0' + format / 10));
    put(l, (uint8_t)('0' + format % 10));
    note_row(l, 1, format, l->indicator);
    l->body = l->length;
}

static void end_envelope(label *l)
{
    put(l, RS);
    l->envelopes++;
}

enum { VERSION_02, VERSION_96 };

/* Least and greatest lengths of fields 1 to 15 by the table of document 01, the
 * weight's by document 02's No. 2. */
static size_t least_of_field(unsigned version, unsigned field)
{
    static const uint8_t least[2][FIELDS] = {{0, 3, 1, 1, 2, 1, 3, 1, 3, 3, 1, 1, 1, 2, 1},
                                             {3, 3, 1, 1, 2, 1, 3, 1, 3, 1, 1, 1, 1, 2, 1}};
    return least[version][field - 1];
}

static size_t greatest_of_field(unsigned field)
{
    static const uint8_t greatest[FIELDS] = {11, 3, 3, 20, 4, 10, 3, 30, 9, 10, 1, 35, 35, 2, 35};
    return greatest[field - 1];
}

static unsigned fields_of(unsigned version)
{
    return version == VERSION_02 ? 15 : 14;
}

/* A weight's number: digits, and mostly a point in front, among them or behind;
 * a single byte is a digit. */
static void put_number(label *l, size_t length)
{
    size_t start = l->length;
    put_digits(l, length);
    if (length > 1 && !one_in(3)) {
        l->bytes[start + some_length(0, length - 1)] = '.';
    }
}

static void put_unit(label *l)
{
    put_string(l, one_in(2) ? "LB" : "KG");
}

/* A single byte has no room for a unit. */
static void put_weight(label *l, unsigned version, size_t length)
{
    size_t unit = version == VERSION_02 && length >= 2 ? 2 : 0;
    put_number(l, length - unit);
    if (unit > 0) {
        put_unit(l);
    }
}

/* A field's bytes are right whenever its length is. */
static void put_field(label *l, unsigned version, unsigned field, size_t length)
{
    if (field == 2 || field == 7) {
        put_digits(l, length);
    } else if (field == 9 && length >= 2) {
        size_t left = length / 2;
        if (length >= 3 && length <= 9) {
            left = between(length > 6 ? length - 5 : 1, length - 2 < 4 ? length - 2 : 4);
        }
        put_digits(l, left);
        put(l, '/');
        put_digits(l, length - left - 1);
    } else if (field == 10) {
        put_weight(l, version, length);
    } else if (field == 11) {
        while (length-- > 0) {
            put(l, one_of("YN"));
        }
    } else {
        put_text(l, length);
    }
}

static void put_header_01(label *l, unsigned version)
{
    put_indicator(l, 1);
    put(l, GS);
    put_string(l, version == VERSION_02 ? "02" : "96");
    note_row(l, 2, 1, l->length - 2);
    l->body = l->length;
}

/* A later field may be empty, unless it is the last. */
static void put_good_field(label *l, unsigned version, unsigned field, bool is_last)
{
    size_t start = l->length;
    size_t length = some_length(least_of_field(version, field), greatest_of_field(field));
    if (field > 5 && !is_last && one_in(2)) {
        length = 0;
    }
    put_field(l, version, field, length);
    note_row(l, 3, 1, start);
}

static void put_good_fields(label *l, unsigned version, unsigned count)
{
    for (unsigned field = 1; field <= count; field++) {
        if (field > 1) {
            put(l, GS);
        }
        put_good_field(l, version, field, field == count);
    }
}

static void good_01(label *l)
{
    unsigned version = (unsigned)below(2);
    put_header_01(l, version);
    put_good_fields(l, version, (unsigned)between(5, fields_of(version)));
    end_envelope(l);
}

static uint8_t byte_of_02(void)
{
    for (;;) {
        uint8_t byte = one_in(4) ? (uint8_t)one_of("\x1C\x1D\x1F\x7F\x01\x0A") : (uint8_t)below(128);
        if (byte != RS && byte != EOT) {
            return byte;
        }
    }
}

static void good_02(label *l, size_t length)
{
    put_indicator(l, 2);
    while (length-- > 0) {
        put(l, byte_of_02());
    }
    note_row(l, 7, 2, l->body);
    l->envelopes++;
    l->closed = true;
}

static void put_header_03_04(label *l, unsigned format)
{
    put_indicator(l, format);
    for (unsigned i = 0; i < 6; i++) {
        put(l, one_in(2) ? any_digit() : any_capital());
    }
    note_row(l, 2, format, l->length - 6);
    put_string(l, "\x1C\x1D\x1F");
    l->body = l->length;
}

static void put_tag(label *l, unsigned format)
{
    size_t start = l->length;
    if (format == 4 && one_in(4)) {
        put_string(l, "BIN");
    } else if (format == 3 && one_in(8)) {
        static const char *const nearly[] = {"BI", "BIM", "BIO", "BIA", "IN", "CIN", "BJN", "BI0"};
        put_string(l, nearly[below(8)]);
    } else {
        size_t length = between(2, 3);
        put(l, any_capital());
        for (size_t i = 1; i < length; i++) {
            put(l, one_in(3) ? any_digit() : any_capital());
        }
        if (format == 3 && memcmp(l->bytes + start, "BIN", 3) == 0 && length == 3) {
            l->bytes[start] = 'A';
        }
    }
    note_row(l, 4, format, start);
}

static void put_segment(label *l, unsigned format)
{
    put_tag(l, format);
    size_t elements = below(4);
    while (elements-- > 0) {
        put(l, GS);
        size_t sub_elements = one_in(2) ? 1 : between(1, 4);
        for (size_t i = 0; i < sub_elements; i++) {
            if (i > 0) {
                put(l, US);
            }
            size_t start = l->length;
            if (one_in(8)) {
                put_string(l, "BIN");
            } else {
                put_text(l, one_in(3) ? 0 : between(1, 8));
            }
            note_row(l, i == 0 ? 5 : 6, format, start);
        }
    }
    put(l, FS);
}

static void good_03_04(label *l, unsigned format)
{
    put_header_03_04(l, format);
    size_t segments = between(1, 4);
    while (segments-- > 0) {
        put_segment(l, format);
    }
    end_envelope(l);
}

static uint8_t capital_or_digit(void)
{
    return one_in(3) ? one_of("AZ09") : one_in(2) ? any_digit() : any_capital();
}

static void put_element(label *l, unsigned format)
{
    size_t start = l->length;
    switch (format) {
    case 5: put_digits(l, 2); break;
    case 6:
        put_digits(l, below(4));
        put(l, any_capital());
        break;
    default: /* 12 */
        for (unsigned i = 0; i < 3; i++) {
            put(l, capital_or_digit());
        }
        put(l, ' ');
        break;
    }
    put_text(l, some_length(1, 12));
    note_row(l, 3, format, start);
}

static void good_05_06_12(label *l, unsigned format)
{
    put_indicator(l, format);
    put(l, GS);
    l->body = l->length;
    size_t elements = between(1, 5);
    for (size_t i = 0; i < elements; i++) {
        if (i > 0) {
            put(l, GS);
        }
        put_element(l, format);
    }
    end_envelope(l);
}

static uint8_t byte_of_07(void)
{
    for (;;) {
        uint8_t byte = byte_of_02();
        if (byte != FS && byte != GS && byte != US) {
            return byte;
        }
    }
}

static void good_07(label *l, size_t length)
{
    put_indicator(l, 7);
    while (length-- > 0) {
        put(l, byte_of_07());
    }
    note_row(l, 7, 7, l->body);
    end_envelope(l);
}

/* A 09 header with values of the given lengths and a count as text. */
static void put_header_09(label *l, size_t type, size_t compression, const char *count)
{
    put_indicator(l, 9);
    put(l, GS);
    put_text(l, type);
    note_row(l, 2, 9, l->length - type);
    put(l, GS);
    put_text(l, compression);
    note_row(l, 2, 9, l->length - compression);
    put(l, GS);
    put_string(l, count);
    note_row(l, 2, 9, l->length - strlen(count));
    put(l, GS);
    l->body = l->length;
}

/* A 15 header: nothing stands between the indicator and the count. */
static void put_header_15(label *l, const char *count)
{
    put_indicator(l, 15);
    put_string(l, count);
    note_row(l, 2, 15, l->length - strlen(count));
    put(l, GS);
    l->body = l->length;
}

/* A header of 09 or 15 with a count of up to 15 digits. */
static void put_good_counted_header(label *l, unsigned format, unsigned long long count)
{
    char shortest[24], text[24];
    snprintf(shortest, sizeof shortest, "%llu", count);
    size_t zeros = one_in(2) ? 0 : some_length(0, 15 - strlen(shortest));
    memset(text, '0', zeros);
    strcpy(text + zeros, shortest);
    if (format == 15) {
        put_header_15(l, text);
    } else {
        put_header_09(l, some_length(1, 30), some_length(0, 30), text);
    }
}

static uint8_t byte_of_payload(void)
{
    return one_in(3) ? any_control() : any_byte();
}

static void good_09_15(label *l, unsigned format, size_t length)
{
    put_good_counted_header(l, format, length);
    while (length-- > 0) {
        put(l, byte_of_payload());
    }
    note_row(l, 7, format, l->body);
    end_envelope(l);
}

static void good_envelope(label *l, unsigned format)
{
    switch (format) {
    case 1: good_01(l); break;
    case 2: good_02(l, some_length(1, 40)); break;
    case 3:
    case 4: good_03_04(l, format); break;
    case 5:
    case 6:
    case 12: good_05_06_12(l, format); break;
    case 7: good_07(l, some_length(0, 30)); break;
    default: good_09_15(l, format, some_length(0, 30)); break;
    }
}

static unsigned format_of_2025(void)
{
    return one_in(2) ? 12 : 15;
}

/* Mostly one that both editions have, so that each has its good messages. */
static unsigned later_format(void)
{
    static const uint8_t formats[] = {3, 4, 5, 6, 7, 9};
    return one_in(4) ? format_of_2025() : formats[below(6)];
}

/* Good envelopes without 02 at the start of a message. */
static void good_prefix(label *l, size_t envelopes)
{
    open_message(l);
    for (size_t i = 0; i < envelopes; i++) {
        good_envelope(l, i == 0 && one_in(4) ? 1 : later_format());
    }
}

static void good_message(label *l)
{
    open_message(l);
    static const uint8_t first[] = {1, 1, 2, 3, 4, 5, 6, 7, 9, 12, 15};
    size_t envelopes = one_in(2) ? 1 : between(2, 6);
    good_envelope(l, first[below(sizeof first)]);
    if (l->closed) {
        return;
    }
    while (l->envelopes < envelopes) {
        good_envelope(l, later_format());
    }
    put(l, EOT);
}

static knowledge known_good(const label *l)
{
    knowledge known = {true, true, 0, 0, l->rows, l->envelopes, (uint32_t)l->row_count,
                       l->first_of_2025};
    return known;
}

static knowledge known_refusal(const label *l, uint32_t number, size_t place)
{
    knowledge known = {true, true, number, (uint32_t)place, NULL, 0, 0, l->first_of_2025};
    return known;
}

/* Table lengths of every small size and around the needed one. */
static size_t some_table(size_t row_count)
{
    size_t needed = ROW * row_count;
    switch (below(11)) {
    case 0: return below(41);
    case 1: return needed == 0 ? 0 : needed - 1;
    case 2: return below(needed + 1);
    case 3: return needed + between(1, ROW - 1);
    case 4: return needed + between(ROW, 40);
    case 5: return one_in(4) ? ROW * MOST_ROWS - 10 + below(21) : needed + 2 * ROW;
    case 6: return needed >= ROW ? needed - ROW : 0;
    case 7: return 4 * row_count; /* enough if a row had no ordinal */
    default: return needed;
    }
}

static void read_good(label *l, size_t table_length)
{
    knowledge known = known_good(l);
    if (table_length / ROW < l->row_count) {
        known = known_refusal(l, 14, 0);
    }
    compare_read(l->bytes, l->length, table_length, &known);
}

static void case_good_read(void)
{
    good_message(&the_label);
    read_good(&the_label, some_table(the_label.row_count));
}

/* ---- Good messages changed ---- */

static void insert_byte(label *l, size_t at, uint8_t byte)
{
    put(l, 0);
    memmove(l->bytes + at + 1, l->bytes + at, l->length - at - 1);
    l->bytes[at] = byte;
}

static void remove_byte(label *l, size_t at)
{
    memmove(l->bytes + at, l->bytes + at + 1, l->length - at - 1);
    l->length--;
}

static void strip(label *l, bool (*unwanted)(uint8_t))
{
    size_t kept = 0;
    for (size_t i = 0; i < l->length; i++) {
        if (!unwanted(l->bytes[i])) {
            l->bytes[kept++] = l->bytes[i];
        }
    }
    l->length = kept;
}

static uint8_t stripped_byte;

static bool is_stripped_byte(uint8_t byte)
{
    return byte == stripped_byte;
}

static bool is_control(uint8_t byte)
{
    return byte == EOT || byte == FS || byte == GS || byte == RS || byte == US;
}

static uint8_t odd_byte(void)
{
    switch (below(5)) {
    case 0: return any_control();
    case 1: return any_digit();
    case 2: return any_plain();
    case 3: return (uint8_t)"\x1F\x20\x7E\x7F\x80\x81\xFF/:@[`{"[below(13)];
    default: return any_byte();
    }
}

/* The offset of a control byte, or any offset if chance finds none. */
static size_t some_offset(const label *l)
{
    size_t at = below(l->length);
    if (one_in(2)) {
        for (size_t i = 0; i < l->length; i++) {
            size_t turned = (at + i) % l->length;
            if (is_control(l->bytes[turned])) {
                return turned;
            }
        }
    }
    return at;
}

static void change(label *l)
{
    if (l->length == 0) {
        put(l, odd_byte());
        return;
    }
    size_t at = some_offset(l);
    switch (below(14)) {
    case 0: l->bytes[at] = odd_byte(); break;
    case 1: l->bytes[at] ^= (uint8_t)(1u << below(8)); break;
    case 2: l->bytes[at] = (uint8_t)(l->bytes[at] + (one_in(2) ? 1 : 255)); break;
    case 3:
    case 4: remove_byte(l, at); break;
    case 5: insert_byte(l, at, odd_byte()); break;
    case 6: insert_byte(l, at, any_control()); break;
    case 7: insert_byte(l, at, l->bytes[at]); break;
    case 8:
        if (one_in(2)) {
            strip(l, is_control);
        } else {
            stripped_byte = any_control();
            strip(l, is_stripped_byte);
        }
        break;
    case 9: l->length = below(l->length + 1); break;
    case 10: l->length -= 1; break;
    case 11:
        for (size_t more = between(1, 3); more > 0; more--) {
            put(l, odd_byte());
        }
        break;
    case 12: {
        size_t other = below(l->length);
        uint8_t byte = l->bytes[at];
        l->bytes[at] = l->bytes[other];
        l->bytes[other] = byte;
        break;
    }
    default: l->bytes[at] = any_control(); break;
    }
}

static void case_changed_read(void)
{
    good_message(&the_label);
    size_t changes = one_in(3) ? between(2, 3) : 1;
    while (changes-- > 0) {
        change(&the_label);
    }
    compare_read(the_label.bytes, the_label.length, some_table(the_label.row_count), &nothing_known);
}

/* ---- Near misses, each with the number and place it must have ---- */

static void put_odd_bytes(label *l, size_t count)
{
    while (count-- > 0) {
        put(l, odd_byte());
    }
}

/* What may follow where the refusal is certain already. */
static void put_tail(label *l)
{
    switch (below(4)) {
    case 0: break;
    case 1: put_string(l, "\x1E\x04"); break;
    case 2:
        put(l, RS);
        good_envelope(l, later_format());
        put(l, EOT);
        break;
    default: put_odd_bytes(l, below(8)); break;
    }
}

static uint8_t no_digit(void)
{
    for (;;) {
        uint8_t byte = odd_byte();
        if (byte < '0' || byte > '9') {
            return byte;
        }
    }
}

static uint8_t no_byte_of(const char *bytes)
{
    for (;;) {
        uint8_t byte = odd_byte();
        if (byte == 0 || strchr(bytes, byte) == NULL) {
            return byte;
        }
    }
}

static void miss_2(label *l, size_t *place)
{
    good_message(l);
    size_t at = below(4);
    *place = at;
    if (one_in(2)) {
        l->length = at;
    } else {
        uint8_t right = l->bytes[at];
        while (l->bytes[at] == right) {
            l->bytes[at] = odd_byte();
        }
        if (one_in(3)) {
            l->length = between(at + 1, l->length);
        }
    }
}

static void miss_3(label *l, size_t *place)
{
    good_prefix(l, below(3));
    *place = l->length;
    switch (below(3)) {
    case 0:
        put(l, any_digit());
        break;
    case 1:
        put(l, any_digit());
        put(l, no_digit());
        put_tail(l);
        break;
    default:
        if (l->envelopes == 0) {
            if (one_in(3)) {
                break; /* the end */
            }
            put(l, one_in(2) ? EOT : no_digit());
        } else {
            uint8_t byte = EOT;
            while (byte == EOT) {
                byte = no_digit();
            }
            put(l, byte);
        }
        put_tail(l);
        break;
    }
}

static void miss_4(label *l, size_t *place)
{
    good_prefix(l, between(1, 4));
    *place = l->length;
}

static void miss_5(label *l, size_t *place)
{
    good_prefix(l, between(1, 4));
    put(l, EOT);
    *place = l->length;
    put_odd_bytes(l, between(1, 4));
}

static void miss_6(label *l, size_t *place)
{
    good_prefix(l, below(4));
    *place = l->length;
    if (one_in(3)) {
        put_string(l, one_in(2) ? "00" : "08");
    } else if (one_in(2)) { /* beside those of 2025 */
        static const char *const beside[] = {"10", "11", "13", "14", "16", "17", "19", "20",
                                             "22", "25", "51", "21", "52", "92", "95", "99"};
        put_string(l, beside[below(16)]);
    } else {
        put(l, (uint8_t)between('2', '9'));
        put(l, any_digit());
    }
    put_tail(l);
}

static void miss_7(label *l, size_t *place)
{
    good_prefix(l, between(1, 3));
    *place = l->length;
    switch (below(4)) {
    case 0:
        put_string(l, one_in(2) ? "01" : "02");
        put_tail(l);
        break;
    case 1:
        good_02(l, some_length(1, 10));
        break;
    default:
        good_01(l);
        put(l, EOT);
        break;
    }
}

/* Cuts the message somewhere behind the indicator and before its body. */
static void cut_header(label *l)
{
    l->length = between(l->indicator + 2, l->body - 1);
}

/* A count that isn't 1 to 15 digits, or not right behind the indicator of 15. */
static void miss_8_in_15(label *l)
{
    size_t payload = below(20);
    char count[24];
    snprintf(count, sizeof count, "%zu", payload);
    switch (below(6)) {
    case 0: put_header_15(l, ""); break;
    case 1:
        snprintf(count, sizeof count, "%016zu", payload);
        if (one_in(3)) {
            memset(count, '9', 16);
        }
        put_header_15(l, count);
        break;
    case 2:
        snprintf(count, sizeof count, "%03zu", payload);
        count[below(3)] = (char)one_of("-+ ./:Ax\x1E\x1F");
        put_header_15(l, count);
        break;
    case 3: /* a mark before the count, as 09 has it */
        put_good_counted_header(l, 15, payload);
        insert_byte(l, l->indicator + 2, one_in(2) ? GS : one_of("\x1E\x1C\x1F\x04 A"));
        break;
    case 4: /* another byte where the GS is due */
        put_good_counted_header(l, 15, payload);
        l->bytes[l->body - 1] = one_of("\x1E\x1C\x1F\x04.");
        break;
    default:
        put_good_counted_header(l, 15, payload);
        cut_header(l);
        return;
    }
    while (payload-- > 0) {
        put(l, byte_of_payload());
    }
    put_tail(l);
}

static void miss_8(label *l, size_t *place)
{
    good_prefix(l, below(3));
    *place = l->length;
    static const uint8_t formats[] = {3, 4, 5, 6, 9, 9, 9, 12, 15, 15};
    unsigned format = l->envelopes == 0 && one_in(5) ? 1 : formats[below(sizeof formats)];
    size_t at;
    switch (format) {
    case 1: {
        put_header_01(l, (unsigned)below(2));
        static const char *const versions[] = {"06", "56", "01", "97", "20", "69", "92", "86", "03", "00"};
        switch (below(4)) {
        case 0: cut_header(l); return;
        case 1: l->bytes[l->body - 3] = no_byte_of("\x1D"); break;
        case 2: memcpy(l->bytes + l->body - 2, versions[below(10)], 2); break;
        default:
            at = l->body - between(1, 2);
            l->bytes[at] = (uint8_t)(l->bytes[at] ^ (1u << below(8)));
            break;
        }
        put_good_fields(l, VERSION_96, 5);
        put_tail(l);
        break;
    }
    case 3:
    case 4:
        put_header_03_04(l, format);
        at = l->indicator + 2;
        switch (below(6)) {
        case 0: cut_header(l); return;
        case 1:
            at += below(6);
            l->bytes[at] = one_in(2) ? (uint8_t)between('a', 'z')
                                     : one_of("/:@[ \x1C\x1D\x1E\x1F\x04");
            break;
        case 2: remove_byte(l, at + below(6)); break;
        case 3: insert_byte(l, at + below(7), one_in(2) ? any_digit() : any_capital()); break;
        case 4: remove_byte(l, at + 6 + below(3)); break;
        default: {
            size_t separator = at + 6 + below(3);
            uint8_t right = l->bytes[separator];
            while (l->bytes[separator] == right) {
                l->bytes[separator] = odd_byte();
            }
            break;
        }
        }
        put_segment(l, format);
        put_tail(l);
        break;
    case 5:
    case 6:
    case 12:
        put_indicator(l, format);
        if (one_in(4)) {
            return;
        }
        if (one_in(4)) { /* the first element right behind the indicator */
            put_element(l, format);
        } else {
            put(l, no_byte_of("\x1D"));
            put_element(l, format);
        }
        put_tail(l);
        break;
    case 15: miss_8_in_15(l); break;
    default: {
        size_t payload = below(20);
        char count[24];
        snprintf(count, sizeof count, "%zu", payload);
        switch (below(9)) {
        case 0: put_header_09(l, 0, below(31), count); break;
        case 1: put_header_09(l, 31, below(31), count); break;
        case 2: put_header_09(l, between(1, 30), 31, count); break;
        case 3: put_header_09(l, between(1, 30), below(31), ""); break;
        case 4:
            snprintf(count, sizeof count, "%016zu", payload);
            if (one_in(3)) {
                memset(count, '9', 16);
            }
            put_header_09(l, between(1, 30), below(31), count);
            break;
        case 5: /* no digit in the count */
            snprintf(count, sizeof count, "%03zu", payload);
            count[below(3)] = (char)one_of("-+ ./:Ax\x1E\x1F");
            put_header_09(l, between(1, 30), below(31), count);
            break;
        case 6: /* no plain byte in a value */
            put_good_counted_header(l, 9, payload);
            at = l->rows[ROW * (l->row_count - (one_in(2) ? 3 : 2)) + 2]; /* type or compression */
            insert_byte(l, at, one_of("\x1E\x1C\x1F\x7F\x04\xFF"));
            break;
        case 7: /* another byte where a GS is due */
            put_good_counted_header(l, 9, payload);
            l->bytes[one_in(2) ? l->indicator + 2 : l->body - 1] = one_of("\x1E\x1C\x1F\x04.");
            break;
        default:
            put_good_counted_header(l, 9, payload);
            cut_header(l);
            return;
        }
        while (payload-- > 0) {
            put(l, byte_of_payload());
        }
        put_tail(l);
        break;
    }
    }
}

static void miss_9(label *l, size_t *place)
{
    good_prefix(l, below(3));
    *place = l->length;
    size_t payload = some_length(0, 25);
    unsigned long long count = payload;
    bool is_whole = true;
    uint8_t end = RS;
    switch (below(6)) {
    case 0: count = payload + 1; break;
    case 1: payload += 1; break;
    case 2: {
        static const unsigned long long huge[] = {
            1000, 4096, 65536, 4294967295u, 4294967296u,
            999999999999999u, 100000000000000u, 281474976710656u};
        count += huge[below(8)];
        if (count > 999999999999999u) {
            count = 999999999999999u;
        }
        break;
    }
    case 3: end = no_byte_of("\x1E"); break;
    case 4: is_whole = false; break;
    default: count = payload + between(1, 3); break;
    }
    put_good_counted_header(l, one_in(2) ? 9 : 15, count);
    size_t stop = is_whole ? payload : between(0, payload);
    for (size_t i = 0; i < stop; i++) {
        put(l, byte_of_payload());
    }
    if (!is_whole) {
        return;
    }
    if (count == 0 || count < payload) {
        /* The byte where the RS is due is the last of the payload. */
        if (payload > 0 && l->bytes[l->length - 1] == RS) {
            l->bytes[l->length - 1] = GS;
        }
    }
    put(l, end);
    if (one_in(2)) {
        put(l, EOT);
        if (one_in(2)) {
            put_string(l, "XYZ");
        }
    }
}

/* A byte that the body of a format doesn't permit, but not the RS that ends it. */
static uint8_t byte_not_permitted(unsigned format)
{
    for (;;) {
        uint8_t byte = odd_byte();
        bool plain = byte >= 0x20 && byte <= 0x7E;
        switch (format) {
        case 2:
            if (byte >= 0x80 || byte == RS || byte == EOT) {
                return byte;
            }
            break;
        case 3:
        case 4:
            if (!plain && byte != FS && byte != GS && byte != US && byte != RS) {
                return byte;
            }
            break;
        case 7:
            if (byte >= 0x80 || (is_control(byte) && byte != RS)) {
                return byte;
            }
            break;
        default:
            if (!plain && byte != GS && byte != RS) {
                return byte;
            }
            break;
        }
    }
}

/* Whether a field can be too short (31), too long (32) or of wrong bytes (33). A
 * later field that is empty isn't short. */
static bool can_have(unsigned version, unsigned field, uint32_t fault)
{
    switch (fault) {
    case 31: return least_of_field(version, field) > (field > 5 ? 1u : 0u);
    case 32: return true;
    default: return field == 2 || field == 7 || (field >= 9 && field <= 11);
    }
}

/* Where the length is wrong, the bytes may be too, or be those of the other
 * version: that must not matter. */
static void put_wrong_length(label *l, unsigned field, size_t length)
{
    if (one_in(2)) {
        put_field(l, (unsigned)below(2), field, length);
    } else {
        put_text(l, length);
    }
}

/* Two points, a point alone, or a byte that is neither digit nor point. */
static void put_wrong_number(label *l, size_t length)
{
    size_t start = l->length;
    put_number(l, length);
    if (one_in(3)) {
        l->bytes[start + below(length)] = one_of(" ,/:+-eOLBKG");
        return;
    }
    size_t first = below(length), second = length == 1 ? first : first + between(1, length - 1);
    l->bytes[start + first] = '.';
    l->bytes[start + second % length] = '.';
}

/* A number and what is no unit behind it, of a length that a weight may have.
 * What has three bytes may stand alone. */
static void put_wrong_unit(label *l, unsigned version, const char *unit)
{
    size_t least = least_of_field(version, 10), length = strlen(unit);
    size_t least_number = least > length ? least - length : 0;
    put_number(l, some_length(least_number, greatest_of_field(10) - length));
    put_string(l, unit);
}

/* Version 02 with no unit and version 96 with one; what is a unit in neither; a
 * wrong number with what its version has behind it. */
static void put_wrong_weight(label *l, unsigned version)
{
    static const char *const wrong[] = {
        "lb", "kg", "Lb", "lB", "Kg", "kG", " LB", " KG", "LB ", "KG ", "LBS", "KGS",
        "LG", "KB", "BL", "GK", "L", "G", "LBLB", "KGLB", "#", "L.B", "K.", "OZ"};
    switch (below(3)) {
    case 0:
        put_wrong_unit(l, version, version == VERSION_02 ? "" : one_in(2) ? "LB" : "KG");
        break;
    case 1: put_wrong_unit(l, version, wrong[below(sizeof wrong / sizeof wrong[0])]); break;
    default:
        if (version == VERSION_96) {
            put_wrong_number(l, some_length(1, 10));
        } else {
            put_wrong_number(l, some_length(1, 8));
            put_unit(l);
        }
        break;
    }
}

static void put_wrong_bytes(label *l, unsigned version, unsigned field)
{
    static const char *const wrong[] = {
        "12345/1", "1/12345", "/12", "12/", "123", "1-2", "1//2", "1/2/3", "a/1",
        "1/a", "1 /2", "///", "123456789", "1234:1234", "/2345678/", "1234/123a"};
    size_t start = l->length;
    switch (field) {
    case 9: put_string(l, wrong[below(16)]); break;
    case 10: put_wrong_weight(l, version); break;
    case 11: put(l, one_of("XynMOZ 01")); break;
    default: /* the digits of 2 and 7 */
        put_digits(l, 3);
        l->bytes[start + below(3)] = one_of("/:A -o");
        break;
    }
}

static void put_faulty_field(label *l, unsigned version, unsigned field, uint32_t fault)
{
    size_t start = l->length;
    size_t least = least_of_field(version, field), greatest = greatest_of_field(field);
    switch (fault) {
    case 31: put_wrong_length(l, field, some_length(field > 5 ? 1 : 0, least - 1)); break;
    case 32: put_wrong_length(l, field, greatest + (one_in(2) ? 1 : between(1, 20))); break;
    default: put_wrong_bytes(l, version, field); break;
    }
    note_row(l, 3, 1, start);
}

/* A good field, or one that has any fault of its own. */
static void put_any_field(label *l, unsigned version, unsigned field, bool is_last)
{
    uint32_t fault = (uint32_t)between(31, 33);
    if (can_have(version, field, fault) && one_in(2)) {
        put_faulty_field(l, version, field, fault);
    } else {
        put_good_field(l, version, field, is_last);
    }
}

/* So many fields, right or wrong, and the last may be made empty. Those that no
 * version has are like the fifteenth. */
static void put_any_fields(label *l, unsigned version, unsigned count, bool last_is_empty)
{
    bool are_good = one_in(3);
    for (unsigned field = 1; field <= count; field++) {
        bool is_last = field == count;
        unsigned like = field > FIELDS ? FIELDS : field;
        if (field > 1) {
            put(l, GS);
        }
        if (is_last && last_is_empty) {
            break;
        }
        if (are_good) {
            put_good_field(l, version, like, is_last);
        } else {
            put_any_field(l, version, like, is_last);
        }
    }
}

static void put_wrong_element(label *l, unsigned format)
{
    static const char *const wrong_05[] = {"", "1", "12", "A12", "1A2", "AB", " 12", "/12", "1:3"};
    static const char *const wrong_06[] = {
        "", "1", "A", "12A", "123", "1234A1", "a1", "1a1", " A1", "123A", "1@2", "[A1", "0000A1"};
    static const char *const wrong_12[] = {
        "", "P", "PNR", "PNR ", "123 ", "PNR1", "PNR12", "PNRS 1", "PN 12", "PN  1", "pnr 1",
        "Pnr 1", "PNr 1", " PNR 1", "    1", "PNR-1", "PNR_123", "@NR 1", "P[R 1", "PN/ 1", "PN: 1",
        "PN` 1", "{NR 1", "PNR!1", "PNR~1"};
    switch (format) {
    case 5: put_string(l, wrong_05[below(9)]); break;
    case 6: put_string(l, wrong_06[below(13)]); break;
    default: put_string(l, wrong_12[below(25)]); break;
    }
}

/* A good envelope, or in 01, 05, 06 and 12 one whose body may break the rules: what
 * stands before those faults isn't moved by them. */
static void any_envelope(label *l, unsigned format)
{
    if ((format != 1 && format != 5 && format != 6 && format != 12) || one_in(2)) {
        good_envelope(l, format);
        return;
    }
    if (format == 1) {
        unsigned version = (unsigned)below(2);
        put_header_01(l, version);
        put_any_fields(l, version, (unsigned)between(1, 17), one_in(4));
    } else {
        put_indicator(l, format);
        put(l, GS);
        l->body = l->length;
        put_wrong_element(l, format);
        put(l, GS);
        put_element(l, format);
    }
    end_envelope(l);
}

static void miss_10(label *l, size_t *place)
{
    good_prefix(l, below(3));
    *place = l->length;
    static const uint8_t formats[] = {3, 4, 5, 6, 7, 12};
    unsigned format = l->envelopes == 0 && one_in(2) ? (unsigned)between(1, 2) : formats[below(6)];
    any_envelope(l, format);
    size_t end = format == 2 ? l->length : l->length - 1;
    if (one_in(2) && end > l->body) {
        l->bytes[between(l->body, end - 1)] = byte_not_permitted(format);
    } else {
        insert_byte(l, between(l->body, end), byte_not_permitted(format));
    }
    if (format != 2 || one_in(2)) {
        put_tail(l);
    }
}

static void miss_11_in_03_04(label *l, unsigned format)
{
    static const char *const tags[] = {
        "A", "", "ABCD", "aB", "Ab", "1AB", "A-B", "AB ", "A\x1F" "B", "AB\x1F", "\x1F" "AB", " AB"};
    put_header_03_04(l, format);
    size_t before = below(3);
    for (size_t i = 0; i < before; i++) {
        put_segment(l, format);
    }
    switch (below(4)) {
    case 0: /* no segment, or one empty */
        if (l->length > l->body || one_in(2)) {
            put(l, FS);
        }
        break;
    case 1: /* the last isn't ended */
        put_segment(l, format);
        l->length -= 1;
        break;
    case 2:
        put_string(l, format == 3 && one_in(2) ? "BIN" : tags[below(12)]);
        if (one_in(2)) {
            put_string(l, "\x1DX\x1FY");
        }
        put(l, FS);
        break;
    default: /* an element, but no tag */
        put_string(l, "\x1D" "AB");
        put(l, FS);
        break;
    }
    if (one_in(3) && l->bytes[l->length - 1] == FS && l->length > l->body) {
        put_segment(l, format);
    }
}

/* Good elements, then a wrong one, whose start is the place; behind it either. */
static void miss_11_in_05_06_12(label *l, unsigned format, size_t *place)
{
    put_indicator(l, format);
    put(l, GS);
    l->body = l->length;
    size_t count = one_in(16) ? between(60, 150) : between(1, 5);
    size_t odd = some_length(0, count - 1);
    for (size_t i = 0; i < count; i++) {
        if (i > 0) {
            put(l, GS);
        }
        if (i == odd) {
            *place = l->length;
        }
        if (i == odd || (i > odd && one_in(2))) {
            put_wrong_element(l, format);
        } else {
            put_element(l, format);
        }
    }
}

static void miss_11(label *l, size_t *place)
{
    bool is_first = !one_in(3);
    good_prefix(l, is_first ? 0 : between(1, 2));
    *place = l->length;
    static const uint8_t formats[] = {3, 4, 5, 5, 6, 6, 12, 12};
    unsigned format = is_first && one_in(8) ? 2 : formats[below(8)];
    switch (format) {
    case 2: put_indicator(l, 2); return;
    case 3:
    case 4: miss_11_in_03_04(l, format); break;
    default: miss_11_in_05_06_12(l, format, place); break;
    }
    put(l, RS);
    put_tail(l);
}

static void miss_12(label *l, size_t *place)
{
    good_prefix(l, below(3));
    *place = l->length;
    static const uint8_t formats[] = {3, 4, 5, 6, 7, 12};
    any_envelope(l, l->envelopes == 0 && one_in(3) ? 1 : formats[below(6)]);
    l->length = one_in(2) ? l->length - 1 : some_length(l->body, l->length - 1);
    size_t tail = below(5);
    while (tail-- > 0) {
        put(l, one_in(3) ? EOT : no_byte_of("\x1E"));
    }
}

/* A wrong count, or a right one and an empty last field past the fifth. What
 * other faults the fields have doesn't matter. */
static void miss_30(label *l, size_t *place)
{
    unsigned version = (unsigned)below(2);
    unsigned most = fields_of(version);
    open_message(l);
    put_header_01(l, version);
    *place = l->length;
    switch (below(8)) {
    case 0:
    case 1: /* too few; a single one that is empty is an empty body */
        put_any_fields(l, version, (unsigned)between(1, 4), one_in(3));
        break;
    case 2:
    case 3: /* too many */
        put_any_fields(l, version, most + (unsigned)some_length(1, 3), one_in(3));
        break;
    case 4: /* far too many, and 13 doesn't come before 30 */
        for (size_t separators = some_length(most, 1100); separators > 0; separators--) {
            put(l, GS);
        }
        break;
    default:
        put_any_fields(l, version, (unsigned)between(6, most), true);
        *place = l->length;
        break;
    }
    put(l, RS);
    put_tail(l);
}

/* Good fields, then one with the fault, whose start is the place; those behind
 * it may have any fault. The count is right and the last field isn't empty, unless
 * it is the fifth: then it is too short. */
static void miss_field(label *l, size_t *place, uint32_t fault)
{
    unsigned version = (unsigned)below(2);
    unsigned most = fields_of(version);
    unsigned odd;
    do {
        odd = (unsigned)between(1, most);
    } while (!can_have(version, odd, fault));
    unsigned count = (unsigned)some_length(odd < 5 ? 5 : odd, most);
    open_message(l);
    put_header_01(l, version);
    for (unsigned field = 1; field <= count; field++) {
        if (field > 1) {
            put(l, GS);
        }
        if (field < odd) {
            put_good_field(l, version, field, false);
        } else if (field > odd) {
            put_any_field(l, version, field, field == count);
        } else {
            *place = l->length;
            put_faulty_field(l, version, field, fault);
        }
    }
    end_envelope(l);
    put_tail(l);
    faults_made[fault - 31][odd - 1]++;
}

static void miss_31(label *l, size_t *place)
{
    miss_field(l, place, 31);
}

static void miss_32(label *l, size_t *place)
{
    miss_field(l, place, 32);
}

static void miss_33(label *l, size_t *place)
{
    miss_field(l, place, 33);
}

/* Counts a miss of 8 to 12 by the format that it is in, if that is 12 or 15. The
 * envelopes before the one at fault end before the place. */
static void note_miss(const label *l, uint32_t number, size_t place)
{
    size_t at = place;
    while (number == 11 && l->bytes[at - 1] != RS) { /* from an element to its indicator */
        at--;
    }
    if (number >= 8 && number <= 12 && l->bytes[at] == '1') {
        misses_of_12[number] += l->bytes[at + 1] == '2';
        misses_of_15[number] += l->bytes[at + 1] == '5';
    }
}

static void case_near_miss_read(void)
{
    static void (*const misses[NUMBERS])(label *, size_t *) = {
        [2] = miss_2, [3] = miss_3, [4] = miss_4, [5] = miss_5, [6] = miss_6,
        [7] = miss_7, [8] = miss_8, [9] = miss_9, [10] = miss_10, [11] = miss_11,
        [12] = miss_12, [30] = miss_30, [31] = miss_31, [32] = miss_32, [33] = miss_33};
    static const uint8_t draws[] = {2, 3, 4, 5, 6, 7, 8, 8, 8, 8, 9, 9, 9, 10, 10, 11, 11, 11, 12,
                                    30, 30, 30, 31, 31, 32, 32, 33, 33};
    label *l = &the_label;
    uint32_t number = draws[below(sizeof draws)];
    size_t place = 0;
    misses[number](l, &place);
    note_miss(l, number, place);
    knowledge known = known_refusal(l, number, place);
    compare_read(l->bytes, l->length, one_in(2) ? between(0, 40) : 400, &known);
}

/* ---- The limits of length and rows ---- */

/* Ends a message with an envelope that makes it as long as wanted. */
static void fill_to(label *l, size_t length)
{
    if (l->envelopes == 0 && one_in(4)) {
        good_02(l, length - l->length - 2);
        return;
    }
    if (one_in(6)) {
        /* Indicator, four digits, GS; RS and EOT. */
        size_t payload = length - l->length - 2 - 4 - 1 - 2;
        char count[24];
        snprintf(count, sizeof count, "%04zu", payload);
        put_header_15(l, count);
        while (payload-- > 0) {
            put(l, byte_of_payload());
        }
        note_row(l, 7, 15, l->body);
        end_envelope(l);
    } else if (one_in(3)) {
        /* Indicator, two values of one byte, four digits, four GS; RS and EOT. */
        size_t payload = length - l->length - 2 - 4 - 2 - 4 - 2;
        char count[24];
        snprintf(count, sizeof count, "%04zu", payload);
        put_header_09(l, 1, 1, count);
        while (payload-- > 0) {
            put(l, byte_of_payload());
        }
        note_row(l, 7, 9, l->body);
        end_envelope(l);
    } else {
        good_07(l, length - l->length - 2 - 2);
    }
    put(l, EOT);
}

/* Answers whether it is good. */
static bool long_message(label *l)
{
    size_t length = between(4095, 4098);
    good_prefix(l, below(4));
    fill_to(l, length);
    return length <= MOST_BYTES;
}

static void case_length_limit_read(void)
{
    label *l = &the_label;
    if (one_in(5)) { /* rubbish of these lengths */
        size_t length = between(4095, 4098);
        open_message(l);
        l->length = one_in(2) ? 0 : l->length;
        put_odd_bytes(l, length - l->length);
        knowledge known = length > MOST_BYTES ? known_refusal(l, 1, 4096) : nothing_known;
        compare_read(l->bytes, l->length, some_table(10), &known);
        return;
    }
    bool good = long_message(l);
    if (one_in(4)) {
        change(l);
        compare_read(l->bytes, l->length, some_table(l->row_count), &nothing_known);
    } else if (good) {
        read_good(l, some_table(l->row_count));
    } else {
        knowledge known = known_refusal(l, 1, 4096);
        compare_read(l->bytes, l->length, some_table(l->row_count), &known);
    }
}

/* A message with so many rows, by one of five ways, without its EOT. */
static void message_of_rows(label *l, size_t row_count)
{
    good_prefix(l, one_in(2) ? 0 : 1);
    size_t way = one_in(8) ? 4 : below(4);
    if (way == 4) { /* many empty envelopes of 15, three rows each, behind some of 07 */
        while ((row_count - l->row_count) % 3 != 0) {
            good_07(l, 0);
        }
        while (l->row_count < row_count) {
            put_header_15(l, one_in(8) ? "00" : "0");
            note_row(l, 7, 15, l->body);
            end_envelope(l);
        }
        return;
    }
    if (way == 3) { /* many empty envelopes of 07 */
        while (l->row_count + 2 < row_count) {
            good_07(l, 0);
        }
        if (l->row_count + 2 > row_count) { /* one row too few is left: make it three */
            l->length -= 3;
            l->row_count -= 2;
            l->envelopes -= 1;
        }
        if (row_count - l->row_count == 2) {
            good_07(l, 0);
            return;
        }
        put_indicator(l, 5);
        put_string(l, "\x1D" "12A");
        note_row(l, 3, 5, l->length - 3);
        put_string(l, "\x1D" "34B");
        note_row(l, 3, 5, l->length - 3);
        end_envelope(l);
        return;
    }
    if (way == 2) {
        put_indicator(l, 6);
        while (l->row_count < row_count) {
            put(l, GS);
            put(l, any_capital());
            put(l, any_plain());
            note_row(l, 3, 6, l->length - 2);
        }
        end_envelope(l);
        return;
    }
    unsigned format = (unsigned)between(3, 4);
    put_header_03_04(l, format);
    put_tag(l, format);
    bool has_element = false;
    while (l->row_count < row_count) {
        if (has_element && one_in(3)) {
            put(l, US);
            note_row(l, 6, format, l->length);
        } else if (way == 1 && one_in(8)) {
            put(l, FS);
            put_tag(l, format);
            has_element = false;
        } else {
            put(l, GS);
            put_text(l, one_in(4) ? 1 : 0);
            note_row(l, 5, format, l->length - (l->bytes[l->length - 1] == GS ? 0 : 1));
            has_element = true;
        }
    }
    put(l, FS);
    end_envelope(l);
}

static void case_row_limit_read(void)
{
    label *l = &the_label;
    size_t row_count = between(1023, 1026);
    message_of_rows(l, row_count);
    bool has_end = !one_in(6);
    if (has_end) {
        put(l, EOT);
    }
    size_t table_length = one_in(2) ? ROW * between(1022, 1027) : some_table(row_count);
    knowledge known;
    if (!has_end) {
        known = known_refusal(l, 4, l->length);
    } else if (row_count > MOST_ROWS) {
        known = known_refusal(l, 13, 0);
    } else {
        read_good(l, table_length);
        return;
    }
    compare_read(l->bytes, l->length, table_length, &known);
}

/* ---- Random bytes ---- */

/* Good fields, and then a weight of the bytes that weights are made of. */
static void random_weight(label *l)
{
    unsigned version = (unsigned)below(2);
    open_message(l);
    put_header_01(l, version);
    for (unsigned field = 1; field < 10; field++) {
        put_good_field(l, version, field, false);
        put(l, GS);
    }
    for (size_t length = below(11); length > 0; length--) {
        put(l, one_of("0123456789..LBKG"));
    }
    if (one_in(2)) {
        put_unit(l);
    }
    put_string(l, "\x1E\x04");
}

/* What formats 12 and 15 are made of, behind an indicator of theirs or next to it. */
static void random_of_2025(label *l)
{
    open_message(l);
    put_string(l, one_in(6) ? "1" : one_in(2) ? "12" : "15");
    if (one_in(2)) {
        put(l, GS);
    }
    for (size_t length = below(14); length > 0; length--) {
        put(l, one_of("\x1D\x1E\x04" "0123  PNRn"));
    }
    if (one_in(2)) {
        put_string(l, "\x1E\x04");
    }
}

static void random_message(label *l)
{
    open_message(l);
    size_t way = below(6);
    if (way == 0) {
        l->length = 0;
    }
    if (way == 5) {
        put_header_01(l, (unsigned)below(2));
    }
    size_t length = one_in(3) ? below(8) : below(60);
    while (length-- > 0) {
        switch (way) {
        case 0:
        case 1: put(l, any_byte()); break;
        case 2: put(l, one_of("\x04\x1C\x1D\x1E\x1F" "0123456789AB")); break;
        case 3: put(l, one_of("\x1D\x1E\x1E\x04" "000567A1")); break;
        case 5: put(l, one_of("\x1D\x1D\x1D" "018/YNA")); break; /* fields */
        default: put(l, odd_byte()); break;
        }
    }
    if (way == 5) {
        put_string(l, "\x1E\x04");
    }
    if (way == 4) { /* an indicator where it is due */
        if (l->length > 6) {
            bool is_later = one_in(4);
            l->bytes[4] = is_later ? '1' : '0';
            l->bytes[5] = is_later ? one_of("25") : (uint8_t)between('1', '9');
        }
        if (one_in(2)) {
            put_string(l, "\x1E\x04");
        }
    }
}

static void case_random_read(void)
{
    label *l = &the_label;
    if (one_in(6)) {
        random_weight(l);
    } else if (one_in(4)) {
        random_of_2025(l);
    } else {
        random_message(l);
    }
    compare_read(l->bytes, l->length, one_in(2) ? below(41) : 400, &nothing_known);
}

/* ---- Rows for the writer ---- */

enum { DATA_ROOM = 20000, NUMBERS_ROOM = 7500 };

typedef struct {
    size_t data_length, rows_length;
    size_t message_length; /* of the message that true rows have */
    bool is_of_2025;       /* some are of format 12 or 15 */
    uint8_t data[DATA_ROOM];
    uint32_t rows[NUMBERS_ROOM];
} order;

static order the_order;

static void add_number(order *o, uint32_t number)
{
    if (o->rows_length == NUMBERS_ROOM) {
        fprintf(stderr, "the generator wants too many rows to write\n");
        exit(2);
    }
    o->rows[o->rows_length++] = number;
}

static void add_data(order *o, const uint8_t *bytes, size_t length)
{
    if (o->data_length + length > DATA_ROOM) {
        fprintf(stderr, "the generator wants too much data\n");
        exit(2);
    }
    if (length > 0) {
        memcpy(o->data + o->data_length, bytes, length);
    }
    o->data_length += length;
}

static void add_odd_data(order *o, size_t length)
{
    while (length-- > 0) {
        uint8_t byte = odd_byte();
        add_data(o, &byte, 1);
    }
}

/* Where the content stands in the data already, or at the end after adding what
 * doesn't overlap with the data's last bytes. */
static size_t overlapping_place(order *o, const uint8_t *content, size_t length)
{
    for (size_t at = 0; at < o->data_length; at++) {
        size_t rest = o->data_length - at;
        size_t common = rest < length ? rest : length;
        if (memcmp(o->data + at, content, common) == 0) {
            add_data(o, content + common, length - common);
            return at;
        }
    }
    add_data(o, content, length);
    return o->data_length - length;
}

/* True rows: those of a label, with their contents relocated. */
static void make_order(order *o, const label *l)
{
    size_t count = l->row_count;
    o->data_length = 0;
    o->rows_length = ROW * count;
    o->message_length = l->length;
    o->is_of_2025 = l->first_of_2025 != 0;
    memcpy(o->rows, l->rows, ROW_BYTES * count);
    size_t way = below(4);
    if (way == 0) { /* the message itself */
        add_data(o, l->bytes, l->length);
        return;
    }
    static size_t turn[LABEL_ROWS];
    for (size_t i = 0; i < count; i++) {
        turn[i] = i;
    }
    if (!one_in(4)) {
        for (size_t i = count; i > 1; i--) {
            size_t j = below(i), kept = turn[i - 1];
            turn[i - 1] = turn[j];
            turn[j] = kept;
        }
    }
    add_odd_data(o, below(4));
    for (size_t i = 0; i < count; i++) {
        uint32_t *row = &o->rows[ROW * turn[i]];
        const uint8_t *content = l->bytes + row[2];
        if (way == 1 && count < 200) {
            row[2] = (uint32_t)overlapping_place(o, content, row[3]);
        } else {
            row[2] = (uint32_t)o->data_length;
            add_data(o, content, row[3]);
            if (way == 2) {
                add_odd_data(o, below(3));
            }
        }
    }
    add_odd_data(o, one_in(2) ? 0 : below(6));
    for (size_t i = 0; i < count; i++) { /* an empty stretch may be anywhere */
        if (o->rows[ROW * i + 3] == 0) {
            o->rows[ROW * i + 2] = (uint32_t)between(0, o->data_length);
        }
    }
}

/* Output lengths of every small size and around the needed one. */
static size_t some_output(size_t needed)
{
    switch (below(8)) {
    case 0: return needed - 1;
    case 1: return needed + 1;
    case 2: return below(needed);
    case 3: return below(20);
    case 4: return needed + between(2, 60);
    default: return needed;
    }
}

static void write_true(order *o)
{
    size_t output_length = some_output(o->message_length);
    compare_write(o->data, o->data_length, o->rows, o->rows_length, output_length, o->is_of_2025,
                  output_length < o->message_length ? 22 : 0);
}

static void case_true_write(void)
{
    good_message(&the_label);
    make_order(&the_order, &the_label);
    write_true(&the_order);
}

static uint32_t odd_number(size_t around)
{
    switch (below(6)) {
    case 0: return (uint32_t)below(12);
    case 1: return 0xFFFFFFFFu - (uint32_t)below(8);
    case 2: return 0x7FFFFFFFu + (uint32_t)below(3);
    case 3: return (uint32_t)chance();
    case 4: return (uint32_t)(between(around, around + 4));
    default: return (uint32_t)below(around + 1);
    }
}

static size_t numbers_from(const order *o, size_t row)
{
    return o->rows_length - ROW * row;
}

static void drop_row(order *o, size_t row)
{
    uint32_t *numbers = o->rows + ROW * row;
    memmove(numbers, numbers + ROW, (numbers_from(o, row) - ROW) * sizeof(uint32_t));
    o->rows_length -= ROW;
}

static void double_row(order *o, size_t row)
{
    uint32_t *numbers = o->rows + ROW * row;
    memmove(numbers + ROW, numbers, numbers_from(o, row) * sizeof(uint32_t));
    o->rows_length += ROW;
}

/* A second message's rows follow, its ordinals as they were or raised by so much. */
static void add_message(order *o, const label *l, uint32_t raised)
{
    size_t base = o->data_length;
    add_data(o, l->bytes, l->length);
    for (size_t i = 0; i < l->row_count; i++) {
        const uint32_t *row = &l->rows[ROW * i];
        add_number(o, row[0]);
        add_number(o, row[1]);
        add_number(o, row[2] + (uint32_t)base);
        add_number(o, row[3]);
        add_number(o, row[ORDINAL] + raised);
    }
    o->message_length += l->length;
}

/* Spoils rows in one way; answers the number that must follow, if it is known. */
static uint32_t spoil(order *o)
{
    size_t count = o->rows_length / ROW;
    if (count == 0) {
        return 21;
    }
    size_t at = below(count);
    uint32_t *row = &o->rows[ROW * at];
    switch (below(20)) {
    case 0: /* one number changed by one */
        row[below(ROW)] += one_in(2) ? 1u : 0xFFFFFFFFu;
        return NOT_KNOWN;
    case 1:
        row[below(ROW)] = odd_number(o->data_length);
        return NOT_KNOWN;
    case 2:
        drop_row(o, at);
        return NOT_KNOWN;
    case 3: { /* two rows swapped */
        size_t other = one_in(2) ? (at + 1) % count : below(count);
        for (size_t i = 0; i < ROW; i++) {
            uint32_t kept = row[i];
            row[i] = o->rows[ROW * other + i];
            o->rows[ROW * other + i] = kept;
        }
        return NOT_KNOWN;
    }
    case 4:
        double_row(o, at);
        return NOT_KNOWN;
    case 5:
        row[0] = (uint32_t)below(9);
        return NOT_KNOWN;
    case 6:
        row[1] = (uint32_t)below(17);
        return NOT_KNOWN;
    case 7: { /* another format for all rows of one format */
        uint32_t before = row[1], after = (uint32_t)between(1, 16);
        for (size_t i = 0; i < count; i++) {
            if (o->rows[ROW * i + 1] == before) {
                o->rows[ROW * i + 1] = after;
            }
        }
        return before == after ? NOT_KNOWN : 21; /* the indicator disagrees */
    }
    case 8: /* a stretch past the end */
        if (one_in(2)) {
            row[2] = (uint32_t)(o->data_length - row[3] + between(1, 3));
        } else {
            row[3] = (uint32_t)(o->data_length - row[2] + between(1, 3));
        }
        return 20;
    case 9: /* a sum that wraps in 32 bits */
        if (one_in(2) || row[3] == 0) {
            row[2] = 0xFFFFFFFFu - (uint32_t)below(4);
            row[3] = 0u - row[2] + (uint32_t)below(o->data_length < 9 ? 1 : 8);
        } else { /* start + length wraps to what is inside */
            row[2] = 0u - (uint32_t)between(1, row[3]);
        }
        return 20;
    case 10: /* an empty stretch that starts past the end */
        row[2] = (uint32_t)(o->data_length + between(1, 3));
        row[3] = 0;
        return 20;
    case 11: /* no multiple of five */
        if (one_in(2)) {
            o->rows_length -= between(1, ROW - 1);
        } else {
            size_t more = between(1, ROW - 1);
            while (more-- > 0) {
                add_number(o, (uint32_t)below(8));
            }
        }
        return 20;
    case 12: /* more than 1,024 rows */
        if (one_in(8)) {
            size_t wanted = ROW * between(1025, 1028);
            for (size_t i = o->rows_length; i < wanted; i++) {
                o->rows[i] = o->rows[i % (ROW * count)];
            }
            o->rows_length = wanted;
            return 20;
        }
        o->rows_length = 0;
        return 21; /* no rows at all */
    case 13:
    case 14: /* a content changed */
        if (o->data_length > 0) {
            size_t byte = row[3] > 0 ? row[2] + below(row[3]) : below(o->data_length);
            if (byte < o->data_length) {
                o->data[byte] = odd_byte();
            }
        }
        return NOT_KNOWN;
    case 15: /* rows at the end or at the start are missing */
        if (one_in(2)) {
            o->rows_length = ROW * at;
        } else {
            size_t dropped = at;
            while (dropped-- > 0) {
                drop_row(o, 0);
            }
        }
        return NOT_KNOWN;
    case 16: /* a second message's rows follow; its ordinals go on, or begin again */
        good_message(&second_label);
        if (one_in(2)) {
            add_message(o, &second_label, o->rows[o->rows_length - 1] + 1);
            return NOT_KNOWN;
        }
        add_message(o, &second_label, 0);
        return 21; /* an indicator isn't in the envelope of the row before it */
    case 17: /* another row's content */
        row[2] = o->rows[ROW * below(count) + 2];
        row[3] = o->rows[ROW * below(count) + 3];
        return NOT_KNOWN;
    case 18: { /* rows of small random numbers */
        size_t rows_drawn = between(1, 6);
        o->rows_length = 0;
        while (rows_drawn-- > 0) {
            add_number(o, (uint32_t)below(9));
            add_number(o, (uint32_t)below(17));
            uint32_t start = (uint32_t)between(0, o->data_length);
            add_number(o, start);
            add_number(o, (uint32_t)between(0, o->data_length - start));
            add_number(o, (uint32_t)below(3));
        }
        return NOT_KNOWN;
    }
    default: /* an empty content, or a much longer one */
        if (one_in(2)) {
            row[3] = 0;
        } else {
            row[2] = 0;
            row[3] = (uint32_t)o->data_length;
        }
        return NOT_KNOWN;
    }
}

/* The rows of a label with a faulty field, which no good message has. */
static uint32_t faulty_rows(order *o)
{
    size_t place;
    miss_field(&the_label, &place, (uint32_t)between(31, 33));
    make_order(o, &the_label);
    return 21;
}

/* Gives rows the ordinals that are true if they are a good message's, so that a
 * change of rows isn't refused for its ordinals alone. */
static void renumber(order *o)
{
    uint32_t indicators = 0;
    for (size_t i = 0; i + ROW <= o->rows_length; i += ROW) {
        indicators += o->rows[i] == 1;
        o->rows[i + ORDINAL] = indicators == 0 ? 0 : indicators - 1;
    }
}

/* A good message's rows, spoilt. */
static uint32_t spoilt_rows(order *o)
{
    good_message(&the_label);
    make_order(o, &the_label);
    uint32_t known = spoil(o);
    if (one_in(4)) {
        spoil(o);
        known = NOT_KNOWN;
    }
    if (known == NOT_KNOWN && one_in(2)) {
        renumber(o);
    }
    return known;
}

/* A good message's rows whose ordinals alone aren't true, by an error that a
 * caller may make or that a writer may overlook. */
static uint32_t false_ordinals(order *o)
{
    size_t way = below(FALSE_ORDINALS);
    do {
        good_message(&the_label);
    } while (the_label.envelopes < 2 && !one_envelope_will_do[way]);
    make_order(o, &the_label);
    size_t count = the_label.row_count;
    uint32_t last = the_label.envelopes - 1;
    uint32_t *one = &o->rows[ROW * below(count) + ORDINAL];
    uint32_t before = 0;
    ordinals_made[way]++;
    switch (way) {
    case ONE_RAISED: *one += 1; return 21;
    case ONE_LOWERED: *one -= 1; return 21;
    case ONE_HUGE: *one = 0xFFFFFFFFu - (uint32_t)below(3); return 21;
    case ONE_WITH_MORE_BITS: *one += 1u << between(8, 31); return 21;
    default: break;
    }
    for (size_t i = 0; i < count; i++) {
        uint32_t *ordinal = &o->rows[ROW * i + ORDINAL], own = *ordinal;
        switch (way) {
        case ALL_FROM_1: *ordinal = own + 1; break;
        case ALL_0: *ordinal = 0; break;
        case ALL_THE_LAST: *ordinal = last; break;
        case ALL_HUGE: *ordinal = 0xFFFFFFFFu; break;
        case FROM_THE_END: *ordinal = last - own; break;
        case OF_THE_ROW_BEFORE: *ordinal = before; break;
        case OF_THE_ROW_BEHIND:
            if (i + 1 < count) {
                *ordinal = o->rows[ROW * (i + 1) + ORDINAL];
            }
            break;
        default: *ordinal = (uint32_t)i; break; /* BY_ROWS */
        }
        before = own;
    }
    return 21;
}

/* Whether a row's stretch leaves the data; the sum is taken in 64 bits. */
static bool leaves_data(const order *o)
{
    for (size_t i = 0; i + ROW <= o->rows_length; i += ROW) {
        if ((uint64_t)o->rows[i + 2] + o->rows[i + 3] > o->data_length) {
            return true;
        }
    }
    return false;
}

/* A good message's rows without their ordinals, as they were before a row had
 * one. Taken five by five they are no message's: the second row's kind, which is
 * never 0, stands where the first ordinal is due. */
static uint32_t four_wide_rows(order *o)
{
    good_message(&the_label);
    make_order(o, &the_label);
    size_t count = o->rows_length / ROW;
    for (size_t i = 0; i < count; i++) {
        memmove(o->rows + ORDINAL * i, o->rows + ROW * i, ORDINAL * sizeof(uint32_t));
    }
    o->rows_length = ORDINAL * count;
    return o->rows_length % ROW != 0 || leaves_data(o) ? 20 : 21;
}

static void case_false_write(void)
{
    order *o = &the_order;
    uint32_t known = one_in(6) ? faulty_rows(o) : spoilt_rows(o);
    compare_write(o->data, o->data_length, o->rows, o->rows_length, some_output(o->message_length),
                  o->is_of_2025, known);
}

static void case_false_ordinals_write(void)
{
    order *o = &the_order;
    uint32_t known = one_in(5) ? four_wide_rows(o) : false_ordinals(o);
    compare_write(o->data, o->data_length, o->rows, o->rows_length, some_output(o->message_length),
                  o->is_of_2025, known);
}

static void case_limit_write(void)
{
    order *o = &the_order;
    label *l = &the_label;
    if (one_in(2)) {
        bool good = long_message(l);
        make_order(o, l);
        if (good) {
            write_true(o);
        } else { /* 21 stands before 22 */
            compare_write(o->data, o->data_length, o->rows, o->rows_length,
                          some_output(o->message_length), o->is_of_2025, 21);
        }
    } else {
        size_t row_count = between(1023, 1026);
        message_of_rows(l, row_count);
        put(l, EOT);
        make_order(o, l);
        bool is_false = one_in(4); /* one bit of one ordinal */
        if (is_false) {
            o->rows[ROW * below(row_count) + ORDINAL] ^= 1u << below(32);
        }
        if (row_count <= MOST_ROWS && !is_false) {
            write_true(o);
        } else {
            compare_write(o->data, o->data_length, o->rows, o->rows_length,
                          some_output(o->message_length), o->is_of_2025,
                          row_count <= MOST_ROWS ? 21 : 20);
        }
    }
}

/* ---- Parts ---- */

static void compare_parts(const label *l, const knowledge *known)
{
    size_t count = l->row_count;
    compare_part(l->bytes, l->length, below(count), known);
    compare_part(l->bytes, l->length, one_in(2) ? count - 1 : 0, known);
    compare_part(l->bytes, l->length, count, known);
    static const size_t far[] = {1023, 1024, 1025, 4096, 5120, 0x33333334, 0xFFFFFFFF,
                                 SIZE_MAX / ROW, SIZE_MAX / ROW + 1, SIZE_MAX / 4 + 1,
                                 SIZE_MAX / 2 + 1, SIZE_MAX - 1, SIZE_MAX};
    compare_part(l->bytes, l->length, far[below(sizeof far / sizeof far[0])], known);
}

static void case_parts(void)
{
    label *l = &the_label;
    knowledge known = nothing_known;
    switch (below(40)) {
    case 0: /* refused with 13, or 1,024 rows */
        message_of_rows(l, between(1023, 1026));
        put(l, EOT);
        if (l->row_count <= MOST_ROWS) {
            known = known_good(l);
        }
        compare_parts(l, &known);
        break;
    case 1:
        if (long_message(l)) {
            known = known_good(l);
        }
        compare_parts(l, &known);
        break;
    case 2:
        random_message(l);
        l->row_count = 1;
        compare_parts(l, &known);
        break;
    default:
        good_message(l);
        if (one_in(3)) {
            change(l);
        } else {
            known = known_good(l);
        }
        compare_parts(l, &known);
        break;
    }
}

/* ---- The run ---- */

static void run_case(void)
{
    static void (*const cases[CASE_KINDS])(void) = {
        case_good_read, case_changed_read, case_near_miss_read, case_length_limit_read,
        case_row_limit_read, case_random_read, case_true_write, case_false_write,
        case_false_ordinals_write, case_limit_write, case_parts};

    chance_state = run_seed;
    chance_state = chance() ^ (case_number * 0xD1342543DE82EF95u);
    size_t draw = below(1000);
    case_kind = 0;
    while (draw >= case_kinds[case_kind].weight) {
        draw -= case_kinds[case_kind].weight;
        case_kind++;
    }
    cases_run[case_kind]++;
    cases[case_kind]();
}

/* Empty input behind null pointers, which the reference allows. */
static bool reference_allows_null(void)
{
    return reference_read(ZIELORAD_2025, NULL, 0, NULL, 0).number == 2 &&
           reference_write(ZIELORAD_2025, NULL, 0, NULL, 0, NULL, 0).number == 21 &&
           reference_part_of(ZIELORAD_2025, NULL, 0, 0).length == 0;
}

/* Answers whether each field had each fault that it can have in some version. */
static bool print_faults_made(void)
{
    bool all_made = true;
    printf("how often fields 1 to 15 were made the faulty one:\n");
    for (uint32_t fault = 31; fault <= 33; fault++) {
        printf("%10u:", fault);
        for (unsigned field = 1; field <= FIELDS; field++) {
            uint64_t made = faults_made[fault - 31][field - 1];
            bool can = can_have(VERSION_02, field, fault) || can_have(VERSION_96, field, fault);
            printf(" %llu", (unsigned long long)made);
            all_made = all_made && (made > 0 || !can);
        }
        putchar('\n');
    }
    return all_made;
}

/* Answers whether ordinals were made false in each way. */
static bool print_ordinals_made(void)
{
    bool all_made = true;
    printf("how often ordinals were made false in each way:\n          ");
    for (unsigned way = 0; way < FALSE_ORDINALS; way++) {
        printf(" %llu", (unsigned long long)ordinals_made[way]);
        all_made = all_made && ordinals_made[way] > 0;
    }
    putchar('\n');
    return all_made;
}

/* Answers whether formats 12 and 15 were missed with each number that they have. */
static bool print_misses_made(void)
{
    bool all_made = true;
    printf("how often 8 to 12 were made the number of format 12, and of 15:\n");
    for (unsigned number = 8; number <= 12; number++) {
        printf("%10u: %llu %llu\n", number, (unsigned long long)misses_of_12[number],
               (unsigned long long)misses_of_15[number]);
        all_made = all_made && (misses_of_12[number] > 0 || number == 9) &&
                   (misses_of_15[number] > 0 || number > 9);
    }
    return all_made;
}

static bool parse(const char *text, uint64_t *value)
{
    char *end;
    unsigned long long parsed = strtoull(text, &end, 0);
    *value = parsed;
    return text[0] != 0 && *end == 0;
}

int main(int argc, char **argv)
{
    uint64_t cases = 1000000, first = 0;
    run_seed = 15434;
    if (argc > 4 || (argc > 1 && !parse(argv[1], &run_seed)) ||
        (argc > 2 && !parse(argv[2], &cases)) || (argc > 3 && !parse(argv[3], &first))) {
        fprintf(stderr, "differential [SEED [CASES [FIRST]]]\n");
        return 2;
    }
    printf("seed %llu, %llu cases from case %llu on\n", (unsigned long long)run_seed,
           (unsigned long long)cases, (unsigned long long)first);
    fflush(stdout);
    make_pattern();
    if (!reference_allows_null()) {
        printf("the reference errs on empty input\n");
        return 1;
    }

    for (uint64_t i = 0; i < cases; i++) {
        case_number = first + i;
        run_case();
    }

    printf("cases of each kind:\n");
    for (unsigned kind = 0; kind < CASE_KINDS; kind++) {
        printf("%10llu %s\n", (unsigned long long)cases_run[kind], case_kinds[kind].name);
    }
    printf("compared: %llu readings, %llu writings, %llu parts; %llu written back, %llu read back\n",
           (unsigned long long)reads, (unsigned long long)writes, (unsigned long long)parts,
           (unsigned long long)written_back, (unsigned long long)read_back);
    printf("how often each number was answered:\n");
    bool all_seen = true;
    for (unsigned number = 0; number < NUMBERS; number++) {
        if (is_answer(number)) {
            printf("%10llu %u\n", (unsigned long long)numbers_seen[number], number);
            all_seen = all_seen && numbers_seen[number] > 0;
        }
    }
    if (!all_seen && cases >= 100000) {
        printf("DIFFERENCE: a number was never answered\n");
        return 1;
    }
    if (!print_faults_made() && cases >= 100000) {
        printf("DIFFERENCE: a field never had a fault that it can have\n");
        return 1;
    }
    if (!print_ordinals_made() && cases >= 100000) {
        printf("DIFFERENCE: ordinals were never made false in one of the ways\n");
        return 1;
    }
    if (!print_misses_made() && cases >= 100000) {
        printf("DIFFERENCE: format 12 or 15 never had a number that it can have\n");
        return 1;
    }
    printf("no difference\n");
    return 0;
}
