/* The benchmark: one case, one side, so many calls. tests/bench/run counts what they take and makes the table; docs/PERFORMANCE.md has it.
 *
 *   bench list                      each case: its name, group, bytes and what it is
 *   bench count CASE SIDE CALLS     check the case, then make so many calls
 *   bench time CASE                 check the case, then print nanoseconds for a call of ours and of the reference
 *   bench stack CASE SIDE           check the case, then print the stack that a call takes, and its instructions
 *
 * SIDE is 'ours', 'reference' or 'nothing', a function that returns at once. Whatever is asked for, both sides are first called once and
 * must give the same answer and leave the same memory; else the answer is 1 and nothing is measured. */
#define _GNU_SOURCE
#include "../../include/zielorad.h"
#include "../reference/reference.h"

#include <signal.h>
#include <stdbool.h>
#include <stdio.h>
#include <stdlib.h>
#include <string.h>
#include <time.h>
#include <ucontext.h>

enum { EOT = 0x04, GS = 0x1D, RS = 0x1E, LONGEST = ZIELORAD_LONGEST, MOST_CASES = 64 };

typedef enum { READ, WRITE, PART } operation;

typedef struct {
    const char *name, *group, *title;
    operation asked;
    uint32_t edition;
    uint32_t number; /* the answer expected: 0, or a refusal */
    uint8_t message[LONGEST];
    size_t length;
    uint32_t rows[ZIELORAD_TABLE]; /* of the message, for the writer and for the last row */
    size_t row_count;
} bench_case;

static bench_case cases[MOST_CASES];
static size_t case_count;

static void fail(const char *text, const char *name)
{
    fprintf(stderr, "bench: %s: %s\n", name, text);
    exit(1);
}

/* ---- The labels ---- */

static void add(bench_case *c, uint8_t byte)
{
    if (c->length == LONGEST) {
        fail("the label is too long", c->name);
    }
    c->message[c->length++] = byte;
}

static void add_text(bench_case *c, const char *text)
{
    for (; *text != 0; text++) {
        add(c, (uint8_t)*text);
    }
}

static bench_case *new_case(const char *name, const char *group, const char *title, operation asked)
{
    if (case_count == MOST_CASES) {
        fail("too many cases", name);
    }
    bench_case *c = &cases[case_count++];
    c->name = name;
    c->group = group;
    c->title = title;
    c->asked = asked;
    c->edition = ZIELORAD_2005;
    return c;
}

/* A case by the edition of 2025, which has the formats that it is in. */
static bench_case *new_case_of_2025(const char *name, const char *group, const char *title, operation asked)
{
    bench_case *c = new_case(name, group, title, asked);
    c->edition = ZIELORAD_2025;
    return c;
}

static void open_label(bench_case *c)
{
    add_text(c, "[)>\x1E");
}

/* '|' stands for GS. */
static void add_elements(bench_case *c, const char *format, const char *elements)
{
    add_text(c, format);
    add(c, GS);
    for (; *elements != 0; elements++) {
        add(c, *elements == '|' ? GS : (uint8_t)*elements);
    }
    add(c, RS);
}

static void add_06(bench_case *c, const char *elements)
{
    add_elements(c, "06", elements);
}

/* Five elements by turns, each with a GS before it, as long as there is room up to a size. */
static void make_elements(bench_case *c, const char *format, const char *const elements[5], size_t size)
{
    open_label(c);
    add_text(c, format);
    for (size_t i = 0; c->length + 1 + strlen(elements[i % 5]) + 2 <= size; i++) {
        add(c, GS);
        add_text(c, elements[i % 5]);
    }
    add(c, RS);
    add(c, EOT);
}

/* Elements of three bytes: size - 8 must be a multiple of 4. */
static void make_many(bench_case *c, size_t size)
{
    static const char *const elements[] = {"1P7", "Q12", "S42", "9KB", "V01"};
    make_elements(c, "06", elements, size);
}

/* Elements of seven bytes, which formats 06 and 12 both can have: size - 8 must be a multiple of 8. */
static void make_many_of_seven(bench_case *c, size_t size)
{
    static const char *const of_06[] = {"1P74711", "Q120000", "S420815", "9KB-100", "V010203"};
    static const char *const of_12[] = {"PNR 471", "QTY 120", "SER 420", "ORD B-1", "SPL 010"};
    bool is_12 = c->edition == ZIELORAD_2025;
    make_elements(c, is_12 ? "12" : "06", is_12 ? of_12 : of_06, size);
}

static void make_text(bench_case *c, size_t size)
{
    static const char words[] = "Deliver to door 12 before noon; call the desk first.\r\n";
    open_label(c);
    add_text(c, "07");
    for (size_t i = 0; c->length + 2 < size; i++) {
        add(c, (uint8_t)words[i % (sizeof words - 1)]);
    }
    add(c, RS);
    add(c, EOT);
}

/* A payload of all byte values, control bytes too; its count has four digits. What stands before the count is the format's. */
static void make_counted(bench_case *c, const char *front, size_t size)
{
    char count[8];
    open_label(c);
    add_text(c, front);
    size_t payload = size - c->length - 4 - 1 - 2;
    snprintf(count, sizeof count, "%04zu", payload);
    add_text(c, count);
    add(c, GS);
    for (size_t i = 0; i < payload; i++) {
        add(c, (uint8_t)(i * 7));
    }
    add(c, RS);
    add(c, EOT);
}

static void make_payload(bench_case *c, size_t size)
{
    make_counted(c, "09\x1D" "A\x1D\x1D", size);
}

/* Elements of the same lengths in both formats. */
#define SHORT_ELEMENTS "1PAB-471100-RED|Q1200|S000421|4L0001|9KORDER77|10D2631|VDOCK-NORTH|3S98765432|2QKGM12.5|1TLOT-B8812|18VUN047113"
#define SHORT_OF_12 "PNR AB-471100-R|QTY 9|SER 421|LOC 01|ORD O-R77|EXP 263|DCK NORTH-1|SEQ 987654|WGT 12.50|LOT B-88120|UNN 047113X"

static void make_short(bench_case *c)
{
    bool is_12 = c->edition == ZIELORAD_2025;
    open_label(c);
    add_elements(c, is_12 ? "12" : "06", is_12 ? SHORT_OF_12 : SHORT_ELEMENTS);
    add(c, EOT);
}

static void make_file(bench_case *c, const char *examples, const char *name)
{
    char path[4096];
    snprintf(path, sizeof path, "%s/%s", examples, name);
    FILE *file = fopen(path, "rb");
    if (file == NULL) {
        fail("there is no such label", path);
    }
    c->length = fread(c->message, 1, LONGEST, file);
    fclose(file);
}

static void make_cases(const char *examples)
{
    make_short(new_case("a", "main", "read format 06, 12 rows", READ));
    make_many(new_case("b", "main", "read format 06, 1,023 rows", READ), LONGEST);
    make_text(new_case("c", "main", "read format 07", READ), LONGEST);
    make_payload(new_case("d", "main", "read format 09, payload of 4,079 bytes", READ), LONGEST);

    bench_case *damaged = new_case("e", "main", "refuse (b), last element damaged", READ);
    make_many(damaged, LONGEST);
    damaged->message[LONGEST - 5] = '1'; /* Q12 becomes 112: no capital */
    damaged->message[LONGEST - 4] = '1';
    damaged->number = 11;

    make_short(new_case("f-a", "main", "write (a)", WRITE));
    make_many(new_case("f-b", "main", "write (b)", WRITE), LONGEST);
    make_many(new_case("g", "main", "part of the last row of (b)", PART), LONGEST);

    bench_case *two = new_case("h", "main", "read two envelopes of format 06", READ);
    open_label(two);
    add_06(two, "1PAB-471100|Q12|S000421|4L0001|9KORDER77|10D2631|VDOCK-NORTH|3S98765432|2QKGM12.5|1TLOT-B8812");
    add_06(two, "1PCD-471200|Q48|S000422|4L0002|9KORDER78|10D2632|VDOCK-SOUTH|3S98765433|2QKGM10.0|1TLOT-B8813");
    add(two, EOT);

    bench_case *mixed = new_case("i", "main", "read format 06, then 07", READ);
    open_label(mixed);
    add_06(mixed, "1PAB-471100|Q12|S000421|4L0001|9KORDER77|10D2631|VDOCK-NORTH|3S98765432|2QKGM12.5|1TLOT-B8812");
    add_text(mixed, "07Deliver to door 12 before noon; call the desk first, and leave by the north gate.\x1E");
    add(mixed, EOT);

    make_file(new_case("j", "main", "read format 01, `examples/B.2.label`", READ), examples, "B.2.label");
    make_file(new_case("k", "main", "read format 03, `examples/B.4.label`", READ), examples, "B.4.label");
    make_file(new_case("f-j", "stack", "write (j)", WRITE), examples, "B.2.label");
    make_file(new_case("g-j", "stack", "part of the last row of (j)", PART), examples, "B.2.label");

    /* formats of the edition of 2025, each to be held against one of 2005 of the same size: (l) and (a), (n) and (m), (o) and (d) */
    make_short(new_case_of_2025("l", "2025", "read format 12, bytes and rows as (a)", READ));
    make_many_of_seven(new_case("m", "2025", "read format 06, 512 rows", READ), LONGEST);
    make_many_of_seven(new_case_of_2025("n", "2025", "read format 12, bytes and rows as (m)", READ), LONGEST);
    make_counted(new_case_of_2025("o", "2025", "read format 15, bytes as (d), payload of 4,083", READ), "15", LONGEST);

    static const size_t sizes[] = {512, 1024, 2048, 4096};
    static const char *const names[][4] = {{"06-512", "06-1024", "06-2048", "06-4096"},
                                           {"07-512", "07-1024", "07-2048", "07-4096"},
                                           {"09-512", "09-1024", "09-2048", "09-4096"},
                                           {"w-512", "w-1024", "w-2048", "w-4096"}};
    for (size_t i = 0; i < 4; i++) {
        make_many(new_case(names[0][i], "growth", "read format 06, many elements", READ), sizes[i]);
    }
    for (size_t i = 0; i < 4; i++) {
        make_text(new_case(names[1][i], "growth", "read format 07", READ), sizes[i]);
    }
    for (size_t i = 0; i < 4; i++) {
        make_payload(new_case(names[2][i], "growth", "read format 09", READ), sizes[i]);
    }
    for (size_t i = 0; i < 4; i++) {
        make_many(new_case(names[3][i], "growth", "write format 06, many elements", WRITE), sizes[i]);
    }
}

/* ---- The calls ---- */

/* All three functions take whole numbers, at most six in registers and a seventh on the stack, and answer at most two: so one shape of
 * call serves for all of them. */
enum { MOST_ARGUMENTS = 7 };

typedef struct {
    uint64_t argument[MOST_ARGUMENTS];
    void (*function)(void);
} call;

static uint32_t table[ZIELORAD_TABLE];
static uint8_t output[LONGEST];

static void nothing(void)
{
}

static call call_of(const bench_case *c, const char *side)
{
    bool ours = strcmp(side, "ours") == 0;
    bool reference = strcmp(side, "reference") == 0;
    if (!ours && !reference && strcmp(side, "nothing") != 0) {
        fail("there is no such side", side);
    }
    call k = {{c->edition, (uint64_t)(uintptr_t)c->message, c->length, 0, 0, 0, 0}, nothing};
    switch (c->asked) {
    case READ:
        k.argument[3] = (uint64_t)(uintptr_t)table;
        k.argument[4] = ZIELORAD_TABLE;
        k.function = ours ? (void (*)(void))zielorad_read : (void (*)(void))reference_read;
        break;
    case WRITE:
        k.argument[3] = (uint64_t)(uintptr_t)c->rows;
        k.argument[4] = ZIELORAD_ROW * c->row_count;
        k.argument[5] = (uint64_t)(uintptr_t)output;
        k.argument[6] = LONGEST;
        k.function = ours ? (void (*)(void))zielorad_write : (void (*)(void))reference_write;
        break;
    case PART:
        k.argument[3] = c->row_count - 1;
        k.function = ours ? (void (*)(void))zielorad_part_of : (void (*)(void))reference_part_of;
        break;
    }
    if (!ours && !reference) {
        k.function = nothing;
    }
    return k;
}

typedef struct {
    uint64_t first, second;
} two_words;

/* The call itself. What it answers goes to a volatile place, so that no call is left out. */
static volatile uint64_t sink;

static inline void make_call(const call *k)
{
    two_words (*function)(uint64_t, uint64_t, uint64_t, uint64_t, uint64_t, uint64_t, uint64_t) =
        (two_words(*)(uint64_t, uint64_t, uint64_t, uint64_t, uint64_t, uint64_t, uint64_t))k->function;
    two_words answer =
        function(k->argument[0], k->argument[1], k->argument[2], k->argument[3], k->argument[4], k->argument[5], k->argument[6]);
    sink = answer.first;
}

/* ---- The same answer ---- */

static uint32_t first_table[ZIELORAD_TABLE];
static uint8_t first_output[LONGEST];

static void check(bench_case *c)
{
    c->row_count = reference_read(c->edition, c->message, c->length, c->rows, ZIELORAD_TABLE).rows;
    memset(table, 0xA5, sizeof table);
    memset(output, 0xA5, sizeof output);
    memcpy(first_table, table, sizeof table);
    memcpy(first_output, output, sizeof output);
    bool same = false;
    switch (c->asked) {
    case READ: {
        reference_reading theirs = reference_read(c->edition, c->message, c->length, first_table, ZIELORAD_TABLE);
        zielorad_reading ours = zielorad_read(c->edition, c->message, c->length, table, ZIELORAD_TABLE);
        same = ours.number == c->number && ours.number == theirs.number && ours.place == theirs.place &&
               ours.envelopes == theirs.envelopes && ours.rows == theirs.rows && (c->number != 0 || ours.rows == c->row_count);
        break;
    }
    case WRITE: {
        size_t numbers = ZIELORAD_ROW * c->row_count;
        reference_written theirs = reference_write(c->edition, c->message, c->length, c->rows, numbers, first_output, LONGEST);
        zielorad_written ours = zielorad_write(c->edition, c->message, c->length, c->rows, numbers, output, LONGEST);
        same = ours.number == c->number && ours.number == theirs.number && ours.count == theirs.count && ours.count == c->length &&
               memcmp(output, c->message, c->length) == 0;
        break;
    }
    case PART: {
        size_t row = c->row_count - 1;
        reference_part theirs = reference_part_of(c->edition, c->message, c->length, row);
        zielorad_part ours = zielorad_part_of(c->edition, c->message, c->length, row);
        same = ours.start == theirs.start && ours.length == theirs.length && ours.start == c->rows[ZIELORAD_ROW * row + 2] &&
               ours.length == c->rows[ZIELORAD_ROW * row + 3] && ours.length != 0;
        break;
    }
    }
    if (!same || memcmp(table, first_table, sizeof table) != 0 || memcmp(output, first_output, sizeof output) != 0) {
        fail("the two sides don't give the answer expected", c->name);
    }
}

/* ---- Time ---- */

static double nanoseconds(void)
{
    struct timespec now;
    clock_gettime(CLOCK_MONOTONIC, &now);
    return (double)now.tv_sec * 1e9 + (double)now.tv_nsec;
}

static double round_of(const call *k, unsigned long calls)
{
    double before = nanoseconds();
    for (unsigned long i = 0; i < calls; i++) {
        make_call(k);
    }
    return nanoseconds() - before;
}

static unsigned long calls_for(const call *k)
{
    unsigned long calls = 1;
    while (round_of(k, calls) < 5e6) {
        calls *= 2;
    }
    return calls;
}

/* The least of 25 rounds of at least five milliseconds, the two sides by turns, so that what else the machine does meets both. */
static void print_times(const call *ours, const call *reference)
{
    unsigned long our_calls = calls_for(ours), their_calls = calls_for(reference);
    double our_least = 1e300, their_least = 1e300;
    for (int i = 0; i < 25; i++) {
        double taken = round_of(ours, our_calls) / (double)our_calls;
        our_least = taken < our_least ? taken : our_least;
        taken = round_of(reference, their_calls) / (double)their_calls;
        their_least = taken < their_least ? taken : their_least;
    }
    printf("%.0f %.0f\n", our_least, their_least);
}

/* ---- Stack ---- */

/* The call is made on a stack of its own, empty but for paint. Two ways to see how deep it goes:
 * - touched: the lowest byte whose paint is gone. Two paints are tried, since a byte may be written with the paint's own value.
 * - reserved: the least value of the stack pointer, seen by a single step after each instruction (the signal handler has another stack). It
 *   also counts memory that is set aside and never written, but not the 128 bytes below the stack pointer that a function may use as they
 *   are; so the stack to provide is the greater of the two.
 * Both count the eight bytes of the return address, and not the seventh argument, which stands above it. */
enum { ROOM = 1 << 18, TOP = ROOM - 16 };
static uint8_t own_stack[ROOM] __attribute__((aligned(64)));
static uint8_t handler_stack[1 << 16] __attribute__((aligned(64)));
static volatile uint64_t least_pointer;
static volatile unsigned long steps;

static void stepped(int signal, siginfo_t *info, void *context)
{
    (void)signal;
    (void)info;
    uint64_t pointer = (uint64_t)((ucontext_t *)context)->uc_mcontext.gregs[REG_RSP];
    uint64_t base = (uint64_t)(uintptr_t)own_stack;
    /* between the instruction that sets the flag and the one that clears it */
    if (pointer >= base && pointer < base + ROOM) {
        if (pointer < least_pointer) {
            least_pointer = pointer;
        }
        steps++;
    }
}

/* flag 0x100 asks the processor for a trap after each instruction, 0 doesn't. The caller's own 128 bytes below its stack pointer are kept. */
static void call_on_own_stack(const call *k, uint64_t flag)
{
    register uint64_t fourth __asm__("r8") = k->argument[4];
    register uint64_t fifth __asm__("r9") = k->argument[5];
    register uint8_t *top __asm__("r12") = own_stack + TOP;
    register uint64_t step_flag __asm__("r13") = flag;
    register void (*function)(void) __asm__("r14") = k->function;
    uint64_t zeroth = k->argument[0], first = k->argument[1], second = k->argument[2], third = k->argument[3];
    memcpy(own_stack + TOP, &k->argument[6], sizeof k->argument[6]);
    __asm__ volatile("mov %%rsp, %%rbx\n\t"
                     "lea -128(%%rsp), %%rsp\n\t"
                     "pushfq\n\t"
                     "or %%r13, (%%rsp)\n\t"
                     "popfq\n\t"
                     "mov %%r12, %%rsp\n\t"
                     "call *%%r14\n\t"
                     "lea -128(%%rbx), %%rsp\n\t"
                     "pushfq\n\t"
                     "andq $~0x100, (%%rsp)\n\t"
                     "popfq\n\t"
                     "mov %%rbx, %%rsp"
                     : "+D"(zeroth), "+S"(first), "+d"(second), "+c"(third), "+r"(fourth), "+r"(fifth)
                     : "r"(top), "r"(step_flag), "r"(function)
                     : "rax", "rbx", "r10", "r11", "xmm0", "xmm1", "xmm2", "xmm3", "xmm4", "xmm5", "xmm6", "xmm7", "xmm8", "xmm9", "xmm10",
                       "xmm11", "xmm12", "xmm13", "xmm14", "xmm15", "memory", "cc");
}

static size_t touched_of(const call *k)
{
    size_t most = 0;
    for (int paint = 0x5A; paint <= 0xA5; paint += 0xA5 - 0x5A) {
        memset(own_stack, paint, ROOM);
        call_on_own_stack(k, 0);
        size_t lowest = 0;
        while (lowest < TOP && own_stack[lowest] == paint) {
            lowest++;
        }
        most = TOP - lowest > most ? TOP - lowest : most;
    }
    return most;
}

/* 0 where the machine doesn't step, as under an emulator. */
static size_t reserved_of(const call *k)
{
    stack_t other = {.ss_sp = handler_stack, .ss_size = sizeof handler_stack};
    struct sigaction action = {.sa_sigaction = stepped, .sa_flags = SA_SIGINFO | SA_ONSTACK};
    uint64_t top = (uint64_t)(uintptr_t)(own_stack + TOP);
    if (sigaltstack(&other, NULL) != 0 || sigaction(SIGTRAP, &action, NULL) != 0) {
        return 0;
    }
    least_pointer = top;
    steps = 0;
    call_on_own_stack(k, 0x100);
    return top - least_pointer;
}

/* ---- What is asked for ---- */

static bench_case *find_case(const char *name)
{
    for (size_t i = 0; i < case_count; i++) {
        if (strcmp(cases[i].name, name) == 0) {
            return &cases[i];
        }
    }
    fail("there is no such case", name);
    return NULL;
}

int main(int count, char **words)
{
    const char *examples = getenv("EXAMPLES");
    make_cases(examples == NULL ? "examples" : examples);
    const char *asked = count > 1 ? words[1] : "";
    if (strcmp(asked, "list") == 0) {
        for (size_t i = 0; i < case_count; i++) {
            printf("%s\t%s\t%zu\t%s\n", cases[i].name, cases[i].group, cases[i].length, cases[i].title);
        }
        return 0;
    }
    bench_case *c = find_case(count > 2 ? words[2] : "");
    check(c);
    if (strcmp(asked, "time") == 0) {
        call ours = call_of(c, "ours"), reference = call_of(c, "reference");
        print_times(&ours, &reference);
        return 0;
    }
    call k = call_of(c, count > 3 ? words[3] : "");
    if (strcmp(asked, "count") == 0) {
        for (unsigned long left = strtoul(count > 4 ? words[4] : "0", NULL, 10); left > 0; left--) {
            make_call(&k);
        }
    } else if (strcmp(asked, "stack") == 0) {
        size_t touched = touched_of(&k);
        size_t reserved = reserved_of(&k);
        printf("%zu %zu %lu\n", touched, reserved, steps);
    } else {
        fail("only list, count, time and stack are known", asked);
    }
    return 0;
}
