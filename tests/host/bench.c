/* Runs calls for ./bench to measure; the inputs come from a fixed seed.
 *
 *   bench run CALL KIND FIRST COUNT   runs one call many times: the difference between the executed
 *                                     instructions of two counts is the calls alone
 *   bench stack                       prints the bytes of stack that each call of the library touches
 *   bench time                        prints each call's time as a multiple of soft's */
#define _XOPEN_SOURCE 700

#include "garthumor.h"
#include "inputs.h"
#include "peers.h"

#include <stdio.h>
#include <stdlib.h>
#include <string.h>
#include <time.h>
#include <ucontext.h>

enum { READINGS = 64, SLOTS = 6, WORD_BYTES = 3, CLASSES = 128, COLUMNS = 6, LAST_REFUSAL = 18, STACK = 1 << 18, PAINT = 0xC5 };

static int32_t readings[READINGS][POSITIONS];
static int32_t others[READINGS][POSITIONS]; /* a second receiver's */
static uint32_t numbers[READINGS];
static uint32_t columns[READINGS];
static uint32_t codewords[READINGS];

static void prepare(enum kind kind)
{
    for (int r = 0; r < READINGS; r++) {
        numbers[r] = chance() % 16777216;
        columns[r] = 1 + numbers[r] / CLASSES % COLUMNS;
        garthumor_encode(numbers[r] % MESSAGES, &codewords[r]);
        fill_reading(readings[r], kind, codewords[r]);
    }
    for (int r = 0; r < READINGS; r++)
        fill_reading(others[r], kind, codewords[r]);
}

/* The outputs go where the compiler cannot leave a call out. */
static uint32_t one, other, slots[SLOTS];
static int64_t wide, more;
static uint8_t bytes[WORD_BYTES];
static struct garthumor_tally tally;
static uint32_t counts[MESSAGES];
static volatile uint8_t kept;

static uint8_t none(int r) { return (uint8_t)r; }
static uint8_t encode(int r) { return garthumor_encode(numbers[r] % MESSAGES, &one); }
static uint8_t read_back(int r) { return garthumor_read(codewords[r], &one); }
static uint8_t syndrome(int r) { return garthumor_syndrome(numbers[r], &one); }
static uint8_t find(int r) { return garthumor_find(numbers[r], &one, &other); }
static uint8_t apply(int r) { return garthumor_apply(numbers[r], codewords[r], &one); }
static uint8_t correct(int r) { return garthumor_correct(numbers[r], &one, &other); }
static uint8_t candidates(int r) { return garthumor_candidates(numbers[r], slots, SLOTS); }
static uint8_t class_figure(int r) { return garthumor_class_figure(readings[r], POSITIONS, numbers[r] % CLASSES, &wide); }
static uint8_t column_figure(int r) { return garthumor_column_figure(readings[r], POSITIONS, numbers[r] % CLASSES, columns[r], &wide); }
static uint8_t soft(int r) { return garthumor_soft(readings[r], POSITIONS, &one, &other, &wide, &more); }
static uint8_t quick(int r) { return garthumor_quick(readings[r], POSITIONS, &one); }
static uint8_t better(int r) { return garthumor_better(readings[0], READINGS * POSITIONS, others[0], READINGS * POSITIONS, (size_t)r); }
static uint8_t count(int r) { return garthumor_count(&tally, counts, MESSAGES, readings[r], POSITIONS); }
static uint8_t write_bytes(int r) { return garthumor_write_bytes(codewords[r], bytes, WORD_BYTES); }
static uint8_t read_bytes(int r) { return (void)r, garthumor_read_bytes(bytes, WORD_BYTES, &one); }
static uint8_t field(int r) { return (uint8_t)field_decode(readings[r]); }
static uint8_t plain(int r) { return plain_decode(readings[r], &one, &wide, &more); }
static uint8_t classes(int r) { return class_decode(readings[r], &one, &wide, &more); }

struct call {
    const char *name;
    uint8_t (*run)(int r);
    int in_library;
};

static const struct call calls[] = {
    { "none", none, 0 },
    { "encode", encode, 1 },
    { "read", read_back, 1 },
    { "syndrome", syndrome, 1 },
    { "find", find, 1 },
    { "apply", apply, 1 },
    { "correct", correct, 1 },
    { "candidates", candidates, 1 },
    { "class_figure", class_figure, 1 },
    { "column_figure", column_figure, 1 },
    { "soft", soft, 1 },
    { "quick", quick, 1 },
    { "better", better, 1 },
    { "count", count, 1 },
    { "write_bytes", write_bytes, 1 },
    { "read_bytes", read_bytes, 1 },
    { "field", field, 0 },
    { "plain", plain, 0 },
    { "classes", classes, 0 },
};

enum { CALLS = sizeof calls / sizeof calls[0] };

static int run_one(const char *name, int first, int count)
{
    for (int c = 0; c < CALLS; c++) {
        if (strcmp(calls[c].name, name) != 0)
            continue;
        for (int i = 0; i < count; i++)
            kept = calls[c].run((first + i) % READINGS);
        return kept > LAST_REFUSAL;
    }
    fprintf(stderr, "bench: no such call: %s\n", name);
    return 2;
}

/* ---- stack */

static unsigned char stack[STACK];
static ucontext_t here, there;
static uint8_t (*called)(int r);

static void call_with_each(void)
{
    for (int r = 0; r < READINGS; r++)
        kept = called(r);
}

/* What the calls touch of a painted stack of their own, with what it takes to start there. */
static size_t touched(uint8_t (*run)(int r))
{
    size_t untouched = 0;
    memset(stack, PAINT, STACK);
    called = run;
    getcontext(&there);
    there.uc_stack.ss_sp = stack;
    there.uc_stack.ss_size = STACK;
    there.uc_link = &here;
    makecontext(&there, call_with_each, 0);
    swapcontext(&here, &there);
    while (untouched < STACK && stack[untouched] == PAINT)
        untouched++;
    return STACK - untouched;
}

static int print_stack(void)
{
    size_t most[CALLS] = { 0 };
    for (int kind = 0; kind < KINDS; kind++) {
        prepare((enum kind)kind);
        for (int c = 0; c < CALLS; c++) {
            size_t bytes_touched = touched(calls[c].run);
            if (bytes_touched > most[c])
                most[c] = bytes_touched;
        }
    }
    for (int c = 0; c < CALLS; c++)
        if (calls[c].in_library)
            printf("%s %zu\n", calls[c].name, most[c] - most[0]);
    return 0;
}

/* ---- time */

static double seconds_each(uint8_t (*run)(int r))
{
    for (long count = READINGS;; count *= 2) {
        clock_t start = clock();
        for (long i = 0; i < count; i++)
            kept = run((int)(i % READINGS));
        clock_t spent = clock() - start;
        if (spent > CLOCKS_PER_SEC / 10)
            return (double)spent / CLOCKS_PER_SEC / (double)count;
    }
}

/* Of several, the one that was disturbed least. */
static double least_seconds(uint8_t (*run)(int r))
{
    double least = seconds_each(run);
    for (int again = 1; again < 5; again++) {
        double seconds = seconds_each(run);
        least = seconds < least ? seconds : least;
    }
    return least;
}

/* The first call is the one that does nothing: the host's own loop. */
static int print_time(void)
{
    double each[CALLS], of_soft = 0;
    prepare(DECENT);
    for (int c = 0; c < CALLS; c++) {
        each[c] = least_seconds(calls[c].run) - (c > 0 ? each[0] : 0);
        of_soft = calls[c].run == soft ? each[c] : of_soft;
    }
    for (int c = 1; c < CALLS; c++)
        printf("%s %.2f\n", calls[c].name, each[c] / of_soft);
    return 0;
}

int main(int argc, char **argv)
{
    peers_start();
    if (argc == 2 && strcmp(argv[1], "stack") == 0)
        return print_stack();
    if (argc == 2 && strcmp(argv[1], "time") == 0)
        return print_time();
    enum kind kind = argc == 6 && strcmp(argv[1], "run") == 0 ? kind_named(argv[3]) : KINDS;
    if (kind == KINDS) {
        fprintf(stderr, "usage: bench run CALL KIND FIRST COUNT, bench stack or bench time\n");
        return 2;
    }
    prepare(kind);
    return run_one(argv[2], atoi(argv[4]), atoi(argv[5]));
}
