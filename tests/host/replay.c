/* Replays case lines through garthumor.h and trial.h: reads cases, calls the libraries, prints the
 * answer lines.
 *
 * The line format is the second program's (tests/second/line.rs). Whatever the library gets a
 * pointer to lies between guard bytes; where those or an output break, the answer line is
 * `broken GUARD ...`, which no comparison passes. */

#include "garthumor.h"
#include "lent.h"
#include "trial.h"

#include <inttypes.h>
#include <stddef.h>
#include <stdint.h>
#include <stdio.h>
#include <stdlib.h>
#include <string.h>

enum { MOST_HEADS = 8, MOST_NUMBERS = 256, LONGEST_TABLE = 8192, LINE_BYTES = 4096 };

enum outcome { ANSWERED, REFUSED, BROKEN };

/* A case: the message, words, pattern, class, column, reading's number, tally or length that the call
 * has, and the numbers after them. */
struct given {
    uint64_t head[MOST_HEADS];
    int64_t numbers[MOST_NUMBERS];
    size_t count;
};

struct call {
    const char *name;
    size_t heads;
    uint64_t most_head;
    size_t most_numbers;
    int64_t least, most;
    void (*replay)(const struct given *given);
};

static unsigned long line_number;

static void fail(const char *reason, const char *what)
{
    fflush(stdout);
    fprintf(stderr, "replay: standard input, line %lu: %s%s\n", line_number, reason, what);
    exit(1);
}

/* Begins the answer line; the values of an answer, or the lent memory, follow it. */
static enum outcome settle(uint8_t refusal)
{
    const char *name;
    const char *wrong = breach(refusal, &name);
    if (wrong != NULL) {
        printf("broken GUARD %s %s", name, wrong);
        return BROKEN;
    }
    if (refusal != 0) {
        printf("refused %u", (unsigned)refusal);
        return REFUSED;
    }
    printf("answered");
    return ANSWERED;
}

static void print_number(uint32_t number)
{
    printf(" %" PRIu32, number);
}

static uint8_t *lend_bytes(enum role role, const struct given *given)
{
    uint8_t bytes[MOST_NUMBERS];
    for (size_t i = 0; i < given->count; i++)
        bytes[i] = (uint8_t)given->numbers[i];
    return lend(role, "bytes", bytes, given->count);
}

static void replay_encode(const struct given *given)
{
    uint32_t *codeword = lend_output("codeword", sizeof *codeword);
    if (settle(garthumor_encode(given->head[0], codeword)) == ANSWERED)
        print_number(*codeword);
}

static void replay_read(const struct given *given)
{
    uint32_t *message = lend_output("message", sizeof *message);
    if (settle(garthumor_read(given->head[0], message)) == ANSWERED)
        print_number(*message);
}

static void replay_syndrome(const struct given *given)
{
    uint32_t *syndrome = lend_output("syndrome", sizeof *syndrome);
    if (settle(garthumor_syndrome(given->head[0], syndrome)) == ANSWERED)
        print_number(*syndrome);
}

static void replay_distance(const struct given *given)
{
    uint32_t *distance = lend_output("distance", sizeof *distance);
    if (settle(trial_distance(given->head[0], given->head[1], distance)) == ANSWERED)
        print_number(*distance);
}

static void replay_write_bytes(const struct given *given)
{
    uint8_t *bytes = lend_bytes(MEMORY, given);
    if (settle(garthumor_write_bytes(given->head[0], bytes, given->count)) == BROKEN)
        return;
    printf(" |");
    for (size_t i = 0; i < given->count; i++)
        print_number(bytes[i]);
}

static void replay_read_bytes(const struct given *given)
{
    const uint8_t *bytes = lend_bytes(INPUT, given);
    uint32_t *codeword = lend_output("codeword", sizeof *codeword);
    if (settle(garthumor_read_bytes(bytes, given->count, codeword)) == ANSWERED)
        print_number(*codeword);
}

/* A call that has a number with this name of a word, and its distance. */
static void replay_with_distance(uint8_t (*call)(uint32_t, uint32_t *, uint32_t *), const char *name, const struct given *given)
{
    uint32_t *number = lend_output(name, sizeof *number);
    uint32_t *distance = lend_output("distance", sizeof *distance);
    if (settle(call(given->head[0], number, distance)) != ANSWERED)
        return;
    print_number(*number);
    print_number(*distance);
}

static void replay_correct(const struct given *given) { replay_with_distance(garthumor_correct, "codeword", given); }

static void replay_find(const struct given *given) { replay_with_distance(garthumor_find, "pattern", given); }

static void replay_apply(const struct given *given)
{
    uint32_t *result = lend_output("result", sizeof *result);
    if (settle(garthumor_apply(given->head[0], given->head[1], result)) == ANSWERED)
        print_number(*result);
}

static void replay_candidates(const struct given *given)
{
    uint32_t contents[MOST_NUMBERS];
    for (size_t i = 0; i < given->count; i++)
        contents[i] = (uint32_t)given->numbers[i];
    uint32_t *slots = lend(MEMORY, "slots", contents, given->count * sizeof *slots);
    if (settle(garthumor_candidates(given->head[0], slots, given->count)) == BROKEN)
        return;
    printf(" |");
    for (size_t i = 0; i < given->count; i++)
        print_number(slots[i]);
}

static const int32_t *lend_confidences(const char *name, const int64_t *numbers, size_t count)
{
    int32_t confidences[MOST_NUMBERS];
    for (size_t i = 0; i < count; i++) {
        if (numbers[i] > INT32_MAX)
            fail("no confidence of 32 bits among those of the ", name);
        confidences[i] = (int32_t)numbers[i];
    }
    return lend(INPUT, name, confidences, count * sizeof *confidences);
}

static const int32_t *lend_reading(const struct given *given)
{
    return lend_confidences("reading", given->numbers, given->count);
}

static void print_wide_number(int64_t number)
{
    printf(" %" PRId64, number);
}

static void replay_class_figure(const struct given *given)
{
    const int32_t *reading = lend_reading(given);
    int64_t *figure = lend_output("figure", sizeof *figure);
    if (settle(garthumor_class_figure(reading, given->count, given->head[0], figure)) == ANSWERED)
        print_wide_number(*figure);
}

static void replay_column_figure(const struct given *given)
{
    const int32_t *reading = lend_reading(given);
    int64_t *figure = lend_output("figure", sizeof *figure);
    uint8_t refusal = garthumor_column_figure(reading, given->count, given->head[0], given->head[1], figure);
    if (settle(refusal) == ANSWERED)
        print_wide_number(*figure);
}

static void replay_soft(const struct given *given)
{
    const int32_t *reading = lend_reading(given);
    uint32_t *message = lend_output("message", sizeof *message);
    uint32_t *codeword = lend_output("codeword", sizeof *codeword);
    int64_t *correlation = lend_output("correlation", sizeof *correlation);
    int64_t *reserve = lend_output("reserve", sizeof *reserve);
    uint8_t refusal =
        garthumor_soft(reading, given->count, message, codeword, correlation, reserve);
    if (settle(refusal) != ANSWERED)
        return;
    print_number(*message);
    print_number(*codeword);
    print_wide_number(*correlation);
    print_wide_number(*reserve);
}

static void replay_quick(const struct given *given)
{
    const int32_t *reading = lend_reading(given);
    uint32_t *codeword = lend_output("codeword", sizeof *codeword);
    if (settle(garthumor_quick(reading, given->count, codeword)) == ANSWERED)
        print_number(*codeword);
}

/* The first one's buffer is as long as the second head says; the rest is the other's. */
static void replay_better(const struct given *given)
{
    size_t length = given->head[1];
    if (length > given->count)
        fail("too few confidences after ", "better");
    const int32_t *first = lend_confidences("first", given->numbers, length);
    const int32_t *second = lend_confidences("second", given->numbers + length, given->count - length);
    uint8_t choice = garthumor_better(first, length, second, given->count - length, given->head[0]);
    if (settle(GARTHUMOR_ANSWERED) == ANSWERED)
        print_number(choice);
}

static uint32_t count_of(uint64_t number)
{
    if (number > UINT32_MAX)
        fail("no count of 32 bits after ", "count");
    return (uint32_t)number;
}

/* The six numbers of a tally are the first heads. */
static struct garthumor_tally *lend_tally(const struct given *given)
{
    struct garthumor_tally tally = { 0 };
    tally.read = count_of(given->head[0]);
    tally.accepted = count_of(given->head[1]);
    tally.refused_2 = count_of(given->head[2]);
    tally.refused_6 = count_of(given->head[3]);
    tally.smallest = given->head[4];
    tally.total = given->head[5];
    return lend(MEMORY, "tally", &tally, sizeof tally);
}

/* Zeros but for some counts, which stand behind their places. */
static uint32_t *lend_table(size_t length, const int64_t *pairs, size_t many)
{
    static uint32_t counts[LONGEST_TABLE];
    if (length > LONGEST_TABLE)
        fail("too long a table after ", "count");
    memset(counts, 0, sizeof counts);
    for (size_t i = 0; i < many; i++) {
        int64_t place = pairs[2 * i], count = pairs[2 * i + 1];
        if (place < 0 || (uint64_t)place >= length || count < 0)
            fail("no place or no count of the table after ", "count");
        counts[place] = (uint32_t)count;
    }
    return lend(MEMORY, "counts", counts, length * sizeof *counts);
}

static void print_tally(const struct garthumor_tally *tally)
{
    print_number(tally->read);
    print_number(tally->accepted);
    print_number(tally->refused_2);
    print_number(tally->refused_6);
    printf(" %" PRIu64 " %" PRIu64, tally->smallest, tally->total);
}

/* Behind the tally's heads: how long the table is, and how many of its counts are given; these come
 * first, and then the reading. */
static void replay_count(const struct given *given)
{
    size_t length = given->head[6], many = given->head[7];
    if (many > given->count / 2)
        fail("too few numbers after ", "count");
    struct garthumor_tally *tally = lend_tally(given);
    uint32_t *counts = lend_table(length, given->numbers, many);
    const int32_t *reading = lend_confidences("reading", given->numbers + 2 * many, given->count - 2 * many);
    if (settle(garthumor_count(tally, counts, length, reading, given->count - 2 * many)) == BROKEN)
        return;
    printf(" |");
    print_tally(tally);
    printf(" |");
    for (size_t place = 0; place < length; place++)
        if (counts[place] != 0)
            printf(" %zu %" PRIu32, place, counts[place]);
}

static const struct call calls[] = {
    { "encode", 1, UINT32_MAX, 0, 0, 0, replay_encode },
    { "read", 1, UINT32_MAX, 0, 0, 0, replay_read },
    { "syndrome", 1, UINT32_MAX, 0, 0, 0, replay_syndrome },
    { "distance", 2, UINT32_MAX, 0, 0, 0, replay_distance },
    { "write_bytes", 1, UINT32_MAX, MOST_NUMBERS, 0, UINT8_MAX, replay_write_bytes },
    { "read_bytes", 0, 0, MOST_NUMBERS, 0, UINT8_MAX, replay_read_bytes },
    { "correct", 1, UINT32_MAX, 0, 0, 0, replay_correct },
    { "find", 1, UINT32_MAX, 0, 0, 0, replay_find },
    { "apply", 2, UINT32_MAX, 0, 0, 0, replay_apply },
    { "candidates", 1, UINT32_MAX, MOST_NUMBERS, 0, UINT32_MAX, replay_candidates },
    { "class_figure", 1, UINT32_MAX, MOST_NUMBERS, INT32_MIN, INT32_MAX, replay_class_figure },
    { "column_figure", 2, UINT32_MAX, MOST_NUMBERS, INT32_MIN, INT32_MAX, replay_column_figure },
    { "soft", 0, 0, MOST_NUMBERS, INT32_MIN, INT32_MAX, replay_soft },
    { "quick", 0, 0, MOST_NUMBERS, INT32_MIN, INT32_MAX, replay_quick },
    { "better", 2, UINT64_MAX, MOST_NUMBERS, INT32_MIN, INT32_MAX, replay_better },
    { "count", 8, UINT64_MAX, MOST_NUMBERS, INT32_MIN, UINT32_MAX, replay_count },
};

static const struct call *call_named(const char *name)
{
    for (size_t i = 0; i < sizeof calls / sizeof calls[0]; i++)
        if (strcmp(calls[i].name, name) == 0)
            return &calls[i];
    fail("no such call: ", name);
    return NULL;
}

/* Cuts the next word off the rest of the line; NULL where none is left. */
static char *next_word(char **rest)
{
    char *word = *rest;
    if (word == NULL)
        return NULL;
    char *space = strchr(word, ' ');
    if (space != NULL)
        *space++ = '\0';
    *rest = space;
    return word;
}

/* One spelling a number: what doesn't print back as it was ("+1", "01", nothing) is no number. */
static int64_t number_of(const char *word, int64_t least, int64_t most)
{
    char printed[32];
    int64_t number = strtoll(word, NULL, 10);
    snprintf(printed, sizeof printed, "%" PRId64, number);
    if (strcmp(printed, word) != 0 || number < least || number > most)
        fail("no number in the range of its place: ", word);
    return number;
}

static uint64_t head_of(const char *word, uint64_t most)
{
    char printed[32];
    uint64_t number = strtoull(word, NULL, 10);
    snprintf(printed, sizeof printed, "%" PRIu64, number);
    if (strcmp(printed, word) != 0 || number > most)
        fail("no number in the range of its place: ", word);
    return number;
}

static void read_numbers(const struct call *call, char *rest, struct given *given)
{
    char *word;
    given->count = 0;
    for (size_t i = 0; i < call->heads; i++) {
        word = next_word(&rest);
        if (word == NULL)
            fail("a number is missing after ", call->name);
        given->head[i] = head_of(word, call->most_head);
    }
    while ((word = next_word(&rest)) != NULL) {
        if (given->count == call->most_numbers)
            fail("too many numbers after ", call->name);
        given->numbers[given->count++] = number_of(word, call->least, call->most);
    }
}

static void replay_line(char *line)
{
    struct given given;
    char *rest = line;
    const struct call *call = call_named(next_word(&rest));
    read_numbers(call, rest, &given);
    call->replay(&given);
    putchar('\n');
    give_back();
}

/* Takes the line feed off; a buffer without one is the last line or a line that didn't fit. */
static void end_line(char *line)
{
    size_t length = strlen(line);
    if (length > 0 && line[length - 1] == '\n')
        line[length - 1] = '\0';
    else if (!feof(stdin))
        fail("a line longer than the longest case", "");
}

int main(int argc, char **argv)
{
    char line[LINE_BYTES];
    if (argc != 1) {
        fprintf(stderr, "usage: %s <CASES >ANSWERS\n", argv[0]);
        return 2;
    }
    while (fgets(line, sizeof line, stdin) != NULL) {
        line_number++;
        end_line(line);
        replay_line(line);
    }
    if (ferror(stdin))
        fail("can't be read", "");
    if (fflush(stdout) != 0 || ferror(stdout)) {
        fprintf(stderr, "replay: standard output: can't be written\n");
        return 1;
    }
    return 0;
}
