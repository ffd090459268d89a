/* Random calls of all fifteen entry points, with arguments that favour the edges and guard bytes around
 * every buffer. After each call: the guards hold, inputs are as they were, a refusal left every
 * output alone and has the number that the rules of docs/RULES.md ask for, and an answer is the one
 * that they ask for. What they ask for is found here, with no help of the library. Only where that
 * takes all 4,096 codewords, to tell the largest correlation and a tie, one call in a few is looked
 * into, and the others keep what a few additions can tell. At the end each call has returned every
 * number that it lists.
 *
 *   random SEED CALLS     (below some ten thousand a number may not come up) */
#include "garthumor.h"
#include "inputs.h"
#include "lent.h"

#include <inttypes.h>
#include <stdio.h>
#include <stdlib.h>
#include <string.h>

enum { WORD_BYTES = 3, SLOTS = 6, LONGEST_SHORT = 25, LONG = 1 << 20, SHOWN = 10 };
enum { MESSAGE_BITS = 12, MESSAGES = 1 << MESSAGE_BITS, WORDS = 1 << POSITIONS, COLUMNS = 6 };
enum { CLASSES = 128, CLASS_SIZE = 32 };
enum { MOST_READINGS = 3, LONGEST_BUFFER = MOST_READINGS * POSITIONS + 1 };

/* How many readings there are to count at a time, and how many counts guard the table at either end. */
enum { KNOWN = 64, GUARD_COUNTS = 64 };

/* No word is farther from the code; two codewords are not nearer to each other. */
enum { FARTHEST = 4, LEAST_BETWEEN = 8 };

/* Of more zeros quick tries no filling. A tied word is decided for NO_WORD. */
enum { MOST_ZEROS = 4, NO_WORD = WORDS };

/* Of the calls that need all codewords one in so many is looked into: a million calls take a few
 * seconds, and not minutes under an emulator. */
enum { LOOKED_INTO = 16 };

/* One call in so many, at the least, is an answer of each entry point, or neither receiver. */
enum { LEAST_ANSWERED = 200 };

static const int64_t MOST_RESERVE = 17179869176;

/* What a call gave and what is asked for: 0 or the number of a refusal, or a choice; and what is
 * wrong with the answer, or NULL. */
struct outcome {
    uint8_t given, asked;
    const char *wrong;
};

/* Contents for lent memory of any length. */
static uint32_t contents[LONG];

/* ---- the code, by the rules */

/* The parities of the columns and of the top row, and what the projections lack to a hexacodeword. */
static uint32_t syndrome_of(uint32_t word)
{
    static const uint32_t by_w[4] = { 0, 2, 3, 1 }, by_v[4] = { 0, 3, 1, 2 };
    uint32_t parity[COLUMNS], x[COLUMNS], top = 0, syndrome = 0;
    for (int i = 0; i < COLUMNS; i++) {
        uint32_t column = word >> (20 - 4 * i) & 15;
        uint32_t b1 = column >> 3, b2 = column >> 2 & 1, b3 = column >> 1 & 1, b4 = column & 1;
        parity[i] = b1 ^ b2 ^ b3 ^ b4;
        x[i] = b2 ^ 2 * b3 ^ 3 * b4;
        top ^= b1;
    }
    for (int i = 1; i < COLUMNS; i++)
        syndrome = 2 * syndrome + (parity[i] ^ parity[0]);
    syndrome = 2 * syndrome + (top ^ parity[0]);
    syndrome = 4 * syndrome + (x[3] ^ x[0] ^ x[1] ^ x[2]);
    syndrome = 4 * syndrome + (x[4] ^ by_v[x[0]] ^ by_w[x[1]] ^ x[2]);
    return 4 * syndrome + (x[5] ^ by_w[x[0]] ^ by_v[x[1]] ^ x[2]);
}

static int is_codeword(uint32_t word) { return word < WORDS && syndrome_of(word) == 0; }

static uint32_t codewords[MESSAGES];

static void list_codewords(void)
{
    /* Of the messages of a single bit, the lowest first. */
    static const uint32_t rows[MESSAGE_BITS] = {
        0x0000FF, 0x000F0F, 0x00F00F, 0x0F000F, 0xF0000F, 0x003333,
        0x005555, 0x030356, 0x050563, 0x300365, 0x500536, 0x777778,
    };
    for (uint32_t message = 0; message < MESSAGES; message++)
        for (int bit = 0; bit < MESSAGE_BITS; bit++)
            codewords[message] ^= message >> bit & 1 ? rows[bit] : 0;
}

static int encodes(uint32_t message, uint32_t codeword)
{
    return message < MESSAGES && codewords[message] == codeword;
}

/* Of the words of each syndrome the least of those with the fewest ones, and how many it has: how far
 * from the code they lie. */
static uint32_t patterns[MESSAGES], distances[MESSAGES];

/* At the greatest distance: all of them, by which a word differs from its candidates. */
static uint32_t fours[MESSAGES][SLOTS];
static size_t four_count[MESSAGES];

/* A word with its ones below a place, and all that it makes with more ones from there on. */
static void list_patterns(uint32_t word, uint32_t ones, int place)
{
    uint32_t s = syndrome_of(word);
    if (ones < distances[s] || (ones == distances[s] && word < patterns[s])) {
        patterns[s] = word;
        distances[s] = ones;
    }
    if (ones == FARTHEST)
        fours[s][four_count[s]++] = word;
    for (; ones < FARTHEST && place < POSITIONS; place++)
        list_patterns(word | 1u << place, ones + 1, place + 1);
}

static void list_all_patterns(void)
{
    for (uint32_t s = 0; s < MESSAGES; s++)
        distances[s] = UINT32_MAX;
    list_patterns(0, 0, 0);
}

static uint32_t distance_from_code(uint32_t word) { return distances[syndrome_of(word)]; }

/* ---- arguments */

static uint32_t edge(void)
{
    static const uint32_t edges[] = {
        0, 1, 126, 127, 128, 129, 255, 256, 4094, 4095, 4096, 4097, 16777214, 16777215, 16777216,
        16777217, INT32_MAX, 2147483648u, UINT32_MAX - 1, UINT32_MAX,
    };
    return edges[chance() % (sizeof edges / sizeof edges[0])];
}

/* Below the bound, or an edge, or anything. */
static uint32_t some_number(uint32_t bound)
{
    uint32_t sort = chance() % 8;
    return sort == 0 ? chance() : sort == 1 ? edge() : chance() % bound;
}

static uint32_t some_codeword(void) { return codewords[chance() % MESSAGES]; }

/* A codeword with up to four errors, at times with bits above the range; or any number. */
static uint32_t some_word(void)
{
    uint32_t sort = chance() % 8;
    if (sort == 0)
        return some_number(WORDS);
    uint32_t word = some_codeword();
    for (uint32_t errors = chance() % 6; errors > 1; errors--)
        word ^= 1u << chance() % POSITIONS;
    return sort == 1 ? word | (1 + chance() % 255) << POSITIONS : word;
}

/* Mostly the length that the call wants. */
static size_t some_length(size_t wanted)
{
    static const size_t lengths[] = { 0, 1, 2, 3, 4, 5, 6, 7, 23, 24, LONGEST_SHORT };
    uint32_t sort = chance() % 4096;
    if (sort == 0)
        return LONG;
    return sort < 1024 ? lengths[chance() % (sizeof lengths / sizeof lengths[0])] : wanted;
}

/* The sizes stay; each sign becomes that of the codeword. */
static void speak_for(uint32_t codeword, int32_t *reading)
{
    for (int i = 0; i < POSITIONS; i++)
        if ((reading[i] < 0) != (int)(codeword >> (23 - i) & 1))
            reading[i] = -reading[i];
}

/* Negates the confidences where a codeword has a 1; the one that has no opposite stays. */
static void turn(uint32_t codeword, int32_t *reading)
{
    for (int i = 0; i < POSITIONS; i++)
        if (codeword >> (23 - i) & 1 && reading[i] != INT32_MIN)
            reading[i] = -reading[i];
}

/* At times, at one place. */
static void some_extreme(int32_t *reading)
{
    static const int32_t extremes[] = { INT32_MIN, -INT32_MAX, -1, 0, 1, INT32_MAX };
    if (chance() % 8 == 0)
        reading[chance() % POSITIONS] = extremes[chance() % (sizeof extremes / sizeof extremes[0])];
}

static void some_reading(int32_t *reading)
{
    fill_reading(reading, (enum kind)(chance() % KINDS), some_codeword());
    if (chance() % 8 == 0)
        speak_for(some_codeword(), reading);
    some_extreme(reading);
}

/* A codeword with up to four zeros, and errors beside them so that a filling has up to five wrong bits,
 * mostly four; or with more zeros, often one or two more, and no error. Sizes are of the whole range, or
 * so small that costs are often equal, where an error may be as loud as four others. */
static void some_reading_with_zeros(int32_t *reading)
{
    uint32_t small = chance() % 2, most = small ? 2 : INT32_MAX, loudest = small ? 8 : INT32_MAX;
    uint32_t zeros = chance() % (MOST_ZEROS + 1), errors = chance() % 2 ? 4 - zeros : chance() % (6 - zeros);
    uint32_t sort = chance() % 8;
    if (sort < 2) {
        zeros = MOST_ZEROS + 1 + chance() % (sort == 0 ? 2 : POSITIONS - MOST_ZEROS);
        errors = 0;
    }
    for (int i = 0; i < POSITIONS; i++)
        reading[i] = 1 + (int32_t)(chance() % most);
    for (; errors > 0; errors--)
        reading[chance() % POSITIONS] = -1 - (int32_t)(chance() % loudest);
    add_zeros(reading, zeros);
    turn(some_codeword(), reading);
    some_extreme(reading);
}

static const int32_t *lend_some(void (*some)(int32_t *reading), size_t length)
{
    int32_t reading[LONGEST_SHORT] = { 0 };
    if (length > LONGEST_SHORT)
        return lend(INPUT, "reading", contents, length * sizeof *reading);
    some(reading);
    return lend(INPUT, "reading", reading, length * sizeof *reading);
}

static const int32_t *lend_reading(size_t length) { return lend_some(some_reading, length); }

/* A reading for each receiver. One in four of the second is that of the first, negated where a
 * codeword has a 1, so that both have one reserve. */
static void some_pair(int32_t *one, int32_t *other)
{
    some_reading(one);
    some_reading(other);
    if (chance() % 4 != 0)
        return;
    memcpy(other, one, POSITIONS * sizeof *one);
    turn(some_codeword(), other);
}

/* Whole readings, mostly all of them; or one confidence more or less. */
static size_t some_buffer_length(void)
{
    uint32_t sort = chance() % 16;
    size_t length = (sort < 4 ? chance() % (MOST_READINGS + 1) : MOST_READINGS) * POSITIONS;
    return sort == 4 ? length + 1 : sort == 5 ? length - 1 : length;
}

/* Mostly that of a reading; or one that 24 times makes small again in 64 bits, or anything. */
static size_t some_reading_number(void)
{
    uint32_t sort = chance() % 16;
    size_t number = chance() % (sort < 8 ? MOST_READINGS + 2 : MOST_READINGS);
    if (sort == 0)
        return SIZE_MAX - number;
    if (sort == 1)
        return ((size_t)1 << 61) + number;
    return sort == 2 ? (size_t)chance() << 32 | number : number;
}

/* ---- facts */

static uint32_t distance_between(uint32_t word, uint32_t other)
{
    uint32_t ones = 0;
    for (uint32_t left = word ^ other; left != 0; left &= left - 1)
        ones++;
    return ones;
}

static int64_t correlation_of(uint32_t codeword, const int32_t *reading)
{
    int64_t sum = 0;
    for (int i = 0; i < POSITIONS; i++)
        sum += codeword >> (23 - i) & 1 ? -(int64_t)reading[i] : reading[i];
    return sum;
}

static int64_t figure_of(uint32_t class_number, const int32_t *reading)
{
    int64_t figure = INT64_MIN;
    for (uint32_t m = 0; m < CLASS_SIZE; m++) {
        int64_t sum = correlation_of(codewords[CLASS_SIZE * class_number + m], reading);
        figure = sum > figure ? sum : figure;
    }
    return figure;
}

/* Of the class's codewords, in this column, those with top bit 0 are all the same. */
static int64_t column_figure_of(uint32_t class_number, uint32_t column, const int32_t *reading)
{
    int64_t sum = 0;
    const uint32_t *member = &codewords[CLASS_SIZE * class_number];
    while (*member >> (27 - 4 * column) & 1)
        member++;
    for (uint32_t i = 4 * column - 4; i < 4 * column; i++)
        sum += *member >> (23 - i) & 1 ? -(int64_t)reading[i] : reading[i];
    return sum;
}

static uint32_t word_of_signs(const int32_t *reading)
{
    uint32_t word = 0;
    for (int i = 0; i < POSITIONS; i++)
        word = 2 * word + (reading[i] < 0);
    return word;
}

/* A 1 at each zero. */
static uint32_t word_of_zeros(const int32_t *reading)
{
    uint32_t word = 0;
    for (int i = 0; i < POSITIONS; i++)
        word = 2 * word + (reading[i] == 0);
    return word;
}

static uint32_t ones_in(uint32_t word) { return distance_between(word, 0); }

/* The signs are a codeword, and too few confidences are zero for another to differ from it at zeros
 * alone: no other has so large a correlation. */
static int one_best_by_signs(const int32_t *reading)
{
    return ones_in(word_of_zeros(reading)) < LEAST_BETWEEN && is_codeword(word_of_signs(reading));
}

static int64_t cost_of(uint32_t error, const int32_t *reading)
{
    int64_t cost = 0;
    for (int i = 0; i < POSITIONS; i++)
        if (error >> (23 - i) & 1)
            cost += reading[i] < 0 ? -(int64_t)reading[i] : reading[i];
    return cost;
}

/* The codeword that corrects a word, or its only candidate with the least cost. */
static uint32_t decided(uint32_t word, const int32_t *reading)
{
    uint32_t s = syndrome_of(word), codeword = NO_WORD;
    int64_t least = INT64_MAX;
    if (distances[s] < FARTHEST)
        return word ^ patterns[s];
    for (int i = 0; i < SLOTS; i++) {
        int64_t cost = cost_of(fours[s][i], reading);
        if (cost < least)
            codeword = word ^ fours[s][i];
        else if (cost == least)
            codeword = NO_WORD;
        least = cost < least ? cost : least;
    }
    return codeword;
}

/* The codeword that each filling is decided for: the signs, with every choice of ones at zeros. */
static uint32_t settled(const int32_t *reading)
{
    uint32_t signs = word_of_signs(reading), zeros = word_of_zeros(reading), codeword = decided(signs, reading);
    for (uint32_t ones = zeros; ones != 0; ones = (ones - 1) & zeros)
        if (decided(signs | ones, reading) != codeword)
            return NO_WORD;
    return codeword;
}

/* ---- what a look at every codeword says */

static unsigned long looks;

static int looked_into(void)
{
    int looked = chance() % LOOKED_INTO == 0;
    looks += (unsigned long)looked;
    return looked;
}

/* What each value of a byte adds to a correlation: its highest one negates one confidence more. */
static void correlate_byte(const int32_t *confidences, int64_t parts[256])
{
    parts[0] = 0;
    for (int i = 0; i < 8; i++)
        parts[0] += confidences[i];
    for (int bit = 0; bit < 8; bit++)
        for (int value = 0; value < 1 << bit; value++)
            parts[(1 << bit) + value] = parts[value] - 2 * (int64_t)confidences[7 - bit];
}

/* The correlation of each codeword with a reading. */
static void correlate(const int32_t *reading, int64_t sums[MESSAGES])
{
    int64_t parts[WORD_BYTES][256];
    for (int byte = 0; byte < WORD_BYTES; byte++)
        correlate_byte(reading + 8 * byte, parts[byte]);
    for (uint32_t m = 0; m < MESSAGES; m++)
        sums[m] = parts[0][codewords[m] >> 16] + parts[1][codewords[m] >> 8 & 255] + parts[2][codewords[m] & 255];
}

/* The two largest, equal where two share it, and the message of the first. */
struct top {
    int64_t first, second;
    uint32_t message;
};

static struct top top_of(const int64_t sums[MESSAGES])
{
    struct top top = { sums[0], INT64_MIN, 0 };
    for (uint32_t m = 1; m < MESSAGES; m++)
        if (sums[m] > top.first) {
            top.second = top.first;
            top.first = sums[m];
            top.message = m;
        } else if (sums[m] > top.second) {
            top.second = sums[m];
        }
    return top;
}

static struct top soft_top(const int32_t *reading)
{
    int64_t sums[MESSAGES];
    correlate(reading, sums);
    return top_of(sums);
}

/* ---- what the arguments ask for, in the order of the rules */

static uint8_t asked_of_reading(const int32_t *reading, size_t length)
{
    if (length != POSITIONS)
        return 1;
    for (int i = 0; i < POSITIONS; i++)
        if (reading[i] == INT32_MIN)
            return 2;
    return 0;
}

static uint8_t asked_of_word(uint32_t word) { return word >= WORDS ? 4 : 0; }

static uint8_t asked_of_codeword(uint32_t word)
{
    return asked_of_word(word) != 0 ? 4 : is_codeword(word) ? 0 : 5;
}

static uint8_t asked_of_top(struct top top) { return top.first == top.second ? 6 : 0; }

/* Where nobody looks at every codeword 6 is believed. */
static uint8_t asked_unseen(uint8_t given) { return given == 6 ? 6 : 0; }

static int has_reading(size_t length, size_t number) { return length % POSITIONS == 0 && number < length / POSITIONS; }

/* Twice the reserve of a reading; 0 where it is refused. */
static int64_t lead_of(const int32_t *reading)
{
    if (asked_of_reading(reading, POSITIONS) != 0)
        return 0;
    struct top top = soft_top(reading);
    return top.first - top.second;
}

static uint8_t asked_of_leads(int64_t one, int64_t other) { return one == 0 && other == 0 ? 0 : one >= other ? 1 : 2; }

/* Where nobody looks at every codeword a choice is believed that chooses no reading with a confidence
 * out of range, and chooses one where the signs alone show that there is one to choose. */
static uint8_t choice_unseen(uint8_t given, const int32_t *one, const int32_t *other)
{
    int one_valid = asked_of_reading(one, POSITIONS) == 0, other_valid = asked_of_reading(other, POSITIONS) == 0;
    int one_clear = one_valid && one_best_by_signs(one), other_clear = other_valid && one_best_by_signs(other);
    if ((given == 1 && !one_valid) || (given == 0 && other_clear))
        return 2;
    if ((given == 2 && !other_valid) || (given == 0 && one_clear))
        return 1;
    return given <= 2 ? given : 0;
}

/* ---- the calls */

static struct outcome judged(uint8_t given, uint8_t asked, int fact, const char *wrong)
{
    struct outcome outcome = { given, asked, given != 0 || fact ? NULL : wrong };
    return outcome;
}

static struct outcome try_encode(void)
{
    uint32_t message = some_number(MESSAGES);
    uint32_t *codeword = lend_output("codeword", sizeof *codeword);
    uint8_t given = garthumor_encode(message, codeword);
    return judged(given, message >= MESSAGES ? 3 : 0, encodes(message, *codeword), "not the codeword of the message");
}

static struct outcome try_read(void)
{
    uint32_t word = some_word();
    uint32_t *message = lend_output("message", sizeof *message);
    uint8_t given = garthumor_read(word, message);
    return judged(given, asked_of_codeword(word), encodes(*message, word), "not the message of the codeword");
}

static struct outcome try_syndrome(void)
{
    uint32_t word = some_word();
    uint32_t *syndrome = lend_output("syndrome", sizeof *syndrome);
    uint8_t given = garthumor_syndrome(word, syndrome);
    return judged(given, asked_of_word(word), *syndrome == syndrome_of(word), "not the syndrome of the word");
}

static struct outcome try_correct(void)
{
    uint32_t word = some_word();
    uint32_t *codeword = lend_output("codeword", sizeof *codeword);
    uint32_t *distance = lend_output("distance", sizeof *distance);
    uint8_t given = garthumor_correct(word, codeword, distance);
    uint8_t asked = asked_of_word(word) != 0 ? 4 : distance_from_code(word) == FARTHEST ? 7 : 0;
    int fact = is_codeword(*codeword) && *distance == distance_from_code(word) &&
               distance_between(word, *codeword) == *distance;
    return judged(given, asked, fact, "not the codeword at the least distance");
}

static struct outcome try_find(void)
{
    uint32_t word = some_word();
    uint32_t *pattern = lend_output("pattern", sizeof *pattern);
    uint32_t *distance = lend_output("distance", sizeof *distance);
    uint8_t given = garthumor_find(word, pattern, distance);
    int fact = *pattern == patterns[syndrome_of(word)] && *distance == distance_from_code(word);
    return judged(given, asked_of_word(word), fact, "not the error pattern and its ones");
}

/* One pattern in four has what the word has above the range: together they have nothing there. */
static struct outcome try_apply(void)
{
    uint32_t word = some_word(), pattern = chance() % 4 == 0 ? word ^ chance() % WORDS : some_word();
    uint32_t *result = lend_output("result", sizeof *result);
    uint8_t given = garthumor_apply(word, pattern, result);
    uint8_t asked = asked_of_word(word) != 0 ? 4 : asked_of_word(pattern);
    return judged(given, asked, *result == (word ^ pattern), "not the exclusive or");
}

/* There are no more than six, so these are all. */
static int are_candidates(uint32_t word, const uint32_t *slots)
{
    for (int i = 0; i < SLOTS; i++)
        if ((i > 0 && slots[i] <= slots[i - 1]) || !is_codeword(slots[i]) || distance_between(word, slots[i]) != FARTHEST)
            return 0;
    return 1;
}

static struct outcome try_candidates(void)
{
    uint32_t word = some_word();
    size_t count = some_length(SLOTS);
    uint32_t *slots = lend(OUTPUT, "slots", contents, count * sizeof *slots);
    uint8_t given = garthumor_candidates(word, slots, count);
    uint8_t asked = count != SLOTS ? 1 : asked_of_word(word);
    if (asked == 0 && distance_from_code(word) != FARTHEST)
        asked = 8;
    int fact = asked == 0 && are_candidates(word, slots);
    return judged(given, asked, fact, "not six codewords at distance 4, ascending");
}

static struct outcome try_class_figure(void)
{
    uint32_t class_number = some_number(CLASSES);
    size_t length = some_length(POSITIONS);
    const int32_t *reading = lend_reading(length);
    int64_t *figure = lend_output("figure", sizeof *figure);
    uint8_t given = garthumor_class_figure(reading, length, class_number, figure);
    uint8_t asked = asked_of_reading(reading, length);
    if (asked == 0 && class_number >= CLASSES)
        asked = 11;
    int fact = asked == 0 && *figure == figure_of(class_number, reading);
    return judged(given, asked, fact, "not the largest correlation of the class");
}

static struct outcome try_column_figure(void)
{
    uint32_t class_number = some_number(CLASSES), column = some_number(COLUMNS + 2);
    size_t length = some_length(POSITIONS);
    const int32_t *reading = lend_reading(length);
    int64_t *figure = lend_output("figure", sizeof *figure);
    uint8_t given = garthumor_column_figure(reading, length, class_number, column, figure);
    uint8_t asked = asked_of_reading(reading, length);
    if (asked == 0 && class_number >= CLASSES)
        asked = 11;
    if (asked == 0 && (column < 1 || column > COLUMNS))
        asked = 18;
    int fact = asked == 0 && *figure == column_figure_of(class_number, column, reading);
    return judged(given, asked, fact, "not what the column says for its interpretation with top bit 0");
}

static struct outcome try_soft(void)
{
    size_t length = some_length(POSITIONS);
    const int32_t *reading = lend_reading(length);
    uint32_t *message = lend_output("message", sizeof *message);
    uint32_t *codeword = lend_output("codeword", sizeof *codeword);
    int64_t *correlation = lend_output("correlation", sizeof *correlation);
    int64_t *reserve = lend_output("reserve", sizeof *reserve);
    uint8_t given = garthumor_soft(reading, length, message, codeword, correlation, reserve);
    uint8_t asked = asked_of_reading(reading, length);
    if (asked != 0)
        return judged(given, asked, 0, "answered");
    int fact = encodes(*message, *codeword) && *correlation == correlation_of(*codeword, reading) &&
               *correlation == figure_of(*message / CLASS_SIZE, reading) && *reserve >= 1 && *reserve <= MOST_RESERVE;
    if (looked_into()) {
        struct top top = soft_top(reading);
        fact = fact && *message == top.message && 2 * *reserve == top.first - top.second;
        return judged(given, asked_of_top(top), fact, "not the one largest of all, with half its lead");
    }
    if (one_best_by_signs(reading))
        return judged(given, 0, fact && *codeword == word_of_signs(reading), "not the word that all signs speak for");
    return judged(given, asked_unseen(given), fact, "the four values do not fit each other");
}

/* How often quick answered, and how often it refused, readings without zeros, with one to four, and with
 * more. */
static unsigned long quick_often[3][2];

static struct outcome try_quick(void)
{
    size_t length = some_length(POSITIONS);
    const int32_t *reading = lend_some(chance() % 2 ? some_reading : some_reading_with_zeros, length);
    uint32_t *codeword = lend_output("codeword", sizeof *codeword);
    uint8_t given = garthumor_quick(reading, length, codeword);
    uint8_t asked = asked_of_reading(reading, length);
    if (asked != 0)
        return judged(given, asked, 0, "answered");
    uint32_t zeros = ones_in(word_of_zeros(reading)), answer = zeros > MOST_ZEROS ? NO_WORD : settled(reading);
    quick_often[(zeros > 0) + (zeros > MOST_ZEROS)][given != 0]++;
    if (answer == NO_WORD)
        asked = zeros == 0 ? 6 : 14;
    return judged(given, asked, *codeword == answer, "not the codeword that every filling is decided for");
}

static struct outcome try_better(void)
{
    int32_t readings[2][LONGEST_BUFFER] = { { 0 } };
    size_t first_length = some_buffer_length(), second_length = some_buffer_length(), number = some_reading_number();
    for (int i = 0; i < MOST_READINGS * POSITIONS; i += POSITIONS)
        some_pair(readings[0] + i, readings[1] + i);
    const int32_t *first = lend(INPUT, "first", readings[0], first_length * sizeof *first);
    const int32_t *second = lend(INPUT, "second", readings[1], second_length * sizeof *second);
    uint8_t asked = 0, given = garthumor_better(first, first_length, second, second_length, number);
    if (has_reading(first_length, number) && has_reading(second_length, number)) {
        const int32_t *one = first + POSITIONS * number, *other = second + POSITIONS * number;
        asked = looked_into() ? asked_of_leads(lead_of(one), lead_of(other)) : choice_unseen(given, one, other);
    }
    return judged(given, asked, 1, NULL);
}

/* ---- counting */

/* A reading, and what a look at every codeword says of it: refusal 0, 2 or 6, message and reserve. */
struct known {
    int32_t reading[POSITIONS];
    uint8_t refusal;
    uint32_t message;
    uint64_t reserve;
};

/* The readings that are counted. As one call in a few takes a new one in, each call is held to all
 * codewords at the cost of one look in a few. */
static struct known known[KNOWN];

/* The first message and the last come up often. */
static void know(struct known *one)
{
    some_reading(one->reading);
    if (chance() % 16 == 0)
        fill_reading(one->reading, DECENT, codewords[chance() % 2 * (MESSAGES - 1)]);
    one->refusal = asked_of_reading(one->reading, POSITIONS);
    one->message = chance() % MESSAGES;
    one->reserve = 1 + chance() % 100;
    if (one->refusal != 0)
        return;
    struct top top = soft_top(one->reading);
    one->refusal = asked_of_top(top);
    if (one->refusal != 0)
        return;
    one->message = top.message;
    one->reserve = (uint64_t)(top.first - top.second) / 2;
}

static const struct known *some_known(void)
{
    struct known *one = &known[chance() % KNOWN];
    if (chance() % LOOKED_INTO == 0)
        know(one);
    return one;
}

static const int32_t *lend_known(const struct known *one, size_t length)
{
    int32_t reading[LONGEST_SHORT] = { 0 };
    memcpy(reading, one->reading, sizeof one->reading);
    return lend(INPUT, "reading", length > LONGEST_SHORT ? (const void *)contents : reading, length * sizeof *reading);
}

/* The table stays from call to call, since 16 KiB afresh would take most of the time. It stands between
 * guards, and beside it what all of this must hold. */
static uint32_t kept[GUARD_COUNTS + MESSAGES + GUARD_COUNTS], must_hold[GUARD_COUNTS + MESSAGES + GUARD_COUNTS];
static uint32_t *const table = kept + GUARD_COUNTS;

static void fill_table(void)
{
    for (size_t i = 0; i < sizeof kept / sizeof kept[0]; i++)
        must_hold[i] = chance();
    memcpy(kept, must_hold, sizeof kept);
}

static void set_place(uint32_t place, uint32_t count) { table[place] = must_hold[GUARD_COUNTS + place] = count; }

/* Full, or short of it by one, or anything. */
static uint32_t some_count(void)
{
    uint32_t sort = chance() % 16;
    return sort < 2 ? UINT32_MAX - sort : sort == 2 ? 0 : chance();
}

static uint64_t some_wide(void) { return (uint64_t)chance() << 32 | chance(); }

/* Often at its end or at that of 64 bits, or short of one by the reserve, or next to that. */
static uint64_t some_total(uint64_t reserve)
{
    uint64_t end = chance() % 4 == 0 ? UINT64_MAX : INT64_MAX, total = some_wide() >> (1 + chance() % 63);
    uint32_t sort = chance() % 8;
    return sort == 0 ? end : sort == 1 ? some_wide() : sort < 5 ? end - reserve + sort - 3 : total;
}

/* None, or next to the reserve, or anything. */
static uint64_t some_smallest(uint64_t reserve)
{
    uint32_t sort = chance() % 8;
    return sort == 0 ? 0 : sort < 4 ? reserve + sort - 2 : some_wide() >> chance() % 64;
}

static struct garthumor_tally some_tally(const struct known *one)
{
    struct garthumor_tally tally = { 0 };
    tally.read = some_count();
    tally.accepted = some_count();
    tally.refused_2 = some_count();
    tally.refused_6 = some_count();
    tally.smallest = some_smallest(one->reserve);
    tally.total = some_total(one->reserve);
    return tally;
}

/* Counts a reading that is known, or tells that a count is full and counts nothing. */
static uint8_t count_known(struct garthumor_tally *tally, const struct known *one)
{
    uint32_t *refused = one->refusal == 2 ? &tally->refused_2 : &tally->refused_6;
    uint32_t *first = one->refusal == 0 ? &tally->accepted : refused;
    uint32_t *count = &must_hold[GUARD_COUNTS + one->message];
    if (tally->read == UINT32_MAX || *first == UINT32_MAX)
        return 12;
    if (one->refusal == 0 && (*count == UINT32_MAX || tally->total > INT64_MAX || INT64_MAX - tally->total < one->reserve))
        return 12;
    tally->read++;
    (*first)++;
    if (one->refusal != 0)
        return 0;
    (*count)++;
    tally->total += one->reserve;
    if (tally->smallest == 0 || tally->smallest > one->reserve)
        tally->smallest = one->reserve;
    return 0;
}

static int same_tally(const struct garthumor_tally *one, const struct garthumor_tally *other)
{
    return one->read == other->read && one->accepted == other->accepted && one->refused_2 == other->refused_2 &&
           one->refused_6 == other->refused_6 && one->smallest == other->smallest && one->total == other->total;
}

/* Whether the table and its guards are as they must be. Where not they are made so, so that one wrong
 * write is told once. */
static int table_holds(void)
{
    if (memcmp(kept, must_hold, sizeof kept) == 0)
        return 1;
    memcpy(kept, must_hold, sizeof kept);
    return 0;
}

static size_t some_table_length(void)
{
    static const size_t lengths[] = { 0, 1, POSITIONS, MESSAGES - 1, MESSAGES + 1, MESSAGES + GUARD_COUNTS };
    return chance() % 8 == 0 ? lengths[chance() % (sizeof lengths / sizeof lengths[0])] : MESSAGES;
}

static struct outcome try_count(void)
{
    const struct known *one = some_known();
    size_t counts_length = some_table_length(), length = some_length(POSITIONS);
    const int32_t *reading = lend_known(one, length);
    set_place(one->message, some_count());
    set_place(chance() % MESSAGES, some_count());
    struct garthumor_tally asked_tally = some_tally(one);
    struct garthumor_tally *tally = lend(MEMORY, "tally", &asked_tally, sizeof asked_tally);
    uint8_t given = garthumor_count(tally, table, counts_length, reading, length);
    uint8_t asked = counts_length != MESSAGES || length != POSITIONS ? 1 : count_known(&asked_tally, one);
    looks += asked != 1;
    struct outcome outcome = { given, asked, same_tally(tally, &asked_tally) ? NULL : "not the tally that there must be" };
    if (!table_holds())
        outcome.wrong = "not the table that there must be, or its guards";
    return outcome;
}

static struct outcome try_write_bytes(void)
{
    uint32_t word = some_word();
    size_t length = some_length(WORD_BYTES);
    uint8_t *bytes = lend(OUTPUT, "bytes", contents, length);
    uint8_t given = garthumor_write_bytes(word, bytes, length);
    uint8_t asked = length != WORD_BYTES ? 1 : asked_of_codeword(word);
    int fact = asked == 0 && bytes[0] == word >> 16 && bytes[1] == (word >> 8 & 255) && bytes[2] == (word & 255);
    return judged(given, asked, fact, "not the bytes of the codeword");
}

static struct outcome try_read_bytes(void)
{
    uint32_t word = some_word() % WORDS;
    uint8_t written[LONGEST_SHORT] = { (uint8_t)(word >> 16), (uint8_t)(word >> 8), (uint8_t)word };
    size_t length = some_length(WORD_BYTES);
    const uint8_t *bytes = lend(INPUT, "bytes", length > LONGEST_SHORT ? (const void *)contents : written, length);
    uint32_t *codeword = lend_output("codeword", sizeof *codeword);
    uint8_t given = garthumor_read_bytes(bytes, length, codeword);
    uint8_t asked = length != WORD_BYTES ? 1 : asked_of_codeword(word);
    return judged(given, asked, *codeword == word, "not the word that the bytes hold");
}

static const struct {
    const char *name;
    struct outcome (*run)(void);
    uint8_t numbers[5]; /* those that include/garthumor.h lists beside 0, and 0 */
} calls[] = {
    { "encode", try_encode, { 3 } },
    { "read", try_read, { 4, 5 } },
    { "syndrome", try_syndrome, { 4 } },
    { "correct", try_correct, { 4, 7 } },
    { "find", try_find, { 4 } },
    { "apply", try_apply, { 4 } },
    { "candidates", try_candidates, { 1, 4, 8 } },
    { "class_figure", try_class_figure, { 1, 2, 11 } },
    { "column_figure", try_column_figure, { 1, 2, 11, 18 } },
    { "soft", try_soft, { 1, 2, 6 } },
    { "quick", try_quick, { 1, 2, 6, 14 } },
    { "better", try_better, { 1, 2 } },
    { "count", try_count, { 1, 12 } },
    { "write_bytes", try_write_bytes, { 1, 4, 5 } },
    { "read_bytes", try_read_bytes, { 1, 5 } },
};

enum { CALLS = sizeof calls / sizeof calls[0] };

/* How often each call gave each number. */
static unsigned long given_often[CALLS][UINT8_MAX + 1];

/* One random call; prints what is wrong, and tells whether something is. */
static int one_call(unsigned long number, int shown)
{
    size_t which = chance() % CALLS;
    struct outcome outcome = calls[which].run();
    const char *name = "its answer";
    const char *wrong = breach(outcome.given, &name);
    if (wrong == NULL && outcome.given != outcome.asked)
        wrong = "another number than the rules ask for";
    if (wrong == NULL)
        wrong = outcome.wrong;
    if (wrong != NULL && shown)
        printf("call %lu, %s, given %u, asked %u: %s: %s\n", number, calls[which].name, (unsigned)outcome.given,
               (unsigned)outcome.asked, name, wrong);
    given_often[which][outcome.given]++;
    give_back();
    return wrong != NULL;
}

/* Prints how often a call gave each of its numbers, and tells whether that shows little: hardly a 0,
 * or a number that never came. */
static int shows_little(size_t which, unsigned long count)
{
    const unsigned long *often = given_often[which];
    int little = often[0] == 0 || often[0] < count / LEAST_ANSWERED;
    printf("%-13s gave 0: %lu", calls[which].name, often[0]);
    for (const uint8_t *number = calls[which].numbers; *number != 0; number++) {
        printf(", %u: %lu", (unsigned)*number, often[*number]);
        little |= often[*number] == 0;
    }
    printf("%s\n", little ? ", which shows little" : "");
    return little;
}

/* The same of quick, by the zeros of its readings. */
static int shows_little_of_zeros(void)
{
    const unsigned long *none = quick_often[0], *few = quick_often[1], *more = quick_often[2];
    printf("quick         gave 0: %lu, 6: %lu without zeros; 0: %lu, 14: %lu with one to four; 14: %lu with more\n", none[0],
           none[1], few[0], few[1], more[1]);
    return none[0] == 0 || none[1] == 0 || few[0] == 0 || few[1] == 0 || more[1] == 0;
}

int main(int argc, char **argv)
{
    unsigned long wrong = 0;
    int little = 0;
    if (argc != 3) {
        fprintf(stderr, "usage: random SEED CALLS\n");
        return 2;
    }
    uint64_t seed = strtoull(argv[1], NULL, 10);
    chance_from_seed(seed);
    printf("seed %" PRIu64 "\n", seed);
    unsigned long count = strtoul(argv[2], NULL, 10);
    list_codewords();
    list_all_patterns();
    for (size_t i = 0; i < LONG; i++)
        contents[i] = chance();
    for (int i = 0; i < KNOWN; i++)
        know(&known[i]);
    fill_table();
    for (unsigned long number = 1; number <= count; number++)
        wrong += (unsigned long)one_call(number, wrong < SHOWN);
    for (size_t which = 0; which < CALLS; which++)
        little |= shows_little(which, count);
    little |= shows_little_of_zeros();
    printf("%lu calls, %lu held to every codeword, %lu wrong\n", count, looks, wrong);
    return wrong != 0 || little;
}
