/* Garthumor: decodes commands that come as words of the extended Golay code.
 *
 * Terms and ranges. docs/RULES.md has each rule in full under the number given here.
 *
 *   message      a command, 0 to 4,095 (3.1)
 *   word         24 bits, at the positions 1 to 24, as a number: 0 to 16,777,215; position 1 counts
 *                2^23 (1.2)
 *   codeword     the word that a message is sent as; there are 4,096, and two of them differ at no
 *                fewer than 8 positions (2.3, 3.4)
 *   distance     at how many positions two words differ (5.1)
 *   syndrome     tells codewords from other words: 0 to 4,095, and 0 for codewords alone (4.1)
 *   pattern      the bits of a word that are wrong, as a word. The error pattern of a word has the
 *                fewest ones that make a codeword of it, 0 to 4, and of such patterns the least
 *                as a number; its ones are the word's distance from the code (5.2 to 5.4)
 *   reading      24 confidences, position 1 first, each -2,147,483,647 to 2,147,483,647: positive
 *                speaks for bit 0, negative for bit 1, and its size is how strongly (6.1 to 6.3)
 *   buffer       of a receiver: readings one after the other, numbered from 0 (17.1)
 *   correlation  how strongly a reading speaks for a codeword: the confidences where it has a 0,
 *                less those where it has a 1; at most 51,539,607,528 (6.4, 6.5)
 *   reserve      how much change of the reading an answer bears, 1 to 17,179,869,176 (7.2). How far
 *                each confidence moves, added up, is the change: any that is less than the reserve
 *                keeps the answer, some change of exactly the reserve loses it (7.5 to 7.7)
 *   class        class k, 0 to 127, is the 32 codewords of the messages 32 k to 32 k + 31 (8.1)
 *   column       column j, 1 to 6, is the positions 4 j - 3 to 4 j, the first on top (1.3). In a
 *                class it has two interpretations, opposite in all four bits (1.10)
 *   figure       of a class: the largest correlation in it, 0 to 51,539,607,528 (8.2). Of a column in
 *                a class: positive where its confidences favour the interpretation with top bit 0,
 *                negative where that with top bit 1, 0 where neither; its size is what the favoured
 *                one brings, at most 8,589,934,588 (8.3)
 *   tally        how many readings were counted, and how many of these soft accepts and refuses, with
 *                the smallest and the total of the reserves. Beside it stands a table of 4,096
 *                counts, at place m how often message m was accepted. Both begin as zeros (18.1)
 *
 * A yardstick: a clean signal, all 24 confidences right and of one size s, has the correlation 24 s
 * and the reserve 8 s, and no reading with sizes up to s has a larger reserve (7.8). To turn one of
 * its confidences over is a change of 2 s, so any three may be turned over; four may lose the word.
 *
 * Each call returns 0 where it answers, else the number of a refusal, and writes its outputs only
 * where it answers: a refusal leaves every output and every lent byte as it was. Where several
 * refusals apply, the first that a call lists is the one that it gives (11.2 to 11.5). One call,
 * garthumor_better, refuses nothing and returns its answer.
 *
 * The caller keeps: pointers are valid, not null and aligned, a length is how many stand behind its
 * pointer, and no two arguments overlap.
 *
 * The library is for x86-64 Linux. Of C it needs memcpy and memset alone. It takes nothing from a
 * heap and keeps nothing between calls, so that they may run side by side. The deepest call,
 * garthumor_count, takes 4,032 bytes of stack. */
#ifndef GARTHUMOR_H
#define GARTHUMOR_H

#include <stddef.h>
#include <stdint.h>

/* The first number changes where a program that uses the library may have to change with it. */
#define GARTHUMOR_VERSION "2.0.0"
#define GARTHUMOR_VERSION_MAJOR 2
#define GARTHUMOR_VERSION_MINOR 0
#define GARTHUMOR_VERSION_PATCH 0

/* What a call returns (11.1). 9 and 10 are missing: they tell how a capture stops, and no call here
 * gives them. 13 and 15 to 17 have no meaning. */
#define GARTHUMOR_ANSWERED 0
#define GARTHUMOR_WRONG_LENGTH 1       /* not 24 confidences, 3 bytes, 6 slots or 4,096 counts */
#define GARTHUMOR_MOST_NEGATIVE 2      /* a confidence is -2,147,483,648 */
#define GARTHUMOR_MESSAGE_ABOVE 3      /* above 4,095 */
#define GARTHUMOR_WORD_ABOVE 4         /* a word or a pattern above 16,777,215 */
#define GARTHUMOR_NOT_CODEWORD 5       /* a word, but no codeword */
#define GARTHUMOR_TIED 6               /* two words are best, or more: there is no answer */
#define GARTHUMOR_DISTANCE_FOUR 7      /* too far from the code to be corrected; six are as near */
#define GARTHUMOR_NOT_DISTANCE_FOUR 8  /* nearer to the code than 4, so no six candidates */
#define GARTHUMOR_CLASS_ABOVE 11       /* above 127 */
#define GARTHUMOR_COUNT_FULL 12        /* a count past 4,294,967,295, or a total past 2^63 - 1 */
#define GARTHUMOR_UNSETTLED 14         /* zeros in a reading leave open what quick would answer */
#define GARTHUMOR_NO_COLUMN 18         /* not 1 to 6 */

/* What garthumor_better returns (17.4). */
#define GARTHUMOR_NEITHER 0
#define GARTHUMOR_FIRST 1
#define GARTHUMOR_SECOND 2

#ifdef __cplusplus
extern "C" {
#endif

/* ---- decoding */

/* The codeword whose correlation is above that of every other, with its message, this correlation
 * and the reserve (7.1, 7.2). Refuses 1, 2, 6. */
uint8_t garthumor_soft(const int32_t *reading, size_t length, uint32_t *message, uint32_t *codeword, int64_t *correlation, int64_t *reserve);

/* For comparison: the signs as a word, corrected, or the candidate that goes against the least
 * confidence (9.3 to 9.5). A zero has no sign: up to four are filled with bits in every way, and each
 * filling has to give the same codeword (9.8). It may give another codeword than soft does. Refuses 1,
 * 2, 6, 14: 6 only without zeros, 14 only with them. Five zeros or more are never answered. */
uint8_t garthumor_quick(const int32_t *reading, size_t length, uint32_t *codeword);

/* The figure of a class (8.2). Refuses 1, 2, 11. */
uint8_t garthumor_class_figure(const int32_t *reading, size_t length, uint32_t class_number, int64_t *figure);

/* The figure of a column in a class, with its sign (8.3). Refuses 1, 2, 11, 18. */
uint8_t garthumor_column_figure(const int32_t *reading, size_t length, uint32_t class_number, uint32_t column, int64_t *figure);

/* ---- two receivers */

/* Which of two receivers has the better reading with a number: the one that soft accepts with the
 * larger reserve, the first one's where they are equal, or the only one that soft accepts (17.3).
 * Returns 1 for the first receiver, 2 for the second; 0 for neither: soft refuses both readings,
 * a length is no multiple of 24, or a buffer has no reading with this number. The reading begins at
 * 24 times the number:
 *
 *   uint8_t receiver = garthumor_better(first, n, second, m, number);
 *   if (receiver != GARTHUMOR_NEITHER)
 *       take((receiver == GARTHUMOR_FIRST ? first : second) + 24 * number); */
uint8_t garthumor_better(const int32_t *first, size_t first_length, const int32_t *second, size_t second_length, size_t number);

/* ---- the link report */

/* All zeros before the first reading. */
struct garthumor_tally {
    uint32_t read;      /* readings counted */
    uint32_t accepted;  /* of these: soft accepts them */
    uint32_t refused_2; /* soft refuses them with 2 */
    uint32_t refused_6; /* soft refuses them with 6 */
    uint64_t smallest;  /* the smallest reserve; 0 where there is none yet */
    uint64_t total;     /* all reserves added up */
};

/* Counts a reading in a tally and its table (18.2). One that soft accepts goes into read, accepted,
 * smallest, total and counts[message]; one that soft refuses with 2 or 6 goes into read and into
 * refused_2 or refused_6, which is an answer here. Refuses 1, 12: the reading is counted nowhere. For
 * 12 only those numbers matter that it would move (18.3). */
uint8_t garthumor_count(struct garthumor_tally *tally, uint32_t *counts, size_t counts_length, const int32_t *reading, size_t length);

/* ---- the code */

/* The codeword of a message (3.4). Refuses 3. */
uint8_t garthumor_encode(uint32_t message, uint32_t *codeword);

/* The message of a codeword (3.5). Refuses 4, 5. */
uint8_t garthumor_read(uint32_t word, uint32_t *message);

/* The syndrome of any word (4.1). Refuses 4. */
uint8_t garthumor_syndrome(uint32_t word, uint32_t *syndrome);

/* Writes a codeword as three bytes, positions 1 to 8 first (10.1, 10.2). Refuses 1, 4, 5. */
uint8_t garthumor_write_bytes(uint32_t codeword, uint8_t *bytes, size_t length);

/* The codeword that three bytes hold (10.3). Refuses 1, 5. */
uint8_t garthumor_read_bytes(const uint8_t *bytes, size_t length, uint32_t *codeword);

/* ---- words with errors */

/* The nearest codeword and its distance, 0 to 3 (5.5). Refuses 4, 7. */
uint8_t garthumor_correct(uint32_t word, uint32_t *codeword, uint32_t *distance);

/* The same in two. find: a word's error pattern and its distance from the code, 0 to 4 (5.10). At
 * 0 to 3 the pattern, applied to the word, gives correct's codeword; at 4, where correct refuses,
 * one of six that are as near. Refuses 4. */
uint8_t garthumor_find(uint32_t word, uint32_t *pattern, uint32_t *distance);

/* apply: the exclusive or of a word and a pattern (5.11). Refuses 4 for either. */
uint8_t garthumor_apply(uint32_t word, uint32_t pattern, uint32_t *result);

/* Where correct refuses with 7: writes the six codewords at distance 4 to six slots, the least
 * first (5.7). Refuses 1, 4, 8. */
uint8_t garthumor_candidates(uint32_t word, uint32_t *slots, size_t slot_count);

#ifdef __cplusplus
}
#endif

#endif
