/* Random readings for the hosts, the same on every machine. */
#ifndef INPUTS_H
#define INPUTS_H

#include <stdint.h>

enum { POSITIONS = 24 };

/* DECENT: a codeword at 1,000,000 with noise up to 700,000; WEAK: sizes 0 to 3; FULL: the whole
 * range; EXTREME: the range's ends and zeros; ZEROS: nothing heard; FOUR: decent, but four zeros. */
enum kind { DECENT, WEAK, FULL, EXTREME, ZEROS, FOUR, KINDS };

/* KINDS where no kind has the name. */
enum kind kind_named(const char *name);

void chance_from_seed(uint64_t seed);
uint32_t chance(void);

/* Confidences of a kind; the codeword is what a decent signal speaks for. */
void fill_reading(int32_t reading[POSITIONS], enum kind kind, uint32_t codeword);

/* So many zeros more; there must be other confidences left for them. */
void add_zeros(int32_t reading[POSITIONS], uint32_t count);

#endif
