/* Decoders in plain C, for comparison in the benchmark only. */
#ifndef PEERS_H
#define PEERS_H

#include "inputs.h"

#include <stdint.h>

enum { MESSAGES = 4096 };

/* Of all 4,096 codewords, 1 where a position has bit 0 and -1 where it has bit 1; the first two
 * decoders go through it. */
extern int8_t peer_signs[MESSAGES][POSITIONS];

/* Fills it, and what the third needs. */
void peers_start(void);

/* The decoder in the field: divides each confidence by 65,536, correlates with all 4,096 codewords
 * and keeps the first best. It cannot say that there is no best word. */
uint32_t field_decode(const int32_t *reading);

/* Exact: correlates all 4,096 in 64 bits and keeps the two largest. Returns 0, 2 or 6. */
uint8_t plain_decode(const int32_t *reading, uint32_t *message, int64_t *correlation, int64_t *reserve);

/* The algorithm of crates/soft: 128 class figures, then the winning class alone. Returns 0, 2 or 6. */
uint8_t class_decode(const int32_t *reading, uint32_t *message, int64_t *correlation, int64_t *reserve);

#endif
