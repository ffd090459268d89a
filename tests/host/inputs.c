#include "inputs.h"

#include <string.h>

static uint64_t state = 0x9E3779B97F4A7C15u;

void chance_from_seed(uint64_t seed) { state = seed; }

uint32_t chance(void)
{
    state = state * 6364136223846793005u + 1442695040888963407u;
    return (uint32_t)(state >> 32);
}

enum kind kind_named(const char *name)
{
    static const char *const names[KINDS] = { "decent", "weak", "full", "extreme", "zeros", "four" };
    int kind = 0;
    while (kind < KINDS && strcmp(names[kind], name) != 0)
        kind++;
    return (enum kind)kind;
}

static int32_t within(int32_t size)
{
    return (int32_t)((int64_t)(chance() % (2u * (uint32_t)size + 1u)) - size);
}

static int32_t confidence(enum kind kind, int one)
{
    static const int32_t ends[3] = { -INT32_MAX, 0, INT32_MAX };
    switch (kind) {
    case DECENT:
    case FOUR:
        return (one ? -1000000 : 1000000) + within(700000);
    case WEAK:
        return within(3);
    case FULL:
        return within(INT32_MAX);
    case EXTREME:
        return ends[chance() % 3];
    default:
        return 0;
    }
}

void fill_reading(int32_t reading[POSITIONS], enum kind kind, uint32_t codeword)
{
    for (int i = 0; i < POSITIONS; i++)
        reading[i] = confidence(kind, codeword >> (23 - i) & 1);
    if (kind == FOUR)
        add_zeros(reading, 4);
}

void add_zeros(int32_t reading[POSITIONS], uint32_t count)
{
    while (count > 0) {
        uint32_t place = chance() % POSITIONS;
        count -= reading[place] != 0;
        reading[place] = 0;
    }
}
