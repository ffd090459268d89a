/* In a file of its own: a drive's firmware is compiled at -O2, and so is this. */
#include "peers.h"

uint32_t field_decode(const int32_t *reading)
{
    int32_t best = INT32_MIN, x[POSITIONS];
    uint32_t at = 0;
    for (int i = 0; i < POSITIONS; i++)
        x[i] = reading[i] / 65536;
    for (uint32_t m = 0; m < MESSAGES; m++) {
        int32_t sum = 0;
        for (int i = 0; i < POSITIONS; i++)
            sum += peer_signs[m][i] * x[i];
        if (sum > best) {
            best = sum;
            at = m;
        }
    }
    return at;
}
