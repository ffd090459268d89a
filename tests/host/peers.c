#include "peers.h"

enum { COLUMNS = 6, CLASSES = 128 };

int8_t peer_signs[MESSAGES][POSITIONS];

static int most_negative(const int32_t *reading)
{
    for (int i = 0; i < POSITIONS; i++)
        if (reading[i] == INT32_MIN)
            return 1;
    return 0;
}

static uint8_t told(int64_t best, int64_t second, int64_t *correlation, int64_t *reserve)
{
    if (best == second)
        return 6;
    *correlation = best;
    *reserve = (best - second) / 2;
    return 0;
}

uint8_t plain_decode(const int32_t *reading, uint32_t *message, int64_t *correlation, int64_t *reserve)
{
    int64_t best = INT64_MIN, second = INT64_MIN;
    if (most_negative(reading))
        return 2;
    for (uint32_t m = 0; m < MESSAGES; m++) {
        int64_t sum = 0;
        for (int i = 0; i < POSITIONS; i++)
            sum += peer_signs[m][i] * (int64_t)reading[i];
        if (sum > best) {
            second = best;
            best = sum;
            *message = m;
        } else if (sum > second) {
            second = sum;
        }
    }
    return told(best, second, correlation, reserve);
}

/* ---- by classes */

static const uint8_t product[16] = { 0, 0, 0, 0, 0, 1, 2, 3, 0, 2, 3, 1, 0, 3, 1, 2 };

static void characters(uint32_t class, uint8_t x[COLUMNS])
{
    uint8_t a = class / 16 % 4, b = class / 4 % 4, c = class % 4;
    x[0] = a;
    x[1] = b;
    x[2] = c;
    x[3] = a ^ b ^ c;
    x[4] = product[12 + a] ^ product[8 + b] ^ c;
    x[5] = product[8 + a] ^ product[12 + b] ^ c;
}

/* The sums of each column with top bit 0: for each parity and character. */
static void column_sums(const int32_t *reading, int64_t sums[2][COLUMNS][4])
{
    for (int i = 0; i < COLUMNS; i++) {
        const int32_t *x = reading + 4 * i;
        int64_t u = (int64_t)x[0] + x[1], d = (int64_t)x[0] - x[1];
        int64_t g = (int64_t)x[2] + x[3], h = (int64_t)x[2] - x[3];
        sums[0][i][0] = u + g;
        sums[0][i][1] = u - g;
        sums[0][i][2] = d + h;
        sums[0][i][3] = d - h;
        sums[1][i][0] = d - g;
        sums[1][i][1] = d + g;
        sums[1][i][2] = u - h;
        sums[1][i][3] = u + h;
    }
}

static uint64_t size_and_sign(int64_t sum)
{
    return sum < 0 ? (uint64_t)-sum * 8 + 1 : (uint64_t)sum * 8;
}

static uint64_t smaller(uint64_t x, uint64_t y) { return x < y ? x : y; }

/* For each pair of columns and each pair of characters the sum of the two and the smaller. */
static void blocks(int64_t sums[COLUMNS][4], uint64_t added[48], uint64_t least[48])
{
    for (int b = 0; b < 3; b++)
        for (int i = 0; i < 4; i++)
            for (int j = 0; j < 4; j++) {
                uint64_t x = size_and_sign(sums[2 * b][i]), y = size_and_sign(sums[2 * b + 1][j]);
                added[16 * b + 4 * i + j] = x + y;
                least[16 * b + 4 * i + j] = smaller(x, y);
            }
}

struct keeper {
    uint64_t best, second;
    uint32_t at;
};

/* Where a class's third and fourth column stand together among the blocks, and its fifth and sixth. */
static uint8_t middle[64], last[64];

static void blocks_of_classes(void)
{
    for (uint32_t class = 0; class < 64; class++) {
        uint8_t x[COLUMNS];
        characters(class, x);
        middle[class] = 16 + 4 * x[2] + x[3];
        last[class] = 32 + 4 * x[4] + x[5];
    }
}

static void figures(const uint64_t added[48], const uint64_t least[48], uint32_t parity, struct keeper *k)
{
    for (uint32_t class = 0; class < 64; class++) {
        int i = class / 4, j = middle[class], l = last[class];
        uint64_t sum = added[i] + added[j] + added[l];
        uint64_t low = smaller(least[i], smaller(least[j], least[l]));
        uint64_t figure = sum / 8 - 2 * (low / 8) * ((sum + parity) % 2);
        if (figure > k->best) {
            k->second = k->best;
            k->best = figure;
            k->at = 64 * parity + class;
        } else if (figure > k->second) {
            k->second = figure;
        }
    }
}

/* The message of a class's best word, and its second correlation. */
static int64_t details(int64_t sums[COLUMNS][4], uint32_t class, uint32_t *message)
{
    uint8_t x[COLUMNS];
    uint64_t total = 0, least = UINT64_MAX, next = UINT64_MAX;
    uint32_t signs = 0, flipped = 0, odd = 0;
    characters(class % 64, x);
    for (int i = 0; i < COLUMNS; i++) {
        int64_t sum = sums[i][x[i]];
        uint64_t size = sum < 0 ? (uint64_t)-sum : (uint64_t)sum;
        uint32_t sign = sum < 0;
        total += size;
        odd ^= sign;
        signs = 2 * signs + sign;
        if (size < least) {
            next = least;
            least = size;
            flipped = signs ^ 1;
        } else {
            if (size < next)
                next = size;
            flipped = 2 * flipped + sign;
        }
    }
    if (odd == class / 64) {
        *message = 32 * class + signs / 2;
        return (int64_t)total - 2 * (int64_t)(least + next);
    }
    *message = 32 * class + flipped / 2;
    return (int64_t)total - 2 * (int64_t)next;
}

uint8_t class_decode(const int32_t *reading, uint32_t *message, int64_t *correlation, int64_t *reserve)
{
    int64_t sums[2][COLUMNS][4];
    struct keeper k = { 0, 0, 0 };
    if (most_negative(reading))
        return 2;
    column_sums(reading, sums);
    for (uint32_t parity = 0; parity < 2; parity++) {
        uint64_t added[48], least[48];
        blocks(sums[parity], added, least);
        figures(added, least, parity, &k);
    }
    int64_t own = details(sums[k.at / 64], k.at, message);
    return told((int64_t)k.best, own > (int64_t)k.second ? own : (int64_t)k.second, correlation, reserve);
}

void peers_start(void)
{
    static const uint32_t rows[12] = {
        0x0000FF, 0x000F0F, 0x00F00F, 0x0F000F, 0xF0000F, 0x003333,
        0x005555, 0x030356, 0x050563, 0x300365, 0x500536, 0x777778,
    };
    for (uint32_t m = 0; m < MESSAGES; m++) {
        uint32_t codeword = 0;
        for (int i = 0; i < 12; i++)
            if (m >> i & 1)
                codeword ^= rows[i];
        for (int i = 0; i < POSITIONS; i++)
            peer_signs[m][i] = codeword >> (23 - i) & 1 ? -1 : 1;
    }
    blocks_of_classes();
}
