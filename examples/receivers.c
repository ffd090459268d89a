/* How a drive's firmware uses two receivers: of each pair of readings take the better one, decode it
 * and act on it; keep the last speed where neither is any good.
 *
 *   cc -Iinclude examples/receivers.c target/staticlib/libdrive.a -o target/receivers && target/receivers */
#include "garthumor.h"

#include <inttypes.h>
#include <stdio.h>

enum { CONFIDENCES = 24, READINGS = 4 };

static uint32_t speed;

/* What a receiver has heard, reading by reading. */
struct receiver {
    const char *name;
    int32_t buffer[READINGS * CONFIDENCES];
};

/* Hears a command at one size; 0 is silence. */
static void hear(struct receiver *receiver, size_t number, uint32_t message, int32_t size)
{
    uint32_t codeword = 0;
    if (garthumor_encode(message, &codeword) != GARTHUMOR_ANSWERED)
        return;
    for (int i = 0; i < CONFIDENCES; i++)
        receiver->buffer[number * CONFIDENCES + i] = codeword >> (23 - i) & 1 ? -size : size;
}

static void take(size_t number, const char *name, const int32_t *reading)
{
    uint32_t message, codeword;
    int64_t correlation, reserve;
    uint8_t refusal = garthumor_soft(reading, CONFIDENCES, &message, &codeword, &correlation, &reserve);
    if (refusal != GARTHUMOR_ANSWERED) {
        /* A chosen reading is one that soft accepts. */
        printf("reading %zu: fault, refused %u: speed stays %" PRIu32 "\n", number, (unsigned)refusal, speed);
        return;
    }
    speed = message;
    printf("reading %zu: %s receiver, speed %" PRIu32 ", reserve %" PRId64 "\n", number, name, message, reserve);
}

static void choose(const struct receiver *first, const struct receiver *second, size_t number)
{
    const size_t length = READINGS * CONFIDENCES;
    uint8_t choice = garthumor_better(first->buffer, length, second->buffer, length, number);
    if (choice == GARTHUMOR_NEITHER) {
        printf("reading %zu: neither receiver: speed stays %" PRIu32 "\n", number, speed);
        return;
    }
    const struct receiver *chosen = choice == GARTHUMOR_FIRST ? first : second;
    take(number, chosen->name, chosen->buffer + CONFIDENCES * number);
}

int main(void)
{
    struct receiver roof = { "roof", { 0 } }, door = { "door", { 0 } };
    hear(&roof, 0, 1500, 90000);
    hear(&door, 0, 1500, 7000);
    hear(&roof, 1, 1510, 200); /* ice on the antenna */
    hear(&door, 1, 1510, 7000);
    hear(&door, 2, 1520, 7000);               /* the roof receiver is silent: every word ties */
    roof.buffer[3 * CONFIDENCES] = INT32_MIN; /* a fault, and the door receiver is silent */
    for (size_t number = 0; number <= READINGS; number++) /* the last one is in neither buffer */
        choose(&roof, &door, number);
    return 0;
}
