/* How a drive's firmware uses the library: take a reading, act on the answer, keep the last speed
 * where there is none, raise an alarm where the signal is weak, and tell that from a fault.
 *
 *   cc -Iinclude examples/drive.c target/staticlib/libdrive.a -o target/drive && target/drive */
#include "garthumor.h"

#include <inttypes.h>
#include <stdio.h>

/* What a plant's engineer sets: a signal is weak where a change of its confidences that adds up to
 * less than this could lose the word. A clean signal of size 500 has this reserve. */
static const int64_t SMALL_RESERVE = 4000;

struct drive {
    uint32_t speed;
    int alarm; /* the last signal was weak, or no command was best */
    int fault; /* the last reading was none */
};

static void take(struct drive *drive, const int32_t reading[24])
{
    uint32_t message, codeword;
    int64_t correlation, reserve;
    uint8_t refusal = garthumor_soft(reading, 24, &message, &codeword, &correlation, &reserve);
    drive->alarm = 0;
    drive->fault = 0;
    switch (refusal) {
    case GARTHUMOR_ANSWERED:
        drive->speed = message;
        drive->alarm = reserve < SMALL_RESERVE;
        printf("speed %" PRIu32 ", reserve %" PRId64 "%s\n", message, reserve, drive->alarm ? ": weak signal" : "");
        break;
    case GARTHUMOR_TIED:
        /* No command is best: the speed stays what it was. */
        drive->alarm = 1;
        printf("refused %u: speed stays %" PRIu32 "\n", (unsigned)refusal, drive->speed);
        break;
    case GARTHUMOR_MOST_NEGATIVE: /* the receiver handed over a number that is no confidence */
    case GARTHUMOR_WRONG_LENGTH:  /* this program handed over other than 24 of them */
    default:
        /* This tells nothing of the signal. */
        drive->fault = 1;
        printf("refused %u: fault, speed stays %" PRIu32 "\n", (unsigned)refusal, drive->speed);
        break;
    }
}

int main(void)
{
    struct drive drive = { 0, 0, 0 };
    int32_t strong[24], weak[24], silent[24];
    uint32_t codeword;
    if (garthumor_encode(1500, &codeword) != GARTHUMOR_ANSWERED)
        return 1;
    for (int i = 0; i < 24; i++) {
        int one = codeword >> (23 - i) & 1;
        strong[i] = one ? -90000 : 90000;
        weak[i] = one ? -300 : 300;
        silent[i] = 0;
    }
    take(&drive, strong);
    take(&drive, weak);
    take(&drive, silent);
    return 0;
}
