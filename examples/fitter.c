/* For a fitter: which of its two interpretations each column of the winning class favours, and how
 * strongly. A column that goes against the word, or speaks for neither, is four positions to look at.
 *
 *   cc -Iinclude examples/fitter.c target/staticlib/libdrive.a -o target/fitter && target/fitter */
#include "garthumor.h"

#include <inttypes.h>
#include <stdio.h>

/* A column's four bits, the top one first. */
static const char *bits(uint32_t column, char text[5])
{
    for (int i = 0; i < 4; i++)
        text[i] = column >> (3 - i) & 1 ? '1' : '0';
    text[4] = '\0';
    return text;
}

static void show_column(uint32_t column, int64_t figure, uint32_t in_word)
{
    uint32_t top = in_word >> 3;
    uint32_t favoured = (figure < 0) == (top == 1) ? in_word : in_word ^ 15;
    int64_t size = figure < 0 ? -figure : figure;
    char word[5], other[5];
    bits(in_word, word);
    if (figure == 0)
        printf("  column %" PRIu32 " favours neither %s, which the word has, nor %s\n", column, word, bits(in_word ^ 15, other));
    else if (favoured == in_word)
        printf("  column %" PRIu32 " favours %s by %" PRId64 "\n", column, word, size);
    else
        printf("  column %" PRIu32 " favours %s by %" PRId64 ", and the word has %s\n", column, bits(favoured, other), size, word);
}

static void show(const char *name, const int32_t reading[24])
{
    uint32_t message, codeword;
    int64_t correlation, reserve, figure;
    uint8_t refusal = garthumor_soft(reading, 24, &message, &codeword, &correlation, &reserve);
    if (refusal != GARTHUMOR_ANSWERED) {
        printf("%s: refused %u\n", name, (unsigned)refusal);
        return;
    }
    printf("%s: message %" PRIu32 ", class %" PRIu32 ", reserve %" PRId64 "\n", name, message, message / 32, reserve);
    for (uint32_t column = 1; column <= 6; column++)
        if (garthumor_column_figure(reading, 24, message / 32, column, &figure) == GARTHUMOR_ANSWERED)
            show_column(column, figure, codeword >> (24 - 4 * column) & 15);
}

int main(void)
{
    int32_t clean[24], turned[24], silent[24];
    uint32_t codeword;
    if (garthumor_encode(1500, &codeword) != GARTHUMOR_ANSWERED)
        return 1;
    for (int i = 0; i < 24; i++)
        clean[i] = turned[i] = silent[i] = codeword >> (23 - i) & 1 ? -900 : 900;
    /* Column 3 is weak, and three of its four confidences speak against the word. */
    for (int i = 8; i < 12; i++)
        turned[i] = clean[i] / (i == 8 ? 9 : -9);
    /* Column 5 says nothing. */
    for (int i = 16; i < 20; i++)
        silent[i] = 0;
    show("clean", clean);
    show("turned", turned);
    show("silent", silent);
    return 0;
}
