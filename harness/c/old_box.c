/* What stands behind the C text of docs/C-INTERFACE.md, "How to read an old box", to make a program of it: a box is laid out by hand, opened with no
 * card out and with each one, whose bytes are then spoiled, and every block is read. Ends with 0 where all are as they were laid out. */
#include <stdio.h>
#include <string.h>

/* Byte `at` of logical block `number`. */
static uint8_t laid(uint64_t number, uint64_t at) { return (uint8_t)(number * 37 + at * 11 + number / 5 + 1); }

static uint8_t *cell(uint64_t card, uint64_t stripe) { return image + (card * STRIPES + stripe) * BLOCK; }

/* Unit i of a stripe on card i, parity on the last card. */
static void lay_out(void)
{
    memset(image, 0, sizeof image);
    for (uint64_t number = 0; number < UNITS * STRIPES; number++)
        for (uint64_t at = 0; at < BLOCK; at++) {
            cell(number % UNITS, number / UNITS)[at] = laid(number, at);
            cell(CARDS - 1, number / UNITS)[at] ^= laid(number, at);
        }
}

/* Whether every block is read as it was laid out. */
static int reads_right(void)
{
    for (uint64_t number = 0; number < UNITS * STRIPES; number++) {
        uint8_t block[BLOCK];
        if (read_block(number, block) != COPPICETUNE_ACCEPTED)
            return 0;
        for (uint64_t at = 0; at < BLOCK; at++)
            if (block[at] != laid(number, at))
                return 0;
    }
    return 1;
}

int main(void)
{
    lay_out();
    if (open_box(COPPICETUNE_NONE) != COPPICETUNE_ACCEPTED || !reads_right())
        return puts("with no card out"), 1;
    for (uint64_t card = 0; card < CARDS; card++) {
        lay_out();
        memset(cell(card, 0), 0x5a, STRIPES * BLOCK);
        if (open_box(card) != COPPICETUNE_ACCEPTED || !reads_right())
            return printf("with card %d out\n", (int)card), 1;
    }
    return 0;
}
