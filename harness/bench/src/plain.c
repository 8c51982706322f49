/* The scan and the fill of a card as one would write them in C without thinking of speed. */
#include <stddef.h>
#include <stdint.h>
#include <string.h>

/* 1 where parity disagrees in some stripe, and 0 where it is right. */
int plain_scan(size_t cards, size_t stripes, size_t block, const uint8_t *image)
{
    uint8_t sum[512];
    for (size_t stripe = 0; stripe < stripes; stripe++) {
        memset(sum, 0, block);
        for (size_t card = 0; card < cards; card++) {
            const uint8_t *cell = image + (card * stripes + stripe) * block;
            for (size_t byte = 0; byte < block; byte++)
                sum[byte] ^= cell[byte];
        }
        for (size_t byte = 0; byte < block; byte++)
            if (sum[byte] != 0)
                return 1;
    }
    return 0;
}

/* Gives card `out` in every stripe the exclusive or of the other cards. */
void plain_rebuild(size_t cards, size_t stripes, size_t block, size_t out, uint8_t *image)
{
    uint8_t sum[512];
    for (size_t stripe = 0; stripe < stripes; stripe++) {
        memset(sum, 0, block);
        for (size_t card = 0; card < cards; card++) {
            if (card == out)
                continue;
            const uint8_t *cell = image + (card * stripes + stripe) * block;
            for (size_t byte = 0; byte < block; byte++)
                sum[byte] ^= cell[byte];
        }
        memcpy(image + (out * stripes + stripe) * block, sum, block);
    }
}
