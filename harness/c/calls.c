/* Calls each function of the header and compares the answers with numbers worked out by hand from the paper. */
#include "coppicetune.h"

#include <inttypes.h>
#include <stdio.h>

static int wrong = 0;

/* An answer as docs/C-INTERFACE.md packs it. */
static uint64_t packed(uint64_t number, uint64_t first, uint64_t second)
{
    return number + first * 65536u + second * UINT64_C(4294967296);
}

/* The answer is right, and the header's functions take it apart again. */
static void expect(const char *call, uint64_t answer, uint64_t number, uint64_t first, uint64_t second)
{
    uint64_t right = packed(number, first, second);
    int same = coppicetune_number(answer) == number && coppicetune_first(answer) == first &&
               coppicetune_second(answer) == second;
    if (answer != right || !same) {
        printf("%s answers %" PRIu64 ", and %" PRIu64 " is right\n", call, answer, right);
        wrong++;
    }
}

#define EXPECT(call, number, first, second) expect(#call, call, COPPICETUNE_##number, first, second)

static void place(void)
{
    EXPECT(coppicetune_place(5, 5, 5, 0), ACCEPTED, 0, 0);
    EXPECT(coppicetune_place(5, 5, 5, 7), ACCEPTED, 2, 1);
    EXPECT(coppicetune_place(5, 5, 5, 10), ACCEPTED, 0, 2);
    EXPECT(coppicetune_place(5, 5, 5, 19), ACCEPTED, 4, 4);
    EXPECT(coppicetune_place(5, 5, 5, 20), RANGE, 0, 0);
    EXPECT(coppicetune_place(8, 1024, 5, 7167), ACCEPTED, 7, 1023);
    EXPECT(coppicetune_place(8, 1024, 5, 7168), RANGE, 0, 0);
    EXPECT(coppicetune_place(2, 5, 5, 0), BEYOND, 0, 0);
    EXPECT(coppicetune_place(9, 5, 5, 0), BEYOND, 0, 0);
    EXPECT(coppicetune_place(5, 0, 5, 0), BEYOND, 0, 0);
    EXPECT(coppicetune_place(5, 1025, 5, 0), BEYOND, 0, 0);
    EXPECT(coppicetune_place(UINT64_MAX, UINT64_MAX, 5, UINT64_MAX), BEYOND, 0, 0);
    EXPECT(coppicetune_place(5, 5, 5, UINT64_MAX), RANGE, 0, 0);
}

static void block_at(void)
{
    EXPECT(coppicetune_block_at(5, 5, 5, 3, 1), ACCEPTED, 1, 0);
    EXPECT(coppicetune_block_at(5, 5, 5, 2, 1), ACCEPTED, 0, 7);
    EXPECT(coppicetune_block_at(5, 5, 5, 4, 0), ACCEPTED, 1, 0);
    EXPECT(coppicetune_block_at(5, 5, 5, 4, 4), ACCEPTED, 0, 19);
    EXPECT(coppicetune_block_at(8, 1024, 5, 7, 1023), ACCEPTED, 0, 7167);
    EXPECT(coppicetune_block_at(8, 1024, 5, 0, 1023), ACCEPTED, 1, 0);
    EXPECT(coppicetune_block_at(5, 5, 5, 5, 0), RANGE, 0, 0);
    EXPECT(coppicetune_block_at(5, 5, 5, 0, 5), RANGE, 0, 0);
    EXPECT(coppicetune_block_at(5, 5, 5, UINT64_MAX, UINT64_MAX), RANGE, 0, 0);
    EXPECT(coppicetune_block_at(2, 5, 5, 0, 0), BEYOND, 0, 0);
    EXPECT(coppicetune_block_at(5, 1025, 5, 0, 0), BEYOND, 0, 0);
}

/* RAID level 4: parity on the last card, unit i on card i, block L on card L mod n. */
static void place_level_4(void)
{
    enum { L4 = COPPICETUNE_LEVEL_4 };
    EXPECT(coppicetune_place(5, 5, L4, 0), ACCEPTED, 0, 0);
    EXPECT(coppicetune_place(5, 5, L4, 3), ACCEPTED, 3, 0);
    EXPECT(coppicetune_place(5, 5, L4, 4), ACCEPTED, 0, 1);
    EXPECT(coppicetune_place(5, 5, L4, 7), ACCEPTED, 3, 1);
    EXPECT(coppicetune_place(5, 5, L4, 10), ACCEPTED, 2, 2);
    EXPECT(coppicetune_place(5, 5, L4, 19), ACCEPTED, 3, 4);
    EXPECT(coppicetune_place(5, 5, L4, 20), RANGE, 0, 0);
    EXPECT(coppicetune_place(8, 1024, L4, 7167), ACCEPTED, 6, 1023);
    EXPECT(coppicetune_place(3, 2, L4, 3), ACCEPTED, 1, 1);
    EXPECT(coppicetune_block_at(5, 5, L4, 3, 1), ACCEPTED, 0, 7);
    EXPECT(coppicetune_block_at(5, 5, L4, 4, 0), ACCEPTED, 1, 0);
    EXPECT(coppicetune_block_at(5, 5, L4, 4, 1), ACCEPTED, 1, 0);
    EXPECT(coppicetune_block_at(5, 5, L4, 4, 4), ACCEPTED, 1, 0);
    EXPECT(coppicetune_block_at(5, 5, L4, 0, 4), ACCEPTED, 0, 16);
    EXPECT(coppicetune_block_at(8, 1024, L4, 7, 1023), ACCEPTED, 1, 0);
    EXPECT(coppicetune_block_at(8, 1024, L4, 0, 1023), ACCEPTED, 0, 7161);
    EXPECT(coppicetune_block_at(5, 5, L4, 5, 0), RANGE, 0, 0);
    EXPECT(coppicetune_block_at(2, 5, L4, 0, 0), BEYOND, 0, 0);
}

/* Numbers that no layout has. */
static const uint64_t no_layout[] = {0,   1,   2,     3,     6,  7, 45, 255, /* and 4 and 5 with a bit more at each width */
                                     260, 261, 65540, 65541, UINT64_C(4294967300), UINT64_C(4294967301), UINT64_MAX};
enum { NO_LAYOUTS = sizeof no_layout / sizeof *no_layout };

/* They are refused by 1 before all else, in every call that takes the state or its numbers. */
static void other_layouts(void)
{
    static uint8_t image[96], work[96], result[16];
    struct coppicetune_record record = {0};
    for (int at = 0; at < NO_LAYOUTS; at++) {
        uint64_t layout = no_layout[at];
        struct coppicetune_state state = {3, 2, 16, 1, layout, COPPICETUNE_NONE, 1, COPPICETUNE_NO_FILL};
        EXPECT(coppicetune_place(5, 5, layout, 0), BEYOND, 0, 0);
        EXPECT(coppicetune_place(5, 5, layout, 20), BEYOND, 0, 0);
        EXPECT(coppicetune_block_at(5, 5, layout, 0, 0), BEYOND, 0, 0);
        EXPECT(coppicetune_block_at(5, 5, layout, 5, 5), BEYOND, 0, 0);
        EXPECT(coppicetune_scan(3, 2, 16, 1, layout, COPPICETUNE_NONE, 0, COPPICETUNE_NO_FILL, image, 96), BEYOND, 0, 0);
        EXPECT(coppicetune_scan(3, 2, 16, 1, layout, 2, 1, COPPICETUNE_NO_FILL, image, 95), BEYOND, 0, 0);
        EXPECT(coppicetune_open(&state, &record, 1, work, 96, image, 96, 3, 2, 16, 1, layout, COPPICETUNE_NONE), BEYOND, 0, 0);
        EXPECT(coppicetune_open(&state, &record, 1, work, 95, image, 95, 3, 2, 16, 1, layout, 2), BEYOND, 0, 0);
        EXPECT(coppicetune_admit(&state, &record, 1, work, 96, image, 96, 0, 0, 1, NULL, 0), BEYOND, 0, 0);
        EXPECT(coppicetune_step(&state, &record, 1, work, 96, image, 96, 0, 0), BEYOND, 0, 0);
        EXPECT(coppicetune_report(&state, 2), BEYOND, 0, 0);
        EXPECT(coppicetune_start(&state), BEYOND, 0, 0);
        EXPECT(coppicetune_rebuild(&state, &record, 1, image, 96), BEYOND, 0, 0);
        EXPECT(coppicetune_collect(&state, &record, 1, work, 96, 0, result, 16), BEYOND, 0, 0);
        EXPECT(coppicetune_check(&state, &record, 1, image, 96), BEYOND, 0, 0);
    }
}

/* 3 cards, 2 stripes, blocks of 16 bytes, 1 record. */
static void scan(void)
{
    enum { NONE = COPPICETUNE_NONE, NO_FILL = COPPICETUNE_NO_FILL };
    uint8_t image[96] = {0};
    EXPECT(coppicetune_scan(3, 2, 16, 1, 5, NONE, 0, NO_FILL, image, 96), ACCEPTED, 0, 0);
    image[21] = 1; /* byte 5 of card 0's block of stripe 1 */
    EXPECT(coppicetune_scan(3, 2, 16, 1, 5, NONE, 0, NO_FILL, image, 96), DISAGREES, 1, 5);
    image[32 + 15] = 0x80; /* byte 15 of card 1's block of stripe 0 */
    EXPECT(coppicetune_scan(3, 2, 16, 1, 5, NONE, 0, NO_FILL, image, 96), DISAGREES, 0, 15);
    image[64 + 15] = 0x80; /* the same on card 2: that byte is right again */
    EXPECT(coppicetune_scan(3, 2, 16, 1, 5, NONE, 0, NO_FILL, image, 96), DISAGREES, 1, 5);
    EXPECT(coppicetune_scan(3, 2, 16, 1, 4, NONE, 0, NO_FILL, image, 96), DISAGREES, 1, 5);
    image[21] = 0;
    EXPECT(coppicetune_scan(3, 2, 16, 1, 4, NONE, 0, NO_FILL, image, 96), ACCEPTED, 0, 0);
    image[21] = 1;
    EXPECT(coppicetune_scan(3, 2, 16, 1, 4, 2, 0, NO_FILL, image, 96), OUT, 0, 0);
    EXPECT(coppicetune_scan(3, 2, 16, 1, 5, 2, 0, NO_FILL, image, 96), OUT, 0, 0);
    EXPECT(coppicetune_scan(3, 2, 16, 1, 5, 2, 1, NO_FILL, image, 96), LOST, 0, 0);
    EXPECT(coppicetune_scan(3, 2, 16, 1, 5, 2, 1, NO_FILL, image, 95), LENGTH, 0, 0);
    EXPECT(coppicetune_scan(3, 2, 16, 1, 5, 3, 1, NO_FILL, image, 95), BEYOND, 0, 0);
    EXPECT(coppicetune_scan(3, 2, 24, 1, 5, NONE, 0, NO_FILL, image, 96), BEYOND, 0, 0);
    EXPECT(coppicetune_scan(3, 2, 16, 1, 5, NONE, 0, NO_FILL, image, 0), LENGTH, 0, 0);
    EXPECT(coppicetune_scan(3, 2, 16, 1, 5, 2, 0, 0, image, 96), OUT, 0, 0);
    EXPECT(coppicetune_scan(3, 2, 16, 1, 5, 2, 0, 1, image, 96), OUT, 0, 0);
    EXPECT(coppicetune_scan(3, 2, 16, 1, 5, 2, 0, 2, image, 96), BEYOND, 0, 0);
    EXPECT(coppicetune_scan(3, 2, 16, 1, 5, NONE, 0, 0, image, 96), BEYOND, 0, 0);
    EXPECT(coppicetune_scan(3, 2, 16, 1, 5, 2, 0, 65534, image, 96), BEYOND, 0, 0);
    EXPECT(coppicetune_scan(3, 2, 16, 1, 5, 2, 0, 65536, image, 96), BEYOND, 0, 0);
    EXPECT(coppicetune_scan(3, 2, 16, 1, 5, 2, 0, UINT64_MAX, image, 96), BEYOND, 0, 0);
}

/* A number of the state is this one. */
static void is(const char *name, uint64_t number, uint64_t right)
{
    if (number != right) {
        printf("%s is %" PRIu64 ", and %" PRIu64 " is right\n", name, number, right);
        wrong++;
    }
}

/* The state alone: 3 cards, 2 stripes, blocks of 16 bytes, 1 record. */
static void start_and_report(uint64_t layout)
{
    struct coppicetune_state state = {3, 2, 16, 1, layout, COPPICETUNE_NONE, 0, COPPICETUNE_NO_FILL};
    EXPECT(coppicetune_start(&state), NOTHING_TO_FILL, 0, 0);
    EXPECT(coppicetune_report(&state, 3), RANGE, 0, 0);
    EXPECT(coppicetune_report(&state, 2), ACCEPTED, 0, 0);
    EXPECT(coppicetune_report(&state, 2), OUT, 0, 0);
    EXPECT(coppicetune_start(&state), ACCEPTED, 0, 0);
    is("fill", state.fill, 0);
    EXPECT(coppicetune_start(&state), FILLING, 0, 0);
    EXPECT(coppicetune_report(&state, 2), ACCEPTED, 0, 0); /* the fresh card */
    is("fill", state.fill, 65535);
    is("out", state.out, 2);
    is("lost", state.lost, 0);
    EXPECT(coppicetune_start(&state), ACCEPTED, 0, 0);
    EXPECT(coppicetune_report(&state, 1), ACCEPTED, 0, 0);
    is("fill", state.fill, 0);
    is("out", state.out, 2);
    is("lost", state.lost, 1);
    is("layout", state.layout, layout);
    EXPECT(coppicetune_start(&state), LOST, 0, 0);
    state.fill = 2;
    EXPECT(coppicetune_start(&state), BEYOND, 0, 0);
    EXPECT(coppicetune_report(&state, 1), BEYOND, 0, 0);
}

/* The names stand for the paper's numbers. */
static void names(void)
{
    static const int named[] = {COPPICETUNE_ACCEPTED, COPPICETUNE_BEYOND,    COPPICETUNE_LENGTH,          COPPICETUNE_UNSOUND,
                                COPPICETUNE_LOST,     COPPICETUNE_RANGE,     COPPICETUNE_MASK,            COPPICETUNE_BUFFER,
                                COPPICETUNE_HELD,     COPPICETUNE_FULL,      COPPICETUNE_PHASE,           COPPICETUNE_NOT_READY,
                                COPPICETUNE_OUT,      COPPICETUNE_DISAGREES, COPPICETUNE_NOTHING_TO_FILL, COPPICETUNE_FILLING};
    for (int at = 0; at <= 15; at++) {
        if (named[at] != at) {
            printf("the name of refusal %d stands for %d\n", at, named[at]);
            wrong++;
        }
    }
    is("COPPICETUNE_LEVEL_4", COPPICETUNE_LEVEL_4, 4);
    is("COPPICETUNE_LEVEL_5", COPPICETUNE_LEVEL_5, 5);
}

int main(void)
{
    names();
    place();
    block_at();
    place_level_4();
    other_layouts();
    scan();
    start_and_report(COPPICETUNE_LEVEL_4);
    start_and_report(COPPICETUNE_LEVEL_5);
    return wrong == 0 ? 0 : 1;
}
