/* A spare card in the middle of the race: a card dies, a fresh one is filled while requests go on, the fresh one dies and another is
 * filled; then a card that was never touched dies, and every block is read back. All of it in both layouts.
 *
 * It uses only include/coppicetune.h. What each block should hold is kept beside the array; it says what is wrong, and exits with 1, at
 * the first that differs.
 */
#include <coppicetune.h>
#include <stdio.h>
#include <stdlib.h>
#include <string.h>

enum { CARDS = 5, UNITS = 4, STRIPES = 7, BLOCK = 32, RECORDS = 3 };
enum { IMAGE = CARDS * STRIPES * BLOCK, WORK = 2 * CARDS * BLOCK * RECORDS };
enum { FIRST_DEAD = 3, NEXT_DEAD = 1 };

static struct coppicetune_state state;
static struct coppicetune_record table[RECORDS];
static uint8_t work[WORK];
static uint8_t image[IMAGE];

/* The layout of the array. */
static uint64_t layout;

/* The byte that fills each unit, as its last writer knows it. */
static uint8_t row[STRIPES][UNITS];

static void expect(int holds, const char *what)
{
    if (!holds) {
        printf("fill.c: not so: %s (layout %d, card out %d, fill place %d)\n", what, (int)layout, (int)state.out, (int)state.fill);
        exit(1);
    }
}

/* The call was accepted with this first value and no second. */
static int gives(uint64_t answer, uint64_t first)
{
    return coppicetune_number(answer) == COPPICETUNE_ACCEPTED && coppicetune_first(answer) == first &&
           coppicetune_second(answer) == 0;
}

/* The block of a card in a stripe. */
static uint8_t *cell(uint64_t card, uint64_t stripe) { return image + (card * STRIPES + stripe) * BLOCK; }

/* The byte that should fill the block of a card in a stripe: a unit of the row, or its parity. By level 4 unit i is on card i; by level 5
 * the library itself says what is there. */
static uint8_t right(uint64_t card, uint64_t stripe)
{
    uint64_t there = coppicetune_block_at(CARDS, STRIPES, layout, card, stripe);
    if (layout == COPPICETUNE_LEVEL_4 && card < UNITS)
        return row[stripe][card];
    if (layout == COPPICETUNE_LEVEL_5 && coppicetune_first(there) == 0)
        return row[stripe][coppicetune_second(there) % UNITS];
    uint8_t sum = 0;
    for (int unit = 0; unit < UNITS; unit++)
        sum ^= row[stripe][unit];
    return sum;
}

/* A card holds what it should in a stripe. */
static int holds(uint64_t card, uint64_t stripe)
{
    for (int at = 0; at < BLOCK; at++)
        if (cell(card, stripe)[at] != right(card, stripe))
            return 0;
    return 1;
}

/* Every card that works in a stripe holds what it should; the one that is out does where it is filled. */
static void all_hold(void)
{
    for (uint64_t stripe = 0; stripe < STRIPES; stripe++)
        for (uint64_t card = 0; card < CARDS; card++)
            if (card != state.out || (state.fill != COPPICETUNE_NO_FILL && stripe < state.fill))
                expect(holds(card, stripe), "a card that works holds the row and its parity");
}

/* The bytes of a card turn to noise, from a stripe on. */
static void spoil(uint64_t card, uint64_t from)
{
    memset(cell(card, from), 0xDD, (STRIPES - from) * BLOCK);
}

static uint64_t admit(uint64_t write, uint64_t stripe, uint64_t mask, const uint8_t *payload, size_t length)
{
    return coppicetune_admit(&state, table, RECORDS, work, WORK, image, IMAGE, write, stripe, mask, payload, length);
}

static uint64_t step(uint64_t record, uint64_t number_of_step)
{
    return coppicetune_step(&state, table, RECORDS, work, WORK, image, IMAGE, record, number_of_step);
}

static uint64_t rebuild(void) { return coppicetune_rebuild(&state, table, RECORDS, image, IMAGE); }

static uint64_t check(void) { return coppicetune_check(&state, table, RECORDS, image, IMAGE); }

/* Takes whatever step is ready until the request is finished. */
static void finish(uint64_t record)
{
    while (table[record].phase == COPPICETUNE_OPEN) {
        int taken = 0;
        for (uint64_t each = 0; each <= 2 * UNITS + 2 && !taken; each++)
            taken = coppicetune_number(step(record, each)) == COPPICETUNE_ACCEPTED;
        expect(taken, "an open request has a step to take");
    }
}

/* Admits a write of one unit, filled with a byte, to record 0. */
static void begin_write(uint64_t stripe, uint64_t unit, uint8_t byte)
{
    uint8_t payload[BLOCK];
    memset(payload, byte, BLOCK);
    expect(gives(admit(1, stripe, UINT64_C(1) << unit, payload, BLOCK), 0), "the write is admitted to record 0");
    row[stripe][unit] = byte;
}

/* Finishes the write in record 0 and collects it. */
static void end_write(void)
{
    finish(0);
    uint64_t collected = coppicetune_collect(&state, table, RECORDS, work, WORK, 0, NULL, 0);
    expect(coppicetune_number(collected) == COPPICETUNE_ACCEPTED, "the write is collected");
    expect(coppicetune_first(collected) <= 2 * UNITS + 3, "after 2n+3 steps at most");
}

/* Reads every unit of every stripe. */
static void read_back(void)
{
    for (uint64_t stripe = 0; stripe < STRIPES; stripe++) {
        uint8_t result[UNITS * BLOCK];
        expect(gives(admit(0, stripe, (1 << UNITS) - 1, NULL, 0), 0), "the read is admitted to record 0");
        finish(0);
        uint64_t collected = coppicetune_collect(&state, table, RECORDS, work, WORK, 0, result, sizeof result);
        expect(coppicetune_number(collected) == COPPICETUNE_ACCEPTED, "the read is collected");
        for (int at = 0; at < UNITS * BLOCK; at++)
            expect(result[at] == row[stripe][at / BLOCK], "each unit is read back");
    }
}

/* Opens the array: every unit has a byte of its own. */
static void prepare(void)
{
    for (uint64_t stripe = 0; stripe < STRIPES; stripe++)
        for (uint64_t unit = 0; unit < UNITS; unit++)
            row[stripe][unit] = (uint8_t)(0x10 * (stripe + 1) + unit);
    for (uint64_t stripe = 0; stripe < STRIPES; stripe++)
        for (uint64_t card = 0; card < CARDS; card++)
            memset(cell(card, stripe), right(card, stripe), BLOCK);
    uint64_t opened = coppicetune_open(&state, table, RECORDS, work, WORK, image, IMAGE, CARDS, STRIPES, BLOCK, RECORDS,
                                       layout, COPPICETUNE_NONE);
    expect(opened == 0 && state.layout == layout && state.fill == COPPICETUNE_NO_FILL, "the array opens, and nothing is filled");
    expect(rebuild() == COPPICETUNE_NOTHING_TO_FILL, "there is nothing to rebuild");
    expect(coppicetune_start(&state) == COPPICETUNE_NOTHING_TO_FILL, "and nothing to start");
}

/* A card dies and a fresh one comes in its place; it holds what it likes. */
static void card_dies(uint64_t card)
{
    expect(coppicetune_report(&state, card) == 0 && state.out == card, "the card is out");
    spoil(card, 0);
    expect(rebuild() == COPPICETUNE_NOTHING_TO_FILL, "no fill was begun");
    expect(coppicetune_start(&state) == 0 && state.fill == 0, "a fill is begun");
    expect(coppicetune_start(&state) == COPPICETUNE_FILLING, "and only one");
}

/* Fills up to a stripe; before each one that stripe is written, and then held, and behind it another is written. */
static void fill_to(uint64_t end, uint8_t byte)
{
    for (uint64_t stripe = state.fill; stripe < end; stripe++) {
        begin_write(stripe, stripe % UNITS, byte);
        expect(rebuild() == COPPICETUNE_HELD, "a held stripe is not filled");
        end_write();
        spoil(state.out, stripe);
        expect(gives(rebuild(), stripe), "the stripe is filled");
        begin_write(stripe / 2, (stripe + 1) % UNITS, (uint8_t)(byte + 1));
        end_write();
        all_hold();
    }
}

/* The whole race in one layout. */
static void race(uint64_t number)
{
    layout = number;
    prepare();
    card_dies(FIRST_DEAD);
    fill_to(4, 0xA0);
    expect(check() == COPPICETUNE_OUT, "a scan needs every card");

    /* The fresh card dies in the middle, between two steps of a write to a stripe that was filled. */
    begin_write(2, 1, 0xB0);
    expect(table[0].chosen == COPPICETUNE_NONE, "a stripe that is filled counts no card out");
    expect(gives(step(0, 1), 0), "a step is done");
    expect(coppicetune_report(&state, FIRST_DEAD) == 0, "the fresh card is reported");
    expect(state.out == FIRST_DEAD && state.fill == COPPICETUNE_NO_FILL && state.lost == 0, "it is out, and no fill is under way");
    expect(coppicetune_report(&state, FIRST_DEAD) == COPPICETUNE_OUT, "and is not reported twice");
    spoil(FIRST_DEAD, 0);
    end_write();
    all_hold();
    read_back();

    /* Another fresh card is filled to the end. */
    expect(coppicetune_start(&state) == 0, "a fill is begun again");
    fill_to(STRIPES, 0xC0);
    expect(state.out == COPPICETUNE_NONE && state.fill == COPPICETUNE_NO_FILL, "after the last stripe no card is out");
    expect(check() == 0, "parity is right");
    expect(coppicetune_scan(state.cards, state.stripes, state.block, state.records, state.layout, state.out, state.lost,
                            state.fill, image, IMAGE) == 0,
           "and by the idle array's scan");

    /* Then another card dies: what the filled one holds is needed now. */
    card_dies(NEXT_DEAD);
    read_back();
    fill_to(STRIPES - 1, 0xD0);
    read_back();
    expect(coppicetune_report(&state, FIRST_DEAD) == 0 && state.lost == 1, "a second card loses the array");
    expect(state.out == NEXT_DEAD && state.fill == STRIPES - 1, "and nothing else changes");
    expect(rebuild() == COPPICETUNE_LOST, "which is filled no more");
    expect(state.layout == layout, "and has the layout that it was opened in");
}

int main(void)
{
    race(COPPICETUNE_LEVEL_5);
    race(COPPICETUNE_LEVEL_4);
    puts("fill.c: all as it should be");
    return 0;
}
