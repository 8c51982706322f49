/* A recorder in small: opens an array of either layout, writes through a card's failure, reads all back.
 *
 * It uses only include/coppicetune.h. Every answer and every byte that it knows beforehand is
 * checked; it says what is wrong, and exits with 1, at the first that differs.
 */
#include <coppicetune.h>
#include <stdio.h>
#include <stdlib.h>
#include <string.h>

enum { CARDS = 4, UNITS = 3, STRIPES = 4, BLOCK = 16, RECORDS = 2 };
enum { IMAGE = CARDS * STRIPES * BLOCK, WORK = 2 * CARDS * BLOCK * RECORDS };

static struct coppicetune_state state;
static struct coppicetune_record table[RECORDS];
static uint8_t work[WORK];
static uint8_t image[IMAGE];

/* The layout of the array. */
static uint64_t layout;

static void expect(int holds, const char *what)
{
    if (!holds) {
        printf("engine.c: not so: %s (layout %d)\n", what, (int)layout);
        exit(1);
    }
}

/* The answer has this number and these values. */
static int is(uint64_t answer, uint64_t number, uint64_t first, uint64_t second)
{
    return coppicetune_number(answer) == number && coppicetune_first(answer) == first &&
           coppicetune_second(answer) == second;
}

/* The call was not refused. */
static int accepted(uint64_t answer) { return coppicetune_number(answer) == COPPICETUNE_ACCEPTED; }

/* Fills the block at a card and stripe. */
static void fill(uint64_t card, uint64_t stripe, uint8_t byte)
{
    memset(image + (card * STRIPES + stripe) * BLOCK, byte, BLOCK);
}

/* The block at a card and stripe is filled with this byte. */
static int filled(uint64_t card, uint64_t stripe, uint8_t byte)
{
    const uint8_t *block = image + (card * STRIPES + stripe) * BLOCK;
    for (int at = 0; at < BLOCK; at++)
        if (block[at] != byte)
            return 0;
    return 1;
}

/* Units 11, 22, 44 and parity 77 in every stripe, placed by the library itself. */
static void prepare(void)
{
    static const uint8_t unit[UNITS] = {0x11, 0x22, 0x44};
    for (uint64_t stripe = 0; stripe < STRIPES; stripe++) {
        for (uint64_t card = 0; card < CARDS; card++) {
            uint64_t there = coppicetune_block_at(CARDS, STRIPES, layout, card, stripe);
            expect(accepted(there), "a card and stripe hold a block or parity");
            int parity = coppicetune_first(there) == 1;
            fill(card, stripe, parity ? 0x77 : unit[coppicetune_second(there) % UNITS]);
        }
    }
}

/* The card of a unit, from its logical block number. */
static uint64_t card_of(uint64_t stripe, uint64_t unit)
{
    uint64_t there = coppicetune_place(CARDS, STRIPES, layout, stripe * UNITS + unit);
    expect(is(there, COPPICETUNE_ACCEPTED, coppicetune_first(there), stripe), "a block is on its stripe");
    return coppicetune_first(there);
}

static void open_array(void)
{
    uint64_t answer = coppicetune_open(&state, table, RECORDS, work, WORK, image, IMAGE, CARDS,
                                       STRIPES, BLOCK, RECORDS, layout, COPPICETUNE_NONE);
    expect(answer == 0, "the array opens");
    expect(state.cards == CARDS && state.stripes == STRIPES && state.block == BLOCK &&
               state.records == RECORDS && state.layout == layout && state.out == COPPICETUNE_NONE && state.lost == 0 &&
               state.fill == COPPICETUNE_NO_FILL,
           "its state is as asked");
    for (int at = 0; at < RECORDS; at++)
        expect(table[at].phase == COPPICETUNE_FREE, "every record is free");
}

static uint64_t admit(uint64_t write, uint64_t stripe, uint64_t mask, const uint8_t *payload,
                      size_t length)
{
    return coppicetune_admit(&state, table, RECORDS, work, WORK, image, IMAGE, write, stripe, mask,
                             payload, length);
}

static uint64_t step(uint64_t record, uint64_t number_of_step)
{
    return coppicetune_step(&state, table, RECORDS, work, WORK, image, IMAGE, record,
                            number_of_step);
}

static uint64_t collect(uint64_t record, uint8_t *result, size_t length)
{
    return coppicetune_collect(&state, table, RECORDS, work, WORK, record, result, length);
}

/* Takes whatever step is ready until the request is finished. */
static void finish(uint64_t record)
{
    while (table[record].phase == COPPICETUNE_OPEN) {
        int taken = 0;
        for (uint64_t each = 0; each <= 2 * UNITS + 2 && !taken; each++)
            taken = accepted(step(record, each));
        expect(taken, "an open request has a step to take");
    }
}

/* Writes 33 to unit 1 of stripe 1. Its card goes out before that write step. */
static void write_through_a_failure(void)
{
    enum { STRIPE = 1, READ_UNIT = 1, READ_PARITY = UNITS, SUM = UNITS + 1, WRITE = UNITS + 3 };
    uint8_t payload[BLOCK];
    memset(payload, 0x33, BLOCK);
    uint64_t admitted = admit(1, STRIPE, 1 << 1, payload, BLOCK);
    expect(admitted == 0, "the write is admitted to record 0");
    expect(table[0].graph == 3, "as a small write");
    expect(admit(0, STRIPE, 1, NULL, 0) == COPPICETUNE_HELD, "its stripe is held");
    expect(coppicetune_check(&state, table, RECORDS, image, IMAGE) == 0, "idle stripes are right");
    expect(step(0, READ_UNIT) == 0, "the unit is read");
    expect(step(0, SUM) == COPPICETUNE_NOT_READY, "the exclusive or waits for parity's read");
    expect(step(0, READ_PARITY) == 0, "parity is read");
    expect(step(0, SUM) == 0, "the exclusive or is done");

    /* Unit 1 of stripe 1 of four cards: on card 1 by level 4, on card 0 by level 5. */
    uint64_t card = card_of(STRIPE, 1);
    expect(card == (layout == COPPICETUNE_LEVEL_4 ? 1 : 0), "the unit is on its card");
    expect(coppicetune_report(&state, card) == 0 && state.out == card, "the card is out");
    expect(coppicetune_report(&state, card) == COPPICETUNE_OUT, "and is not reported twice");
    for (uint64_t stripe = 0; stripe < STRIPES; stripe++)
        fill(card, stripe, 0xDD);

    uint64_t afresh = step(0, WRITE);
    expect(is(afresh, COPPICETUNE_ACCEPTED, 4, 0), "graph 4 is chosen afresh");
    finish(0);
    uint64_t parity_card = layout == COPPICETUNE_LEVEL_4 ? 3 : 2;
    expect(filled(parity_card, STRIPE, 0x66), "parity is 66");
    expect(filled(card, STRIPE, 0xDD), "nothing is written to the card that is out");
    uint64_t collected = collect(0, NULL, 0);
    expect(is(collected, COPPICETUNE_ACCEPTED, 3 + 1 + 4, 0), "8 steps were accepted");
    expect(table[0].phase == COPPICETUNE_FREE, "the record is free");
}

/* Reads every unit of every stripe; the dead card's are inferred. */
static void read_back(void)
{
    for (uint64_t stripe = 0; stripe < STRIPES; stripe++) {
        uint8_t result[UNITS * BLOCK + 1];
        memset(result, 0xEE, sizeof result);
        expect(admit(0, stripe, (1 << UNITS) - 1, NULL, 0) == 0, "the read is admitted");
        finish(0);
        expect(collect(0, result, UNITS * BLOCK - 1) == COPPICETUNE_BUFFER, "the buffer is too small");
        expect(accepted(collect(0, result, sizeof result)), "the read is collected");
        const uint8_t unit[UNITS] = {0x11, stripe == 1 ? 0x33 : 0x22, 0x44};
        for (int at = 0; at < UNITS * BLOCK; at++)
            expect(result[at] == unit[at / BLOCK], "each unit is read back");
        expect(result[UNITS * BLOCK] == 0xEE, "bytes behind them stay");
    }
}

/* What the idle array's scan says, by the state's eight numbers. */
static uint64_t scan(void)
{
    return coppicetune_scan(state.cards, state.stripes, state.block, state.records, state.layout,
                            state.out, state.lost, state.fill, image, IMAGE);
}

/* The whole race in one layout. */
static void race(uint64_t number)
{
    layout = number;
    prepare();
    image[IMAGE - 1] ^= 1;
    state.cards = 9;
    uint64_t refused = coppicetune_open(&state, table, RECORDS, work, WORK, image, IMAGE, CARDS,
                                        STRIPES, BLOCK, RECORDS, layout, COPPICETUNE_NONE);
    expect(is(refused, COPPICETUNE_DISAGREES, STRIPES - 1, BLOCK - 1), "a wrong byte is found");
    expect(state.cards == 9, "a refused opening leaves the state as it was");
    image[IMAGE - 1] ^= 1;
    refused = coppicetune_open(&state, table, RECORDS, work, WORK, image, IMAGE, CARDS, STRIPES, BLOCK, RECORDS, layout + 2,
                               COPPICETUNE_NONE);
    expect(refused == COPPICETUNE_BEYOND && state.cards == 9, "there is no layout 6 or 7");

    open_array();
    expect(scan() == 0, "parity is right");
    write_through_a_failure();
    read_back();
    expect(scan() == COPPICETUNE_OUT, "a scan needs every card");
    expect(coppicetune_report(&state, (state.out + 1) % CARDS) == 0, "a second card is reported");
    expect(state.lost == 1 && scan() == COPPICETUNE_LOST, "the array is lost");
    expect(admit(0, 0, 1, NULL, 0) == COPPICETUNE_LOST, "and takes no request");
}

int main(void)
{
    race(COPPICETUNE_LEVEL_5);
    race(COPPICETUNE_LEVEL_4);
    puts("engine.c: all as it should be");
    return 0;
}
