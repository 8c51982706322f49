/* A fuzz target over the C calls: any calls, in any order, on any buffers.
 *
 * The input is a list of deeds. Each call is made on the library and on the plain engine, with
 * equal input; the answers and all that was lent must come out equal, and a refusal must leave
 * everything as it was. The library's buffers stand against pages that may not be touched.
 */
#include "both.h"

#include <string.h>

enum { MOST_DEEDS = 80 };

/* The input, read from its front; zeros once it is used up. */
static const uint8_t *input;
static size_t input_left;

static uint8_t next(void)
{
    if (input_left == 0)
        return 0;
    input_left--;
    return *input++;
}

/* A number from 0 to limit, or now and then a wild one. */
static uint64_t number(uint64_t limit)
{
    static const uint64_t wild[] = {
        0,    1,    2,     3,     4,       5,          6,          8,                9,
        16,   24,   128,   254,   255,     256,        257,        512,              513,
        528,  1023, 1024,  1025,  65534,   65535,      1 << 16,    1ull << 32,       (1ull << 32) + 4,
        (1ull << 32) + 5, 1ull << 63, 0ull - 1,
    };
    uint8_t byte = next();
    if (byte >= 226)
        return wild[(byte - 226) % (sizeof wild / sizeof *wild)];
    return byte % (limit + 1);
}

/* A layout: 4 or 5, or now and then another number. */
static uint64_t some_layout(void)
{
    uint8_t byte = next();
    return byte % 16 != 0 ? 4u + (byte & 1u) : number(8);
}

/* Sets a byte in both images. */
static void set_byte(size_t at, uint8_t byte)
{
    if (at < ours.image_len) {
        ours.image[at] = byte;
        theirs.image[at] = byte;
    }
}

/* Gives the array its numbers and buffers: bytes that follow a rule, with right parity. */
static void prepare(void)
{
    memset(&ours, 0, offsetof(struct side, work));
    state_t *state = &ours.state;
    state->cards = 3 + next() % 6;
    state->stripes = 1 + next() % 6;
    uint8_t size = next();
    state->block = 16 * (size < 200 ? 1 + size % 3 : 1 + size % 32);
    state->records = 1 + next() % 8;
    state->layout = 4 + (next() & 1);
    state->out = 255;
    state->fill = COPPICETUNE_NO_FILL;
    ours.table_len = state->records;
    ours.work_len = 2 * state->cards * state->block * state->records;
    ours.image_len = state->cards * state->stripes * state->block;
    size_t card = state->stripes * state->block;
    uint8_t seed = next();
    for (size_t at = 0; at < card; at++) {
        uint8_t sum = 0;
        for (size_t each = 0; each + 1 < state->cards; each++) {
            uint8_t byte = (uint8_t)(seed + 31 * at + 101 * each);
            ours.image[each * card + at] = byte;
            sum ^= byte;
        }
        ours.image[(state->cards - 1) * card + at] = sum;
    }
    memset(ours.work, seed, ours.work_len);
    copy(&theirs, &ours);
}

/* Fills payload or result with bytes that follow a rule. */
static void fill(uint8_t *a, uint8_t *b, size_t length)
{
    uint8_t seed = next();
    for (size_t at = 0; at < length; at++)
        a[at] = b[at] = (uint8_t)(seed + 7 * at);
}

/* A length: the right one, or now and then another. */
static size_t length(size_t right, size_t most)
{
    switch (next() % 16) {
    case 0:
        right += 1;
        break;
    case 1:
        right -= right > 0;
        break;
    case 2:
        right = 0;
        break;
    case 3:
        right *= 2;
        break;
    }
    return right < most ? right : most;
}

static void admit(int at_end)
{
    const state_t *state = &ours.state;
    struct ask ask = {ADMIT, {next() & 1, number(5), number(127)}};
    if (state->cards - 3 <= 5 && next() % 8 != 0)
        ask.number[2] &= (1u << (state->cards - 1)) - 1;
    size_t units = (size_t)__builtin_popcountll(ask.number[2]);
    size_t right = ask.number[0] && state->block <= 512 ? units * state->block : 0;
    ours.payload_len = theirs.payload_len = length(right, MOST_PAYLOAD);
    fill(ours.payload, theirs.payload, ours.payload_len);
    make(&ask, at_end);
    ours.payload_len = theirs.payload_len = 0;
}

static void collect(int at_end)
{
    struct ask ask = {COLLECT, {number(7)}};
    size_t right = 0;
    if (ask.number[0] < ours.table_len && ours.state.block <= 512)
        right = (size_t)__builtin_popcountll(ours.table[ask.number[0]].mask) * ours.state.block;
    ours.result_len = theirs.result_len = length(right, MOST_PAYLOAD);
    fill(ours.result, theirs.result, ours.result_len);
    make(&ask, at_end);
    ours.result_len = theirs.result_len = 0;
}

/* Takes steps of a record, ascending, as many as are asked for. */
static void several_steps(int at_end)
{
    struct ask ask = {STEP, {number(7), 0}};
    uint8_t most = next() % 20;
    for (; ask.number[1] <= 16 && most > 0; ask.number[1]++)
        most -= accepted(make(&ask, at_end));
}

/* Fills the card that is out, as many stripes as are asked for; most often begun here. */
static void several_rebuilds(int at_end)
{
    uint8_t most = next() % 10;
    if (most != 9)
        make(&(struct ask){START, {0}}, at_end);
    while (most > 0 && accepted(make(&(struct ask){REBUILD, {0}}, at_end)))
        most--;
}

/* The bytes of the card that is out, where it is not filled, turn to another. */
static void decay(void)
{
    const state_t *state = &ours.state;
    uint8_t byte = next();
    if (state->out >= state->cards || state->cards > 8 || state->stripes > 1024 || state->block > 512)
        return;
    size_t card = state->stripes * state->block;
    size_t filled = state->fill < state->stripes ? state->fill * state->block : 0;
    for (size_t at = state->out * card + filled; at < (state->out + 1) * card; at++)
        set_byte(at, (uint8_t)(byte + 3 * at));
}

/* Changes one number of a record, on both sides. */
static void change_record(void)
{
    size_t at = next() % MOST_RECORDS;
    size_t which = next() % (sizeof(record_t) / sizeof(uint64_t));
    if (at < ours.table_len) {
        ((uint64_t *)&ours.table[at])[which] = number(200);
        theirs.table[at] = ours.table[at];
    }
}

/* Changes one number of the state, on both sides. */
static void change_state(void)
{
    size_t which = next() % (sizeof(state_t) / sizeof(uint64_t));
    ((uint64_t *)&ours.state)[which] = number(16);
    theirs.state = ours.state;
}

/* Changes the length of a buffer, on both sides; bytes that it gains are zero. */
static void change_length(void)
{
    struct side *both[] = {&ours, &theirs};
    uint8_t which = next() % 3;
    size_t table_len = length(ours.table_len, MOST_RECORDS);
    size_t work_len = length(ours.work_len, MOST_BYTES);
    size_t image_len = length(ours.image_len, MOST_BYTES);
    for (int at = 0; at < 2; at++) {
        struct side *s = both[at];
        if (which == 0) {
            for (size_t more = s->table_len; more < table_len; more++)
                memset(&s->table[more], 0, sizeof s->table[more]);
            s->table_len = table_len;
        } else if (which == 1) {
            for (size_t more = s->work_len; more < work_len; more++)
                s->work[more] = 0;
            s->work_len = work_len;
        } else {
            for (size_t more = s->image_len; more < image_len; more++)
                s->image[more] = 0;
            s->image_len = image_len;
        }
    }
}

static void deed(int at_end)
{
    state_t now = ours.state;
    switch (next() % 20) {
    case 0:
        make(&(struct ask){OPEN, {number(8), number(6), 16 * number(4), number(8), some_layout(), number(255)}},
             at_end);
        break;
    case 1:
        make(&(struct ask){OPEN, {now.cards, now.stripes, now.block, now.records, some_layout(), number(255)}},
             at_end);
        break;
    case 2:
    case 3:
        admit(at_end);
        break;
    case 4:
    case 5:
        make(&(struct ask){STEP, {number(7), number(17)}}, at_end);
        break;
    case 6:
    case 7:
        several_steps(at_end);
        break;
    case 8:
        make(&(struct ask){REPORT, {number(7)}}, at_end);
        break;
    case 9:
        collect(at_end);
        break;
    case 10:
        make(&(struct ask){CHECK, {0}}, at_end);
        make(&(struct ask){SCAN, {0}}, at_end);
        break;
    case 11:
        make(&(struct ask){PLACE, {number(8), number(255), some_layout(), number(255)}}, at_end);
        make(&(struct ask){BLOCK_AT, {number(8), number(255), some_layout(), number(7), number(255)}}, at_end);
        break;
    case 12:
        change_record();
        break;
    case 13: {
        size_t high = next();
        set_byte(high << 8 | next(), next());
        break;
    }
    case 14:
        change_state();
        break;
    case 15:
        change_length();
        break;
    case 16:
        make(&(struct ask){START, {0}}, at_end);
        break;
    case 17:
        make(&(struct ask){REBUILD, {0}}, at_end);
        break;
    case 18:
        several_rebuilds(at_end);
        break;
    case 19:
        decay();
        break;
    }
}

int LLVMFuzzerTestOneInput(const uint8_t *data, size_t size)
{
    static int begun = 0;
    if (!begun)
        both_begin();
    begun = 1;
    input = data;
    input_left = size;
    int at_end = next() & 1;
    prepare();
    make(&(struct ask){OPEN, {ours.state.cards, ours.state.stripes, ours.state.block,
                              ours.state.records, ours.state.layout, next() % 4 ? 255 : number(7)}},
         at_end);
    for (int deeds = 0; deeds < MOST_DEEDS && input_left > 0; deeds++)
        deed(at_end);
    return 0;
}
