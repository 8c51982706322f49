/* The functions of the array library that a C program calls. docs/C-INTERFACE.md says how an answer is packed, and when each refusal is given.
 *
 * A pointer to a struct is not null. A slice is a pointer and a length: so many bytes, or records, can be read there, and written where the
 * pointer is not const. Nobody else uses them during the call, and what is written overlaps nothing else that is lent. */
#ifndef COPPICETUNE_H
#define COPPICETUNE_H

#include <stddef.h>
#include <stdint.h>

/* Grows with every change to a struct, to a function's arguments or to what an answer means. */
#define COPPICETUNE_VERSION 3

#ifdef __cplusplus
extern "C" {
#endif

/* In place of a card: none is out. */
enum { COPPICETUNE_NONE = 255 };

/* In place of a stripe to be filled next: no fill is under way. */
enum { COPPICETUNE_NO_FILL = 65535 };

/* The layout of an array, by its number: RAID level 4, parity on the last card and unit i on card i; or RAID level 5, parity rotated. */
enum { COPPICETUNE_LEVEL_4 = 4, COPPICETUNE_LEVEL_5 = 5 };

/* The number of an answer: accepted, or why the call is refused. */
enum {
    COPPICETUNE_ACCEPTED = 0,
    COPPICETUNE_BEYOND = 1,           /* a number of the state is beyond its limits */
    COPPICETUNE_LENGTH = 2,           /* the image, the table or the work store is of another length */
    COPPICETUNE_UNSOUND = 3,          /* the table is not sound */
    COPPICETUNE_LOST = 4,             /* the array is lost */
    COPPICETUNE_RANGE = 5,            /* a block, card, stripe or record number is out of range */
    COPPICETUNE_MASK = 6,             /* the mask is zero, or has a bit beyond the units */
    COPPICETUNE_BUFFER = 7,           /* the payload is of another length, or the result buffer too small */
    COPPICETUNE_HELD = 8,             /* an open request holds the stripe (admit), or the one to be filled next (rebuild) */
    COPPICETUNE_FULL = 9,             /* no record is free */
    COPPICETUNE_PHASE = 10,           /* the record is not open (step), or not finished (collect) */
    COPPICETUNE_NOT_READY = 11,       /* the step is not in the graph, is done, or lacks one that must come before */
    COPPICETUNE_OUT = 12,             /* that card is already out and no fill is under way (report), or a card is out (scan, check) */
    COPPICETUNE_DISAGREES = 13,       /* parity disagrees; the values are the lowest stripe and the lowest byte in it */
    COPPICETUNE_NOTHING_TO_FILL = 14, /* no card is out (start), or no fill is under way (rebuild) */
    COPPICETUNE_FILLING = 15          /* a fill is under way already (start) */
};

/* The phase of a record. */
enum { COPPICETUNE_FREE = 0, COPPICETUNE_OPEN = 1, COPPICETUNE_FINISHED = 2 };

/* The number of an answer, and its two values; a value that it does not have is 0. */
static inline uint64_t coppicetune_number(uint64_t answer) { return answer & 0xffff; }
static inline uint64_t coppicetune_first(uint64_t answer) { return answer >> 16 & 0xffff; }
static inline uint64_t coppicetune_second(uint64_t answer) { return answer >> 32; }

/* An open array. coppicetune_open fills it in; coppicetune_report, coppicetune_start and coppicetune_rebuild alter it. */
struct coppicetune_state {
    uint64_t cards;   /* N, 3 to 8 */
    uint64_t stripes; /* S, 1 to 1,024 */
    uint64_t block;   /* B, the bytes in a block: 16 to 512, a multiple of 16 */
    uint64_t records; /* K, the request records: 1 to 8 */
    uint64_t layout;  /* COPPICETUNE_LEVEL_4 or COPPICETUNE_LEVEL_5 */
    uint64_t out;     /* the card that is out, or COPPICETUNE_NONE */
    uint64_t lost;    /* 0: the array is not lost */
    uint64_t fill;    /* the stripe to be filled next, below S and only where a card is out; or COPPICETUNE_NO_FILL */
};

/* A request record. A free one is all zero. */
struct coppicetune_record {
    uint64_t phase;  /* COPPICETUNE_FREE, _OPEN or _FINISHED */
    uint64_t write;  /* read or write: 0, 1 */
    uint64_t stripe;
    uint64_t mask;   /* bit i is unit i */
    uint64_t graph;
    uint64_t chosen; /* the card that was out when the graph was chosen, or COPPICETUNE_NONE */
    uint64_t done;   /* the done steps: bit k is step k */
    uint64_t count;  /* the accepted steps since admission */
};

/* ---- by numbers */

/* The card and the stripe of logical block `block`, in an array of so many cards and stripes and this layout.
 * Values: the card, the stripe. Refused by 1 (cards, stripes or layout beyond their limits) or 5 (no such block). */
uint64_t coppicetune_place(uint64_t cards, uint64_t stripes, uint64_t layout, uint64_t block);

/* What card `card` holds in stripe `stripe`.
 * Values: 0 and the number of the logical block, or 1 and 0 for parity.
 * Refused by 1 (cards, stripes or layout beyond their limits) or 5 (no such card or stripe). */
uint64_t coppicetune_block_at(uint64_t cards, uint64_t stripes, uint64_t layout, uint64_t card, uint64_t stripe);

/* Whether parity is right in every stripe of an array with nothing open. The state's eight numbers: `layout` is 4 or 5; `out` is the card
 * that is out, or 255 for none; the array is lost if `lost` is not 0; `fill` is the stripe to be filled next, or 65535 for no fill.
 * Values: none where parity is right. Refused by 1, 2, 4, 12 or 13; 13 has the lowest stripe and the lowest byte in it where parity disagrees. */
uint64_t coppicetune_scan(uint64_t cards, uint64_t stripes, uint64_t block, uint64_t records, uint64_t layout, uint64_t out,
                          uint64_t lost, uint64_t fill, const uint8_t *image, size_t image_len);

/* ---- the engine: the same state, table, work store and image go from call to call */

/* Opens an array of so many cards, stripes, bytes in a block and records, of layout 4 or 5, with card `out` out, or 255 for none; with none out
 * parity must be right. Accepted, it stores the new state, whatever was in `state`, and frees every record; refused, all stays as it was.
 * Values: none. Refused by 1, 2 or 13; 13 has the lowest stripe and the lowest byte in it where parity disagrees. */
uint64_t coppicetune_open(struct coppicetune_state *state, struct coppicetune_record *table, size_t table_len,
                          const uint8_t *work, size_t work_len, const uint8_t *image, size_t image_len, uint64_t cards,
                          uint64_t stripes, uint64_t block, uint64_t records, uint64_t layout, uint64_t out);

/* Admits a request of the units in `mask` of a stripe: a read where `write` is 0, a write where it is any other number. A write's payload is
 * its units, ascending; a read's is 0 bytes.
 * Values: the record that it takes, the lowest free one. Refused by 1 to 9. */
uint64_t coppicetune_admit(const struct coppicetune_state *state, struct coppicetune_record *table, size_t table_len,
                           uint8_t *work, size_t work_len, const uint8_t *image, size_t image_len, uint64_t write,
                           uint64_t stripe, uint64_t mask, const uint8_t *payload, size_t payload_len);

/* Does a step of an open record; or, where the step's card is out, chooses the record's graph afresh.
 * Values: 0 where the step is done, the new graph where one is chosen. Refused by 1 to 5, 10 or 11. */
uint64_t coppicetune_step(const struct coppicetune_state *state, struct coppicetune_record *table, size_t table_len,
                          uint8_t *work, size_t work_len, uint8_t *image, size_t image_len, uint64_t record, uint64_t step);

/* Marks a card out, or the array lost where another card is out. Where that card is out and is being filled, the fill ends, and the card is
 * out in all stripes.
 * Values: none. Refused by 1, 4, 5 or 12. */
uint64_t coppicetune_report(struct coppicetune_state *state, uint64_t card);

/* Begins to fill a fresh card in the place of the one that is out, at stripe 0. What the fresh card holds does not matter.
 * Values: none. Refused by 1, 4, 14 or 15. */
uint64_t coppicetune_start(struct coppicetune_state *state);

/* Fills one stripe: infers the block of the card that is out from the other cards, writes it, and moves on to the next stripe. A stripe that is
 * filled counts no card out. After the last stripe no card is out.
 * Values: the stripe that was filled. Refused by 1, 2, 3, 4, 8 or 14. */
uint64_t coppicetune_rebuild(struct coppicetune_state *state, const struct coppicetune_record *table, size_t table_len, uint8_t *image,
                             size_t image_len);

/* Collects a finished record, which is freed. A read's units go, ascending, to the front of the result buffer; bytes behind them stay.
 * Values: the accepted steps since admission. Refused by 1 to 5, 10 or 7. */
uint64_t coppicetune_collect(const struct coppicetune_state *state, struct coppicetune_record *table, size_t table_len,
                             const uint8_t *work, size_t work_len, uint64_t record, uint8_t *result, size_t result_len);

/* Whether parity is right in every stripe that no open request holds.
 * Values: none where parity is right. Refused by 1 to 4, 12 or 13; 13 has the lowest stripe and the lowest byte in it where parity disagrees. */
uint64_t coppicetune_check(const struct coppicetune_state *state, const struct coppicetune_record *table, size_t table_len,
                           const uint8_t *image, size_t image_len);

#ifdef __cplusplus
}
#endif

#endif
