/* One call on both engines, compared. */
#ifndef BOTH_H
#define BOTH_H

#include <coppicetune.h>
#include <stddef.h>

typedef struct coppicetune_state state_t;
typedef struct coppicetune_record record_t;

enum { MOST_RECORDS = 16, MOST_BYTES = 1 << 17, MOST_PAYLOAD = 8192 };

/* All that a caller lends; plain/src/lib.rs has the same. */
struct side {
    state_t state;
    record_t table[MOST_RECORDS];
    size_t table_len;
    size_t work_len;
    size_t image_len;
    size_t payload_len;
    size_t result_len;
    uint8_t work[MOST_BYTES];
    uint8_t image[MOST_BYTES];
    uint8_t payload[MOST_PAYLOAD];
    uint8_t result[MOST_PAYLOAD];
};

/* The calls, from 0 on; plain/src/lib.rs goes by these numbers. */
enum call { PLACE, BLOCK_AT, SCAN, OPEN, ADMIT, STEP, REPORT, COLLECT, CHECK, START, REBUILD };

/* A call and its numbers, in the order of its arguments. */
struct ask {
    enum call call;
    uint64_t number[6];
};

/* Makes a call of the plain engine. */
uint64_t make_plain(const struct ask *ask, struct side *side);

/* What the library and the plain engine are lent; equal between calls. */
extern struct side theirs, ours;

/* Maps the rooms that the library's buffers stand in. */
void both_begin(void);

/* Makes a call on both engines; stops the program if they differ, or if a refusal altered
 * anything. The library's buffers stand against the end of their rooms, or the beginning. */
uint64_t make(const struct ask *ask, int at_end);

/* The call was not refused. */
int accepted(uint64_t answer);

/* Copies the used parts of a side. */
void copy(struct side *to, const struct side *from);

#endif
