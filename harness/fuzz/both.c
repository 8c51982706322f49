#include "both.h"

#include "lend.h"

#include <stdio.h>
#include <stdlib.h>
#include <string.h>

struct side theirs, ours;
static struct side before;
static struct room state_room, table_room, work_room, image_room, payload_room, result_room;

void both_begin(void)
{
    struct room *rooms[] = {&state_room, &table_room,   &work_room,
                            &image_room, &payload_room, &result_room};
    for (int at = 0; at < 6; at++)
        room_make(rooms[at]);
}

int accepted(uint64_t answer) { return coppicetune_number(answer) == COPPICETUNE_ACCEPTED; }

static void stop(const char *what, const struct ask *ask, uint64_t tested, uint64_t plain)
{
    fprintf(stderr, "%s: call %d (%llu, %llu, %llu, %llu, %llu, %llu) gave %llx, plain engine %llx\n",
            what, ask->call, (unsigned long long)ask->number[0],
            (unsigned long long)ask->number[1], (unsigned long long)ask->number[2],
            (unsigned long long)ask->number[3], (unsigned long long)ask->number[4],
            (unsigned long long)ask->number[5], (unsigned long long)tested, (unsigned long long)plain);
    abort();
}

static uint64_t make_tested(const struct ask *ask, struct side *s, int at_end)
{
    const uint64_t *n = ask->number;
    state_t *state = room_lend(&state_room, &s->state, sizeof s->state, at_end);
    size_t table_size = s->table_len * sizeof *s->table;
    record_t *table = room_lend(&table_room, s->table, table_size, at_end);
    uint8_t *work = room_lend(&work_room, s->work, s->work_len, at_end);
    uint8_t *image = room_lend(&image_room, s->image, s->image_len, at_end);
    uint8_t *payload = room_lend(&payload_room, s->payload, s->payload_len, at_end);
    uint8_t *result = room_lend(&result_room, s->result, s->result_len, at_end);
    uint64_t answer = 0;
    switch (ask->call) {
    case PLACE:
        answer = coppicetune_place(n[0], n[1], n[2], n[3]);
        break;
    case BLOCK_AT:
        answer = coppicetune_block_at(n[0], n[1], n[2], n[3], n[4]);
        break;
    case SCAN:
        answer = coppicetune_scan(state->cards, state->stripes, state->block, state->records,
                                  state->layout, state->out, state->lost, state->fill, image,
                                  s->image_len);
        break;
    case OPEN:
        answer = coppicetune_open(state, table, s->table_len, work, s->work_len, image,
                                  s->image_len, n[0], n[1], n[2], n[3], n[4], n[5]);
        break;
    case ADMIT:
        answer = coppicetune_admit(state, table, s->table_len, work, s->work_len, image,
                                   s->image_len, n[0], n[1], n[2], payload, s->payload_len);
        break;
    case STEP:
        answer = coppicetune_step(state, table, s->table_len, work, s->work_len, image,
                                  s->image_len, n[0], n[1]);
        break;
    case REPORT:
        answer = coppicetune_report(state, n[0]);
        break;
    case COLLECT:
        answer = coppicetune_collect(state, table, s->table_len, work, s->work_len, n[0], result,
                                     s->result_len);
        break;
    case CHECK:
        answer = coppicetune_check(state, table, s->table_len, image, s->image_len);
        break;
    case START:
        answer = coppicetune_start(state);
        break;
    case REBUILD:
        answer = coppicetune_rebuild(state, table, s->table_len, image, s->image_len);
        break;
    }
    room_take(&state_room, &s->state);
    room_take(&table_room, s->table);
    room_take(&work_room, s->work);
    room_take(&image_room, s->image);
    room_take(&payload_room, s->payload);
    room_take(&result_room, s->result);
    return answer;
}

/* The used parts of two sides are equal. */
static int same(const struct side *a, const struct side *b)
{
    return memcmp(&a->state, &b->state, sizeof a->state) == 0 &&
           memcmp(a->table, b->table, a->table_len * sizeof *a->table) == 0 &&
           memcmp(a->work, b->work, a->work_len) == 0 &&
           memcmp(a->image, b->image, a->image_len) == 0 &&
           memcmp(a->payload, b->payload, a->payload_len) == 0 &&
           memcmp(a->result, b->result, a->result_len) == 0;
}

/* Copies the used parts. */
void copy(struct side *to, const struct side *from)
{
    memcpy(to, from, offsetof(struct side, work));
    memcpy(to->work, from->work, from->work_len);
    memcpy(to->image, from->image, from->image_len);
    memcpy(to->payload, from->payload, from->payload_len);
    memcpy(to->result, from->result, from->result_len);
}

/* Makes a call on both engines and compares. */
uint64_t make(const struct ask *ask, int at_end)
{
    copy(&before, &ours);
    uint64_t plain = make_plain(ask, &ours);
    uint64_t tested = make_tested(ask, &theirs, at_end);
    if (tested != plain)
        stop("answers differ", ask, tested, plain);
    if (!same(&theirs, &ours))
        stop("what was lent differs", ask, tested, plain);
    if (!accepted(tested) && !same(&theirs, &before))
        stop("a refusal altered something", ask, tested, plain);
    return tested;
}
