#include "lend.h"

#include <stdio.h>
#include <stdlib.h>
#include <string.h>
#include <sys/mman.h>

enum { PAGE = 4096, MARK = 0xA5 };

void room_make(struct room *room)
{
    uint8_t *all = mmap(NULL, ROOM + 2 * PAGE, PROT_NONE, MAP_PRIVATE | MAP_ANONYMOUS, -1, 0);
    if (all == MAP_FAILED || mprotect(all + PAGE, ROOM, PROT_READ | PROT_WRITE) != 0) {
        perror("mmap");
        exit(2);
    }
    room->start = all + PAGE;
}

/* The bytes beside a buffer: before it if it stands at the end, else behind it. */
static uint8_t *beside(const struct room *room)
{
    return room->lent == room->start ? room->lent + room->length : room->lent - MARGIN;
}

void *room_lend(struct room *room, const void *bytes, size_t length, int at_end)
{
    if (length + MARGIN > ROOM)
        abort();
    room->lent = at_end ? room->start + ROOM - length : room->start;
    room->length = length;
    memcpy(room->lent, bytes, length);
    memset(beside(room), MARK, MARGIN);
    return room->lent;
}

void room_take(struct room *room, void *bytes)
{
    const uint8_t *marks = beside(room);
    for (int at = 0; at < MARGIN; at++) {
        if (marks[at] != MARK) {
            fprintf(stderr, "a byte beside a buffer was altered\n");
            abort();
        }
    }
    memcpy(bytes, room->lent, room->length);
}
