/* Buffers that end, or begin, where no memory may be touched.
 *
 * The library is compiled without checks of its own, so the address sanitizer does not see its
 * accesses; a page that may not be touched stops it at the first byte beyond a buffer all the same.
 * On the other side of a buffer stand bytes that must stay as they are.
 */
#ifndef LEND_H
#define LEND_H

#include <stddef.h>
#include <stdint.h>

enum { ROOM = 1 << 18, MARGIN = 64 };

/* One buffer's place: ROOM bytes between two pages that may not be touched. */
struct room {
    uint8_t *start;
    uint8_t *lent;
    size_t length;
};

/* Maps a room. */
void room_make(struct room *room);

/* Copies bytes into a room, against its end or its beginning; where they stand now. */
void *room_lend(struct room *room, const void *bytes, size_t length, int at_end);

/* Copies the bytes back out; stops the program if a byte beside them has changed. */
void room_take(struct room *room, void *bytes);

#endif
