/* Memory that is lent to the library, with a page on either side that may not be touched. */
#ifndef LENT_H
#define LENT_H

#include <stddef.h>
#include <stdint.h>

/* What a list that is lent to be written holds before the call. */
#define MARK 0xa5u
#define MARK_WORD 0xa5a5a5a5a5a5a5a5u

/* The same bytes twice: `own` is the driver's, `lent` the library's, which may be for reading only. */
struct room {
    uint8_t *own, *lent;
    size_t bytes;
};

/* Room for at least `bytes`; exits if there is none. */
struct room room_to_read(size_t bytes);
struct room room_to_write(size_t bytes);

/* Where a list of `bytes` begins, at the front or the back of the room: one byte further is forbidden. */
size_t room_offset(const struct room *room, size_t bytes, int at_back);

#endif
