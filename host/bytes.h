/* Bytes that come: the first are kept, as many as anything that is accepted
   has and one more, and all are counted. So what is too long is refused as it
   would be whole, and takes no more room. */
#ifndef BYTES_H
#define BYTES_H

#include <stdbool.h>
#include <stddef.h>
#include <stdint.h>
#include <stdio.h>

/* The longest listing file that is accepted has 24 bytes and 64 exceptions of 7. */
enum { MOST_KEPT = 24 + 7 * 64 + 1 };

/* Starts as {{0}, 0}. */
struct bytes {
    uint8_t at[MOST_KEPT];      /* 0 from the kept bytes on */
    uint64_t count;             /* of all that came */
};

void bytes_add(struct bytes *bytes, uint8_t byte);

/* Adds the rest of the file, however long. False if reading failed; errno says why. */
bool bytes_read_all(struct bytes *bytes, FILE *file);

/* How many are kept. */
size_t bytes_kept(const struct bytes *bytes);

/* The number in the `size` bytes from `place` on, big-endian. */
uint32_t bytes_number(const struct bytes *bytes, size_t place, size_t size);

#endif
