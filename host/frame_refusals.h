/* Refusals where frames are made, read or entered: a line on standard output,
   `refused K`, then `line L` if the frame stood on a line, then the path as
   `path` with the sender and the used relays if the bytes have a frame's
   length, mark and version, and after a colon which field is wrong and its
   value. */
#ifndef FRAME_REFUSALS_H
#define FRAME_REFUSALS_H

#include "book.h"
#include "bytes.h"

/* A book is not opened. */
void print_not_opened(uint8_t number, const struct settings *s);

/* A frame is not made of its fields. */
void print_not_made(uint8_t number, const int32_t fields[OMH_FIELDS]);

/* Bytes are not read as a frame; `line` is 0 where they stood on none. */
void print_not_read(uint8_t number, uint64_t line, const struct bytes *frame);

/* A frame is not entered in a book with these settings; `current` is the exchange number. */
void print_not_entered(uint8_t number, uint64_t line, const struct bytes *frame,
                       const struct settings *s, uint16_t current);

#endif
