/* Frames from standard input, one to a line in hex. Blank lines and lines that
   begin with # are passed over; a line that is not hex is garbled. */
#ifndef LINES_H
#define LINES_H

#include "hex.h"

struct line {
    uint64_t number;        /* from 1 */
    bool garbled;
    struct hex hex;         /* its bytes, or what is wrong with it */
};

/* Hands the lines to `take`, one by one, which prints what becomes of each and
   answers whether it was accepted. What it printed is written out before the
   next line is read, for a reader at the other end of a pipe. Answers an exit
   status. */
int each_line(bool (*take)(void *with, const struct line *line), void *with);

/* Prints `garbled line L column C: ` and what is wrong. */
void print_garbled(const struct line *line);

#endif
