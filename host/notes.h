/* Notes on a listing file that is accepted. */
#ifndef NOTES_H
#define NOTES_H

#include "bytes.h"

/* Says on standard error, a line each, which exceptions have no effect, and why:
   no card receives their word. `name` is null where there is one file. */
void print_notes(const struct bytes *file, const char *name);

#endif
