/* Books filled by the library, under trial in a soak. */
#ifndef FILLING_H
#define FILLING_H

#include "book.h"
#include "trial.h"

/* A book in use, filled by the library: live words as dealt one by one, whatever
   was there, live votes as worked out afresh, other places untouched, the card's
   answer held. */
bool filling_is_right(struct trial *trial, const struct settings *s, struct book *book);

#endif
