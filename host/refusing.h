/* Enterings and frames that are refused, under trial in a soak. */
#ifndef REFUSING_H
#define REFUSING_H

#include "book.h"
#include "trial.h"

/* An entering at a live slot that is spoiled: the number of the first of its
   faults in document 01's order is given, and nothing changes. */
bool refusal_is_right(struct trial *trial, const struct settings *s, struct book *book, uint16_t current, size_t slot);

/* A frame whose fields are not well formed, or whose buffer is too short: the
   right number is given, and nothing written. */
bool writing_is_refused(struct trial *trial);

#endif
