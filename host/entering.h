/* Books entered word by word, under trial in a soak. */
#ifndef ENTERING_H
#define ENTERING_H

#include "book.h"
#include "trial.h"

/* Two books that are opened and entered word by word in random order, with some
   words as frames and refused ones between them. Into the first come the words
   dealt to the card, each once or more often: it ends at the card's answer. Into
   the second come any words: each slot holds what the soak's own account says,
   the held answer is the vote over that, and filling deals over all of it. */
bool entering_is_right(struct trial *trial, const struct settings *s);

#endif
