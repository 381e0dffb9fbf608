/* A soak's own account of the words that come to a book: what each slot holds. */
#ifndef ACCOUNT_H
#define ACCOUNT_H

#include "omh.h"

enum { COMING = 3 };        /* the most words that come on one path */

struct account {
    size_t counts[OMH_SLOTS];
    int32_t words[OMH_SLOTS][COMING];
};

/* A word was accepted at a slot. */
void account_add(struct account *account, size_t slot, int32_t word);

/* What the slot holds by document 02's Q-2, from all words accepted there. */
int32_t account_left(const struct account *account, size_t slot);

#endif
