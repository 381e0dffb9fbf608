/* An exchange on the bench, which a soak draws at random. */
#ifndef EXCHANGE_H
#define EXCHANGE_H

#include "omh.h"
#include "random.h"

#include <stdio.h>

struct exchange {
    size_t n, m, t;
    int32_t x;
    uint8_t statuses[OMH_CARDS];
    int32_t table[OMH_TABLE];
};

/* The name of each status. */
extern const char *const status_names[];

bool is_ordinary(int32_t word);

/* Draws settings, statuses that are mostly within the bound, and a table of
   few different words, so that votes are contested. */
void exchange_draw(struct exchange *e, struct random *random);

/* The word that p receives at a slot, from the library; answers 0 or the refusal's number. */
uint8_t exchange_word(const struct exchange *e, size_t p, size_t slot, int32_t *word);

/* Document 01's bound, counted here. */
bool exchange_within_bound(const struct exchange *e);

/* Prints the settings and statuses on one line. */
void exchange_print(const struct exchange *e, FILE *file);

#endif
