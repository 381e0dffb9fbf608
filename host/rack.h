/* A rack on the bench whose cards are senders in turn, and the outcome of its exchanges. */
#ifndef RACK_H
#define RACK_H

#include "exchange.h"

struct rack {
    size_t n, m;
    uint8_t statuses[OMH_CARDS];
    bool set[OMH_CARDS];            /* whether an exchange has set the sender's row */
    int32_t outcome[OMH_OUTCOME];   /* a row for each sender, a column for each card */
};

/* The rack of an exchange, before any. */
void rack_start(struct rack *rack, const struct exchange *e);

/* Sets the row of the exchange's sender; answers 0 or the refusal's number. */
uint8_t rack_set_row(struct rack *rack, const struct exchange *e);

/* Prints the outcome, whether the good cards' columns are equal, and whether the bound held. */
void rack_print(const struct rack *rack);

#endif
