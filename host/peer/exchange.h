/* Document 01, 'The exchange on the bench': what each card receives. */
#ifndef PEER_EXCHANGE_H
#define PEER_EXCHANGE_H

#include "paths.h"
#include "words.h"

struct exchange {
    size_t n, m, t;
    int32_t x;
    const uint8_t *statuses;
    const int32_t *table;
};

/* What card p receives at slot k from a card of this status, which sends `word` if it is good. */
static inline int32_t sent_by(uint8_t status, int32_t word, const int32_t *table, size_t k, size_t p)
{
    switch (status) {
    case OMH_GOOD:
        return word;
    case OMH_ARBITRARY:
        return table[10 * k + p];
    case OMH_SYMMETRIC:
        return table[10 * k];
    default:
        return OMH_E;
    }
}

/* What card q sends on, if it is good, from slot k of level d, where a card of this status sends and p reports `own`:
   only an arbitrary card tells p and q two words. */
static inline int32_t sent_on(const struct exchange *e, size_t q, size_t d, size_t k, uint8_t status, int32_t own)
{
    return status == OMH_ARBITRARY ? report(d, e->table[10 * k + q]) : own;
}

/* What card p receives at slot k of level d. */
static inline int32_t word_at(const struct exchange *e, size_t p, size_t d, size_t k)
{
    if (k == 0)
        return sent_by(e->statuses[e->t], e->x, e->table, 0, p);
    size_t q = last_relay(k);
    uint8_t status = e->statuses[q];
    int32_t word = status == OMH_GOOD ? report(d - 1, word_at(e, q, d - 1, above(k))) : OMH_E;
    return sent_by(status, word, e->table, k, p);
}

#endif
