/* Document 01, 'Settings and paths'. A set of cards is ten bools, or a mask, a bit for each card. */
#ifndef PEER_PATHS_H
#define PEER_PATHS_H

#include <stdbool.h>

#include "../omh.h"

#ifdef TEN_BOOLS

typedef struct { bool in[OMH_CARDS]; } cards;

static inline bool has(cards set, size_t card)
{
    return set.in[card];
}

static inline cards with(cards set, size_t card)
{
    set.in[card] = true;
    return set;
}

static inline cards without(cards set, size_t card)
{
    set.in[card] = false;
    return set;
}

/* The cards below n. */
static inline cards all_cards(size_t n)
{
    cards set;
    for (size_t q = 0; q < OMH_CARDS; q++)
        set.in[q] = q < n;
    return set;
}

/* For each card of a set, the least first. */
#define EACH_CARD(q, set)                      \
    for (size_t q = 0; q < OMH_CARDS; q++)     \
        if (!has(set, q)) {                    \
        } else

#else

typedef unsigned cards;

static inline bool has(cards set, size_t card)
{
    return set & 1u << card;
}

static inline cards with(cards set, size_t card)
{
    return set | 1u << card;
}

static inline cards without(cards set, size_t card)
{
    return set & ~(1u << card);
}

static inline cards all_cards(size_t n)
{
    return (1u << n) - 1;
}

#define EACH_CARD(q, set) \
    for (cards rest_ = (set), q; rest_ && (q = (cards)__builtin_ctz(rest_), true); rest_ &= rest_ - 1)

#endif

/* The cards that may relay to p what t sends. */
static inline cards relaying(size_t n, size_t t, size_t p)
{
    return t == p ? all_cards(0) : without(without(all_cards(n), t), p);
}

/* The rounds that are left at slot 0. */
static inline size_t rounds(size_t m, size_t t, size_t p)
{
    return t == p ? 0 : m;
}

/* The slot of the path that card 0 relays next; card q's is q further. */
static inline size_t longer(size_t slot)
{
    return 10 * slot + 1;
}

static inline size_t above(size_t slot)
{
    return (slot - 1) / 10;
}

static inline size_t last_relay(size_t slot)
{
    return (slot - 1) % 10;
}

static inline size_t level_of(size_t slot)
{
    return (size_t)(slot > 0) + (size_t)(slot > 10) + (size_t)(slot > 110);
}

/* Whether a slot is live where `members` may relay; takes the relays of a live one out of them. */
static inline bool is_live(size_t m, size_t slot, cards *members)
{
    if (slot >= OMH_SLOTS || level_of(slot) > m)
        return false;
    cards rest = *members;
    for (size_t k = slot; k > 0; k = above(k)) {
        if (!has(rest, last_relay(k)))
            return false;
        rest = without(rest, last_relay(k));
    }
    *members = rest;
    return true;
}

#endif
