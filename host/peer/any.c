/*
 * Any form: the same work in the fastest C that we know. Each live path is read and each vote decided over all its
 * reports; but a report is counted as it is gathered, as the own one's word or among the others, and those are searched
 * only if they are no fewer. The last level is read in the loop. No threads, no vector types, no flags for one machine.
 */
#define FORM any

#include "exchange.h"
#include "paths.h"
#include "words.h"

/* ---- the majority */

/* Whether the word at i is more than `half` of a list, counted from there on. */
static inline bool outnumbers(const int32_t *i, const int32_t *end, size_t half)
{
    size_t seen = 1;
    for (const int32_t *j = i + 1; seen <= half; j++) {
        if (j == end)
            return false;
        seen += *j == *i;
    }
    return true;
}

static inline int32_t majority(const int32_t *list, size_t list_len)
{
    if (list_len == 0)
        return OMH_E;
    int32_t first = list[0];
    size_t kept = 0, seen = 0;
    for (size_t i = 0; i < list_len; i++) {
        kept += list[i] != OMH_E;
        seen += list[i] == first;
    }
    size_t half = kept / 2;
    if (first != OMH_E && half < seen)
        return first;
    const int32_t *end = list + list_len;
    for (const int32_t *i = list + 1; i < end - half; i++)
        if (*i != OMH_E && *i != first && outnumbers(i, end, half))
            return *i;
    return OMH_E;
}

/* Whether a word reads at a level as other than E. */
static inline bool is_kept(size_t level, int32_t word)
{
    return ((uint32_t)word + (OMH_E - 1) <= 2 * OMH_E - 1 + (uint32_t)level) & (word != OMH_E);
}

/* The reports of a vote: how many are the own one's word, and how many others are not struck. */
struct tally {
    int32_t own;
    size_t seen, count;
};

/* Counts a report; `kept` is whether it is not struck. */
static inline void tell(struct tally *tally, int32_t *others, int32_t report, bool kept)
{
    if (report == tally->own)
        tally->seen++;
    else {
        others[tally->count] = report;
        tally->count += kept;
    }
}

static inline int32_t decided(const struct tally *tally, const int32_t *others)
{
    if (tally->seen > tally->count)
        return unwrap(tally->own);
    size_t half = (tally->seen + tally->count) / 2;
    const int32_t *end = others + tally->count;
    for (const int32_t *i = others; i < end - half; i++)
        if (outnumbers(i, end, half))
            return unwrap(*i);
    return OMH_E;
}

/* ---- a list of cards: four bits each, one more than the card's number, so that none is 0 */

typedef uint64_t relays;

static inline relays listed(cards set)
{
    relays list = 0;
    unsigned at = 0;
    EACH_CARD(q, set) {
        list |= (relays)(q + 1) << at;
        at += 4;
    }
    return list;
}

/* The list without the card whose bits begin at `at`. */
static inline relays cut(relays list, unsigned at)
{
    relays before = ((relays)1 << at) - 1;
    return (list & before) | (list >> 4 & ~before);
}

/* The slot of the path that the first card of a list relays next. */
static inline size_t longer_by(size_t slot, relays list)
{
    return 10 * slot + (list & 15);
}

/* ---- the vote */

/* The vote over the own report and, read at a level, the members' words in a row of ten; each of the ten is tested. */
static inline int32_t over_row(int32_t own, const int32_t *row, cards members, size_t level)
{
    int32_t others[OMH_CARDS];
    struct tally tally = {own, 1, 0};
    for (size_t q = 0; q < OMH_CARDS; q++)
        if (members & 1u << q)
            tell(&tally, others, row[q], is_kept(level, row[q]));
    return decided(&tally, others);
}

/* The vote at slot k of level d, a round before the last; over a list, since at so many slots a processor does not
   predict which of ten are members. */
static inline int32_t over_last(const int32_t *words, relays members, size_t d, size_t k)
{
    int32_t others[OMH_CARDS];
    struct tally tally = {report(d, words[k]), 1, 0};
    for (; members; members >>= 4) {
        int32_t word = words[longer_by(k, members)];
        tell(&tally, others, word, is_kept(d + 1, word));
    }
    return decided(&tally, others);
}

/* The same `left` rounds before the last, two or three. */
static int32_t over_members(const int32_t *words, relays members, size_t left, size_t d, size_t k)
{
    int32_t others[OMH_CARDS];
    struct tally tally = {report(d, words[k]), 1, 0};
    for (unsigned at = 0; members >> at; at += 4) {
        relays rest = cut(members, at);
        size_t slot = longer_by(k, members >> at);
        int32_t vote = left == 2 ? over_last(words, rest, d + 1, slot)
                                 : over_members(words, rest, left - 1, d + 1, slot);
        tell(&tally, others, vote, vote != OMH_E);
    }
    return decided(&tally, others);
}

static inline int32_t instance(const int32_t *words, cards members, size_t left, size_t d, size_t k)
{
    if (left == 0)
        return read_at(d, words[k]);
    if (left == 1)
        return over_row(report(d, words[k]), words + longer(k), members, d + 1);
    return over_members(words, listed(members), left, d, k);
}

/* ---- the book */

/* Puts the vote at a slot of the last level, the reading of its word, and counts it. */
static inline void refill_slot(const int32_t *words, int32_t *votes, struct tally *tally, int32_t *others,
                               size_t level, size_t slot)
{
    int32_t word = words[slot];
    if (word == tally->own) {
        votes[slot] = word;
        tally->seen++;
    } else {
        bool kept = is_kept(level, word);
        votes[slot] = kept ? word : OMH_E;
        others[tally->count] = word;
        tally->count += kept;
    }
}

static inline int32_t refill_last(const int32_t *words, int32_t *votes, relays members, size_t d, size_t k)
{
    int32_t others[OMH_CARDS];
    struct tally tally = {report(d, words[k]), 1, 0};
    for (; members; members >>= 4)
        refill_slot(words, votes, &tally, others, d + 1, longer_by(k, members));
    return votes[k] = decided(&tally, others);
}

static int32_t refill_over(const int32_t *words, int32_t *votes, relays members, size_t left, size_t d, size_t k)
{
    int32_t others[OMH_CARDS];
    struct tally tally = {report(d, words[k]), 1, 0};
    for (unsigned at = 0; members >> at; at += 4) {
        relays rest = cut(members, at);
        size_t slot = longer_by(k, members >> at);
        int32_t vote = left == 2 ? refill_last(words, votes, rest, d + 1, slot)
                                 : refill_over(words, votes, rest, left - 1, d + 1, slot);
        tell(&tally, others, vote, vote != OMH_E);
    }
    return votes[k] = decided(&tally, others);
}

static inline void refill_row(const int32_t *words, int32_t *votes, cards members)
{
    int32_t others[OMH_CARDS];
    struct tally tally = {report(0, words[0]), 1, 0};
    for (size_t q = 0; q < OMH_CARDS; q++)
        if (members & 1u << q)
            refill_slot(words, votes, &tally, others, 1, longer(0) + q);
    votes[0] = decided(&tally, others);
}

static inline void refill_from(const int32_t *words, int32_t *votes, cards members, size_t left)
{
    if (left == 0)
        votes[0] = read_at(0, words[0]);
    else if (left == 1)
        refill_row(words, votes, members);
    else
        refill_over(words, votes, listed(members), left, 0, 0);
}

/* ---- the bench */

/* The vote of card p at slot k of level d, where a card of this status sends, a round before the last. */
static inline int32_t dealt_last(const struct exchange *e, size_t p, cards members,
                                 size_t d, size_t k, uint8_t status, int32_t word)
{
    int32_t others[OMH_CARDS];
    struct tally tally = {report(d, sent_by(status, word, e->table, k, p)), 1, 0};
    EACH_CARD(q, members) {
        uint8_t sender = e->statuses[q];
        int32_t vote = sender == OMH_GOOD ? sent_on(e, q, d, k, status, tally.own)
                                          : read_at(d + 1, sent_by(sender, OMH_E, e->table, longer(k) + q, p));
        tell(&tally, others, vote, vote != OMH_E);
    }
    return decided(&tally, others);
}

static int32_t dealt_over(const struct exchange *e, size_t p, cards members,
                          size_t left, size_t d, size_t k, uint8_t status, int32_t word)
{
    int32_t others[OMH_CARDS];
    struct tally tally = {report(d, sent_by(status, word, e->table, k, p)), 1, 0};
    EACH_CARD(q, members) {
        cards rest = without(members, q);
        int32_t sends = sent_on(e, q, d, k, status, tally.own);
        int32_t vote = left == 2 ? dealt_last(e, p, rest, d + 1, longer(k) + q, e->statuses[q], sends)
                                 : dealt_over(e, p, rest, left - 1, d + 1, longer(k) + q, e->statuses[q], sends);
        tell(&tally, others, vote, vote != OMH_E);
    }
    return decided(&tally, others);
}

static inline int32_t vote_dealt(const struct exchange *e, size_t p, cards members,
                                 size_t left, size_t d, size_t k, uint8_t status, int32_t word)
{
    if (left == 0)
        return read_at(d, sent_by(status, word, e->table, k, p));
    if (left == 1)
        return dealt_last(e, p, members, d, k, status, word);
    return dealt_over(e, p, members, left, d, k, status, word);
}

/* Deals card p its words at slot k and under it, and puts the votes; answers the vote at k. */
static inline int32_t fill_last(const struct exchange *e, size_t p, int32_t *words, int32_t *votes, cards members,
                                size_t d, size_t k, uint8_t status, int32_t word)
{
    int32_t others[OMH_CARDS];
    words[k] = sent_by(status, word, e->table, k, p);
    struct tally tally = {report(d, words[k]), 1, 0};
    EACH_CARD(q, members) {
        size_t slot = longer(k) + q;
        uint8_t sender = e->statuses[q];
        words[slot] = sender == OMH_GOOD ? sent_on(e, q, d, k, status, tally.own)
                                         : sent_by(sender, OMH_E, e->table, slot, p);
        refill_slot(words, votes, &tally, others, d + 1, slot);
    }
    return votes[k] = decided(&tally, others);
}

static int32_t fill_over(const struct exchange *e, size_t p, int32_t *words, int32_t *votes, cards members,
                         size_t left, size_t d, size_t k, uint8_t status, int32_t word)
{
    int32_t others[OMH_CARDS];
    words[k] = sent_by(status, word, e->table, k, p);
    struct tally tally = {report(d, words[k]), 1, 0};
    EACH_CARD(q, members) {
        size_t slot = longer(k) + q;
        cards rest = without(members, q);
        int32_t sends = sent_on(e, q, d, k, status, tally.own);
        int32_t vote = left == 2 ? fill_last(e, p, words, votes, rest, d + 1, slot, e->statuses[q], sends)
                                 : fill_over(e, p, words, votes, rest, left - 1, d + 1, slot, e->statuses[q], sends);
        tell(&tally, others, vote, vote != OMH_E);
    }
    return votes[k] = decided(&tally, others);
}

static void fill_from(const struct exchange *e, size_t p, int32_t *words, int32_t *votes, cards members, size_t left)
{
    uint8_t status = e->statuses[e->t];
    if (left == 0)
        votes[0] = read_at(0, words[0] = sent_by(status, e->x, e->table, 0, p));
    else if (left == 1)
        fill_last(e, p, words, votes, members, 0, 0, status, e->x);
    else
        fill_over(e, p, words, votes, members, left, 0, 0, status, e->x);
}

#include "calls.h"
