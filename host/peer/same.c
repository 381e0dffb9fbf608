/*
 * The same form: document 01's forms, which the library follows too. The majority is nested counting loops, the outer
 * left with the winning word; an instance asks for the votes over its members, which asks an instance for each.
 */
#ifndef FORM
#define FORM same
#endif

#include "exchange.h"
#include "paths.h"
#include "words.h"

/*
 * The word that more than half of the `kept` words other than E are, else E; of a list that is not empty. A word is
 * counted from its first place on, so that the search ends where no more than half are left.
 */
static inline int32_t majority_of(const int32_t *list, size_t list_len, size_t kept)
{
    size_t half = kept / 2;
    const int32_t *end = list + list_len, *i = list;
    do {
        if (kept < list_len && *i == OMH_E)
            continue;
        size_t seen = 1;
        for (const int32_t *j = i + 1;; j++) {
            if (half < seen)
                return *i;
            if (j == end)
                break;
            seen += *j == *i;
        }
    } while (++i < end - half);
    return OMH_E;
}

static inline int32_t majority(const int32_t *list, size_t list_len)
{
    size_t kept = 0;
    for (size_t i = 0; i < list_len; i++)
        kept += list[i] != OMH_E;
    return list_len == 0 ? OMH_E : majority_of(list, list_len, kept);
}

/* ---- the vote: reports are struck as they are gathered; the own one, wrapped, is not E */

static int32_t over_members(const int32_t *words, cards members, size_t left, size_t d, size_t k);

/* The vote at slot k of level d, `left` rounds before the last, where `members` may still relay. */
static inline int32_t instance(const int32_t *words, cards members, size_t left, size_t d, size_t k)
{
    if (left == 0)
        return read_at(d, words[k]);
    return over_members(words, members, left, d, k);
}

/* The same with a round left: over the own report and the votes of the paths one relay longer. */
static int32_t over_members(const int32_t *words, cards members, size_t left, size_t d, size_t k)
{
    int32_t reports[OMH_CARDS];
    size_t kept = 1;
    reports[0] = report(d, words[k]);
    EACH_CARD(q, members) {
        int32_t vote = instance(words, without(members, q), left - 1, d + 1, longer(k) + q);
        reports[kept] = vote;
        kept += vote != OMH_E;
    }
    return unwrap(majority_of(reports, kept, kept));
}

/* ---- the book */

/* The vote over the own report and, read at a level, the members' votes in a row of ten; each of the ten is tested, as
   that is faster in a loop that calls nothing. */
static inline int32_t over_row(int32_t own, const int32_t *row, cards members, size_t level)
{
    int32_t reports[OMH_CARDS];
    size_t kept = 1;
    reports[0] = own;
    for (size_t q = 0; q < OMH_CARDS; q++)
        if (has(members, q)) {
            int32_t vote = read_at(level, row[q]);
            reports[kept] = vote;
            kept += vote != OMH_E;
        }
    return unwrap(majority_of(reports, kept, kept));
}

/* The vote at slot k of level d with no round left for the longer paths: their readings are their votes. */
static inline int32_t refill_last(const int32_t *words, int32_t *votes, cards members, size_t d, size_t k)
{
    int32_t reports[OMH_CARDS];
    size_t kept = 1;
    reports[0] = report(d, words[k]);
    EACH_CARD(q, members) {
        int32_t vote = read_at(d + 1, words[longer(k) + q]);
        votes[longer(k) + q] = vote;
        reports[kept] = vote;
        kept += vote != OMH_E;
    }
    return votes[k] = unwrap(majority_of(reports, kept, kept));
}

/* The same with more rounds left; every vote goes to its place. */
static int32_t refill_over(const int32_t *words, int32_t *votes, cards members, size_t left, size_t d, size_t k)
{
    int32_t reports[OMH_CARDS];
    size_t kept = 1;
    reports[0] = report(d, words[k]);
    EACH_CARD(q, members) {
        cards rest = without(members, q);
        int32_t vote = left == 2 ? refill_last(words, votes, rest, d + 1, longer(k) + q)
                                 : refill_over(words, votes, rest, left - 1, d + 1, longer(k) + q);
        reports[kept] = vote;
        kept += vote != OMH_E;
    }
    return votes[k] = unwrap(majority_of(reports, kept, kept));
}

static inline void refill_from(const int32_t *words, int32_t *votes, cards members, size_t left)
{
    if (left == 0)
        votes[0] = read_at(0, words[0]);
    else if (left == 1)
        refill_last(words, votes, members, 0, 0);
    else
        refill_over(words, votes, members, left, 0, 0);
}

/* ---- the bench */

static int32_t over_dealt(const struct exchange *e, size_t p, cards members,
                          size_t left, size_t d, size_t k, uint8_t status, int32_t word);

/* The vote of card p at slot k of level d, where a card of this status sends, `word` if it is good. */
static inline int32_t vote_dealt(const struct exchange *e, size_t p, cards members,
                                 size_t left, size_t d, size_t k, uint8_t status, int32_t word)
{
    if (left == 0)
        return read_at(d, sent_by(status, word, e->table, k, p));
    return over_dealt(e, p, members, left, d, k, status, word);
}

static int32_t over_dealt(const struct exchange *e, size_t p, cards members,
                          size_t left, size_t d, size_t k, uint8_t status, int32_t word)
{
    int32_t reports[OMH_CARDS];
    size_t kept = 1;
    reports[0] = report(d, sent_by(status, word, e->table, k, p));
    EACH_CARD(q, members) {
        uint8_t sender = e->statuses[q];
        int32_t sends = sender == OMH_GOOD ? sent_on(e, q, d, k, status, reports[0]) : OMH_E;
        int32_t vote = vote_dealt(e, p, without(members, q), left - 1, d + 1, longer(k) + q, sender, sends);
        reports[kept] = vote;
        kept += vote != OMH_E;
    }
    return unwrap(majority_of(reports, kept, kept));
}

/* Deals card p its words at slot k of level d, where a card of this status sends, and at the live slots under it. */
static void deal(const struct exchange *e, size_t p, int32_t *words, cards members,
                 size_t left, size_t d, size_t k, uint8_t status, int32_t word)
{
    words[k] = sent_by(status, word, e->table, k, p);
    if (left == 0)
        return;
    int32_t own = report(d, words[k]);
    EACH_CARD(q, members) {
        size_t slot = longer(k) + q;
        uint8_t sender = e->statuses[q];
        int32_t sends = sender == OMH_GOOD ? sent_on(e, q, d, k, status, own) : OMH_E;
        if (left == 1)
            words[slot] = sent_by(sender, sends, e->table, slot, p);
        else
            deal(e, p, words, without(members, q), left - 1, d + 1, slot, sender, sends);
    }
}

static void fill_from(const struct exchange *e, size_t p, int32_t *words, int32_t *votes, cards members, size_t left)
{
    deal(e, p, words, members, left, 0, 0, e->statuses[e->t], e->x);
    refill_from(words, votes, members, left);
}

#include "calls.h"
