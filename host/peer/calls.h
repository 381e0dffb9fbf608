/* The calls of omh.h in one form, which is the file that includes this: their checks, frames and the listing. */
#ifndef PEER_CALLS_H
#define PEER_CALLS_H

#include <string.h>

#include "bytes.h"
#include "peer.h"

#define PASTED(form, name) form##_##name
#define CALLED(form, name) PASTED(form, name)
#define PEER(name) CALLED(FORM, name)

/* ---- refusals */

static inline uint8_t sender_refused(size_t n, size_t m, size_t t)
{
    if (n < 1 || n > OMH_CARDS)
        return OMH_REFUSED_CARDS;
    if (m > OMH_ROUNDS || m >= n)
        return OMH_REFUSED_ROUNDS;
    if (t >= n)
        return OMH_REFUSED_SENDER;
    return 0;
}

/* 1, 2, 3, 4, 5 where a length is wrong */
static inline uint8_t book_refused(size_t n, size_t m, size_t t, size_t p, bool wrong)
{
    uint8_t no = sender_refused(n, m, t);
    if (no)
        return no;
    if (p >= n)
        return OMH_REFUSED_OWN;
    return wrong ? OMH_REFUSED_LONG : 0;
}

/* 7, 6 */
static inline uint8_t values_refused(const struct exchange *e)
{
    for (size_t q = 0; q < OMH_CARDS; q++)
        if (e->statuses[q] > (q < e->n ? OMH_MANIFEST : OMH_GOOD))
            return OMH_REFUSED_STATUS;
    return is_ordinary(e->x) ? 0 : OMH_REFUSED_VALUE;
}

/* 1, 2, 3, 5 where a length is wrong, 7, 6 */
static inline uint8_t exchange_refused(const struct exchange *e, bool wrong)
{
    uint8_t no = sender_refused(e->n, e->m, e->t);
    if (no)
        return no;
    return wrong ? OMH_REFUSED_LONG : values_refused(e);
}

/* The same with 4 for card p. */
static inline uint8_t card_refused(const struct exchange *e, size_t p, bool wrong)
{
    uint8_t no = book_refused(e->n, e->m, e->t, p, wrong);
    return no ? no : values_refused(e);
}

static inline bool is_well_formed(const uint8_t *frame)
{
    uint8_t level = frame[8];
    if (frame[7] > 9 || frame[12] > 9 || level > OMH_ROUNDS)
        return false;
    for (uint8_t i = 0; i < OMH_ROUNDS; i++)
        if (i < level ? frame[9 + i] > 9 : frame[9 + i] != OMH_NO_RELAY)
            return false;
    return true;
}

/* 9, 10, 11, 14, 12, 13, 15 */
static inline uint8_t frame_refused(size_t t, size_t p, uint16_t current, const uint8_t *frame, size_t frame_len)
{
    if (frame_len != OMH_FRAME)
        return OMH_REFUSED_SIZE;
    if (memcmp(frame, "OMH", 3) != 0)
        return OMH_REFUSED_MARK;
    if (get16(frame + 3) != 1)
        return OMH_REFUSED_VERSION;
    if (!is_well_formed(frame))
        return OMH_REFUSED_FORM;
    uint16_t age = current - get16(frame + 5);
    if (age != 0)
        return age < 32768 ? OMH_REFUSED_OLD : OMH_REFUSED_AHEAD;
    if (frame[7] != t || frame[12] != p)
        return OMH_REFUSED_FOREIGN;
    return 0;
}

static inline size_t frame_slot(const uint8_t *frame)
{
    size_t slot = 0;
    for (uint8_t i = 0; i < frame[8]; i++)
        slot = longer(slot) + frame[9 + i];
    return slot;
}

/* ---- words and the vote */

int32_t PEER(majority)(const int32_t *list, size_t list_len)
{
    return majority(list, list_len);
}

uint8_t PEER(vote_at)(size_t n, size_t m, size_t t, size_t p,
                      const int32_t *words, size_t words_len,
                      size_t slot, int32_t *vote)
{
    uint8_t no = book_refused(n, m, t, p, words_len != OMH_SLOTS);
    if (no)
        return no;
    cards members = relaying(n, t, p);
    if (!is_live(m, slot, &members))
        return OMH_REFUSED_PATH;
    size_t d = level_of(slot);
    *vote = instance(words, members, t == p ? 0 : m - d, d, slot);
    return 0;
}

/* ---- the book, its words and votes in two lists, or of sender t in the long list */

static inline int32_t *words_of(int32_t *books, size_t t)
{
    return books + OMH_BOOK * t;
}

static inline int32_t *votes_of(int32_t *books, size_t t)
{
    return words_of(books, t) + OMH_SLOTS;
}

static inline void open_list(int32_t *list, size_t list_len)
{
#pragma GCC unroll 16
    for (size_t i = 0; i < list_len; i++)
        list[i] = OMH_E;
}

/* Re-makes the votes at a slot of level d, `left` rounds before the last, and at each slot above it. */
static inline void walk_up(const int32_t *words, int32_t *votes, cards members, size_t left, size_t d, size_t slot)
{
    size_t k = slot;
    votes[k] = left == 0 ? read_at(d, words[k]) : over_row(report(d, words[k]), votes + longer(k), members, d + 1);
    while (k > 0) {
        members = with(members, last_relay(k));
        k = above(k);
        d--;
        votes[k] = over_row(report(d, words[k]), votes + longer(k), members, d + 1);
    }
}

/* Document 02's Q-2: the same word again leaves what a slot holds, and another is stored over E alone. */
static inline void take(int32_t *held, int32_t word)
{
    if (*held != word)
        *held = *held == OMH_E ? word : OMH_CONTRADICTED;
}

/* Enters a word at a slot, or refuses it with 8. */
static uint8_t enter(size_t n, size_t m, size_t t, size_t p,
                     int32_t *words, int32_t *votes, size_t slot, int32_t word)
{
    cards members = relaying(n, t, p);
    if (!is_live(m, slot, &members))
        return OMH_REFUSED_PATH;
    take(&words[slot], word);
    size_t d = level_of(slot);
    walk_up(words, votes, members, t == p ? 0 : m - d, d, slot);
    return 0;
}

uint8_t PEER(open)(size_t n, size_t m, size_t t, size_t p,
                   int32_t *words, size_t words_len,
                   int32_t *votes, size_t votes_len)
{
    uint8_t no = book_refused(n, m, t, p, words_len != OMH_SLOTS || votes_len != OMH_SLOTS);
    if (no)
        return no;
    open_list(words, OMH_SLOTS);
    open_list(votes, OMH_SLOTS);
    return 0;
}

uint8_t PEER(enter)(size_t n, size_t m, size_t t, size_t p,
                    int32_t *words, size_t words_len,
                    int32_t *votes, size_t votes_len,
                    size_t slot, int32_t word)
{
    uint8_t no = book_refused(n, m, t, p, words_len != OMH_SLOTS || votes_len != OMH_SLOTS);
    return no ? no : enter(n, m, t, p, words, votes, slot, word);
}

uint8_t PEER(enter_frame)(size_t n, size_t m, size_t t, size_t p,
                          int32_t *words, size_t words_len,
                          int32_t *votes, size_t votes_len,
                          uint16_t current,
                          const uint8_t *frame, size_t frame_len)
{
    uint8_t no = book_refused(n, m, t, p, words_len != OMH_SLOTS || votes_len != OMH_SLOTS);
    if (no)
        return no;
    no = frame_refused(t, p, current, frame, frame_len);
    return no ? no : enter(n, m, t, p, words, votes, frame_slot(frame), get32(frame + 13));
}

uint8_t PEER(refill)(size_t n, size_t m, size_t t, size_t p,
                     const int32_t *words, size_t words_len,
                     int32_t *votes, size_t votes_len)
{
    uint8_t no = book_refused(n, m, t, p, words_len != OMH_SLOTS || votes_len != OMH_SLOTS);
    if (no)
        return no;
    refill_from(words, votes, relaying(n, t, p), rounds(m, t, p));
    return 0;
}

uint8_t PEER(books_open)(size_t n, size_t m, size_t t, size_t p,
                         int32_t *books, size_t books_len)
{
    uint8_t no = book_refused(n, m, t, p, books_len != OMH_BOOKS);
    if (no)
        return no;
    open_list(words_of(books, t), OMH_BOOK);
    return 0;
}

uint8_t PEER(books_enter)(size_t n, size_t m, size_t t, size_t p,
                          int32_t *books, size_t books_len,
                          size_t slot, int32_t word)
{
    uint8_t no = book_refused(n, m, t, p, books_len != OMH_BOOKS);
    return no ? no : enter(n, m, t, p, words_of(books, t), votes_of(books, t), slot, word);
}

uint8_t PEER(books_enter_frame)(size_t n, size_t m, size_t t, size_t p,
                                int32_t *books, size_t books_len,
                                uint16_t current,
                                const uint8_t *frame, size_t frame_len)
{
    uint8_t no = book_refused(n, m, t, p, books_len != OMH_BOOKS);
    if (no)
        return no;
    no = frame_refused(t, p, current, frame, frame_len);
    if (no)
        return no;
    return enter(n, m, t, p, words_of(books, t), votes_of(books, t), frame_slot(frame), get32(frame + 13));
}

uint8_t PEER(books_refill)(size_t n, size_t m, size_t t, size_t p,
                           int32_t *books, size_t books_len)
{
    uint8_t no = book_refused(n, m, t, p, books_len != OMH_BOOKS);
    if (no)
        return no;
    refill_from(words_of(books, t), votes_of(books, t), relaying(n, t, p), rounds(m, t, p));
    return 0;
}

/* ---- the bench and the outcome */

static inline int32_t answer_of(const struct exchange *e, size_t p)
{
    return vote_dealt(e, p, relaying(e->n, e->t, p), rounds(e->m, e->t, p), 0, 0, e->statuses[e->t], e->x);
}

static void answer_all(const struct exchange *e, int32_t *answers)
{
    for (size_t p = 0; p < e->n; p++)
        answers[p] = answer_of(e, p);
}

uint8_t PEER(word_for)(size_t n, size_t m, size_t t, int32_t x,
                       const uint8_t *statuses, size_t statuses_len,
                       const int32_t *table, size_t table_len,
                       size_t p, size_t slot, int32_t *word)
{
    struct exchange e = {n, m, t, x, statuses, table};
    uint8_t no = card_refused(&e, p, statuses_len != OMH_CARDS || table_len != OMH_TABLE);
    if (no)
        return no;
    cards members = relaying(n, t, p);
    if (!is_live(m, slot, &members))
        return OMH_REFUSED_PATH;
    *word = word_at(&e, p, level_of(slot), slot);
    return 0;
}

uint8_t PEER(fill)(size_t n, size_t m, size_t t, int32_t x,
                   const uint8_t *statuses, size_t statuses_len,
                   const int32_t *table, size_t table_len, size_t p,
                   int32_t *words, size_t words_len,
                   int32_t *votes, size_t votes_len)
{
    struct exchange e = {n, m, t, x, statuses, table};
    uint8_t no = card_refused(&e, p, statuses_len != OMH_CARDS || table_len != OMH_TABLE
                                         || words_len != OMH_SLOTS || votes_len != OMH_SLOTS);
    if (no == 0)
        fill_from(&e, p, words, votes, relaying(n, t, p), rounds(m, t, p));
    return no;
}

uint8_t PEER(answer_for)(size_t n, size_t m, size_t t, int32_t x,
                         const uint8_t *statuses, size_t statuses_len,
                         const int32_t *table, size_t table_len,
                         size_t p, int32_t *answer)
{
    struct exchange e = {n, m, t, x, statuses, table};
    uint8_t no = card_refused(&e, p, statuses_len != OMH_CARDS || table_len != OMH_TABLE);
    if (no == 0)
        *answer = answer_of(&e, p);
    return no;
}

uint8_t PEER(all_answers)(size_t n, size_t m, size_t t, int32_t x,
                          const uint8_t *statuses, size_t statuses_len,
                          const int32_t *table, size_t table_len,
                          int32_t *answers, size_t answers_len)
{
    struct exchange e = {n, m, t, x, statuses, table};
    uint8_t no = exchange_refused(&e, statuses_len != OMH_CARDS || table_len != OMH_TABLE || answers_len != OMH_CARDS);
    if (no == 0)
        answer_all(&e, answers);
    return no;
}

uint8_t PEER(outcome_start)(int32_t *outcome, size_t outcome_len)
{
    if (outcome_len != OMH_OUTCOME)
        return OMH_REFUSED_LONG;
    open_list(outcome, OMH_OUTCOME);
    return 0;
}

uint8_t PEER(outcome_set)(size_t n, size_t m, size_t t, int32_t x,
                          const uint8_t *statuses, size_t statuses_len,
                          const int32_t *table, size_t table_len,
                          int32_t *outcome, size_t outcome_len)
{
    struct exchange e = {n, m, t, x, statuses, table};
    uint8_t no = exchange_refused(&e, statuses_len != OMH_CARDS || table_len != OMH_TABLE || outcome_len != OMH_OUTCOME);
    if (no)
        return no;
    int32_t *row = outcome + OMH_CARDS * t;
    answer_all(&e, row);
    open_list(row + n, OMH_CARDS - n);
    return 0;
}

/* ---- the listing */

enum { HEAD = 24, EXCEPTION = 7, MOST_EXCEPTIONS = 64 };

static uint8_t *put_text(uint8_t *at, const char *text)
{
    while (*text)
        *at++ = (uint8_t)*text++;
    return at;
}

static uint8_t *put_number(uint8_t *at, int32_t number)
{
    uint8_t digits[10];
    size_t count = 0;
    uint32_t rest = number < 0 ? -(uint32_t)number : (uint32_t)number;
    if (number < 0)
        *at++ = '-';
    do
        digits[count++] = (uint8_t)('0' + rest % 10);
    while ((rest /= 10) > 0);
    while (count > 0)
        *at++ = digits[--count];
    return at;
}

/* 9, 10, 11, 16, 9, 1, 2, 3, 7, 6 */
static uint8_t head_refused(const uint8_t *file, size_t file_len)
{
    if (file_len < HEAD)
        return OMH_REFUSED_SIZE;
    if (memcmp(file, "OMX", 3) != 0)
        return OMH_REFUSED_MARK;
    if (get16(file + 3) != 1)
        return OMH_REFUSED_VERSION;
    size_t count = get16(file + 22);
    if (count > MOST_EXCEPTIONS)
        return OMH_REFUSED_EXCEPTION;
    return file_len != HEAD + EXCEPTION * count ? OMH_REFUSED_SIZE : 0;
}

/* The table of a file's exceptions, or refusal 16. */
static uint8_t make_table(const uint8_t *file, int32_t *table)
{
    open_list(table, OMH_TABLE);
    const uint8_t *at = file + HEAD;
    for (size_t count = get16(file + 22); count > 0; count--, at += EXCEPTION) {
        size_t slot = get16(at), receiver = at[2];
        if (slot >= OMH_SLOTS || receiver >= OMH_CARDS)
            return OMH_REFUSED_EXCEPTION;
        table[10 * slot + receiver] = get32(at + 3);
    }
    return 0;
}

static bool bound_holds(const struct exchange *e)
{
    size_t count[OMH_MANIFEST + 1] = {0};
    for (size_t q = 0; q < e->n; q++)
        count[e->statuses[q]]++;
    size_t a = count[OMH_ARBITRARY];
    return e->n > 2 * a + 2 * count[OMH_SYMMETRIC] + count[OMH_MANIFEST] + e->m && a <= e->m;
}

static uint8_t *put_outcome(uint8_t *at, const struct exchange *e)
{
    int32_t answers[OMH_CARDS];
    answer_all(e, answers);
    for (size_t p = 0; p < e->n; p++) {
        *at++ = '0' + (uint8_t)p;
        *at++ = ' ';
        *at++ = '0' + e->statuses[p];
        *at++ = ' ';
        at = answers[p] == OMH_E ? put_text(at, "-") : put_number(at, answers[p]);
        *at++ = '\n';
    }
    return put_text(at, bound_holds(e) ? "bound held\n" : "bound not held\n");
}

size_t PEER(list)(const uint8_t *file, size_t file_len, uint8_t text[OMH_TEXT])
{
    int32_t table[OMH_TABLE];
    struct exchange e;
    uint8_t no = head_refused(file, file_len);
    if (no == 0) {
        e = (struct exchange){file[5], file[6], file[7], get32(file + 18), file + 8, table};
        no = exchange_refused(&e, false);
    }
    if (no == 0)
        no = make_table(file, table);
    uint8_t *end = no == 0 ? put_outcome(text, &e) : put_text(put_number(put_text(text, "refused "), no), "\n");
    return (size_t)(end - text);
}

#endif
