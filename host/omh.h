/*
 * What C sees of Domewhistle: the functions of the archive libomh.a. Each is
 * proved: it takes any numbers and any content of the lent memory, ends, and
 * does what stands here and, with every rule, in docs/FORMATS.md.
 *
 * Settings: n cards, 1 to 10, numbered from 0; m rounds of relay, 0 to 3 and
 * below n; the sender t and the own card p, both below n. A word comes to p on
 * a path: from the sender, by up to m relays. The path's level is the number
 * of its relays. Its slot is 0 at level 0, and 10 k + 1 + q where the relay q
 * makes the path at slot k longer. A slot is live for p if it has a path of
 * level at most m whose relays are below n, all different, and neither t nor
 * p; where p is t only slot 0 is live.
 *
 * A list is a pointer and its length, counted in elements; a place for one
 * word or slot, the eight fields and the text are pointers alone. None is null,
 * each has the alignment of its C type and needs no other, the memory behind
 * it has its length, and nothing that a call may write overlaps anything else
 * of the call or is used by another thread meanwhile. The stack has the
 * call's OMH_STACK_ bytes. That is all a caller owes. The archive asks the C
 * library for memcpy and memset, and for nothing else.
 *
 * No function keeps anything between calls: any number of threads may call at
 * once, on different lists.
 *
 * Unless said otherwise an answer is 0, or a refusal's number, OMH_REFUSED_;
 * after a refusal no lent memory differs. The numbers that a function may give
 * stand beside it in the order of its checks, and the first that applies is
 * given.
 */
#ifndef OMH_H
#define OMH_H

#include <stddef.h>
#include <stdint.h>

#ifdef __cplusplus
extern "C" {
#endif

/* The version of header and archive, stated here alone. */
#define OMH_VERSION "2.0.0"

enum {
    OMH_CARDS = 10,     /* the greatest number of cards */
    OMH_ROUNDS = 3,     /* the greatest number of rounds of relay */
    OMH_SLOTS = 1111,   /* the length of a book's lists */
    OMH_BOOK = 2222,    /* a book's words and votes in the long list */
    OMH_BOOKS = 22220,  /* the long list: a book for each of the ten cards as sender; that of t from OMH_BOOK * t on */
    OMH_TABLE = 11110,  /* the length of the bench's table: slot k, receiver p at 10 k + p */
    OMH_OUTCOME = 100,  /* the outcome: sender t's row from 10 t on, card p's word at 10 t + p */
    OMH_FRAME = 17,     /* a frame's bytes */
    OMH_FIELDS = 8,     /* a frame's fields */
    OMH_TEXT = 176      /* the longest text of a listing fits */
};

/* Words from -999,999,999 to 999,999,999 are ordinary. OMH_E is missing, and
   OMH_E + w, for w from 1 to 3, missing and wrapped w times. Every other
   number is bad. */
#define OMH_E INT32_C(1000000000)

/* What a slot holds after two different words on its path: a bad word, which
   reads as OMH_E. */
#define OMH_CONTRADICTED INT32_C(1000000009)

/* A card's status on the bench; 0 from card n up. */
enum {
    OMH_GOOD = 0,       /* sends its value, as a relay what it received, read and wrapped */
    OMH_ARBITRARY = 1,  /* sends each receiver the table's word for that receiver */
    OMH_SYMMETRIC = 2,  /* sends everyone the table's word for receiver 0 */
    OMH_MANIFEST = 3    /* sends nothing: everyone receives OMH_E */
};

/* The byte of a frame for a relay that its level has not. */
enum { OMH_NO_RELAY = 255 };

/* Stack: no call of the function takes more bytes beyond its caller's frame,
   whatever it is given, in the archive for x86-64 and in the one for Arm. What
   the C library's memcpy and memset take is not counted, nor what a dynamic
   linker takes that looks for them at their first call. */
enum {
    OMH_STACK_READ_AT = 512,
    OMH_STACK_WRAP = 512,
    OMH_STACK_UNWRAP = 512,
    OMH_STACK_MAJORITY = 512,
    OMH_STACK_SETTINGS_REFUSED = 512,
    OMH_STACK_SLOT_OF = 512,
    OMH_STACK_SLOT_ABOVE = 512,
    OMH_STACK_IS_LIVE = 512,
    OMH_STACK_VOTE_AT = 1024,
    OMH_STACK_OPEN = 512,
    OMH_STACK_ENTER = 1024,
    OMH_STACK_REFILL = 2048,
    OMH_STACK_HELD_ANSWER = 512,
    OMH_STACK_BOOKS_OPEN = 512,
    OMH_STACK_BOOKS_ENTER = 1024,
    OMH_STACK_BOOKS_REFILL = 2048,
    OMH_STACK_NEXT_EXCHANGE = 512,
    OMH_STACK_AGE = 512,
    OMH_STACK_AGE_CLASS = 512,
    OMH_STACK_READ_FRAME = 512,
    OMH_STACK_WRITE_FRAME = 512,
    OMH_STACK_ENTER_FRAME = 1024,
    OMH_STACK_BOOKS_ENTER_FRAME = 1024,
    OMH_STACK_WORD_FOR = 1024,
    OMH_STACK_ANSWER_FOR = 2048,
    OMH_STACK_ALL_ANSWERS = 2048,
    OMH_STACK_FILL = 2048,
    OMH_STACK_BOUND = 512,
    OMH_STACK_OUTCOME_START = 512,
    OMH_STACK_OUTCOME_SET = 2048,
    OMH_STACK_LIST = 49152,             /* a table among them */
    OMH_STACK_REFUSED = 1024            /* omh_list, for a file that is refused */
};

/* Refusal numbers, each with when it is given. */
enum {
    OMH_REFUSED_CARDS = 1,      /* n is not 1 to 10 */
    OMH_REFUSED_ROUNDS = 2,     /* m is over 3 or not below n */
    OMH_REFUSED_SENDER = 3,     /* t is not below n */
    OMH_REFUSED_OWN = 4,        /* p is not below n */
    OMH_REFUSED_LONG = 5,       /* a lent list or the buffer for a frame has another length */
    OMH_REFUSED_VALUE = 6,      /* the sender's value x is not ordinary */
    OMH_REFUSED_STATUS = 7,     /* a status byte is over 3, or not 0 from card n up */
    OMH_REFUSED_PATH = 8,       /* the path or slot is not live for p; there is no such path, or no slot above */
    OMH_REFUSED_SIZE = 9,       /* a frame is not 17 bytes; a listing file is not 24 bytes and 7 to an exception */
    OMH_REFUSED_MARK = 10,      /* a frame does not begin with OMH, a listing file not with OMX */
    OMH_REFUSED_VERSION = 11,   /* the version is not 1 */
    OMH_REFUSED_OLD = 12,       /* the frame is old: its age is 1 to 32,767 */
    OMH_REFUSED_AHEAD = 13,     /* the frame is ahead: its age is 32,768 to 65,535 */
    OMH_REFUSED_FORM = 14,      /* sender, receiver or used relay over 9, level over 3, or an unused relay not 255 */
    OMH_REFUSED_FOREIGN = 15,   /* the frame's sender is not t, or its receiver not p */
    OMH_REFUSED_EXCEPTION = 16  /* listing file: over 64 exceptions, a slot over 1,110 or a receiver over 9 */
};

/* A frame's fields, by their place in the list that omh_read_frame fills. */
enum {
    OMH_EXCHANGE = 0,
    OMH_SENDER = 1,
    OMH_LEVEL = 2,
    OMH_Q1 = 3,
    OMH_Q2 = 4,
    OMH_Q3 = 5,
    OMH_RECEIVER = 6,
    OMH_WORD = 7
};

/* ---- words: these answer a word, and refuse nothing */

/* The word as it reads at a level: itself if it is ordinary, OMH_E, or wrapped
   no more often than the level; else OMH_E. */
int32_t omh_read_at(size_t level, int32_t word);

/* A missing word wrapped once more, OMH_E for the fourth time and for a bad
   word; an ordinary word is itself. */
int32_t omh_wrap(int32_t word);

/* A missing word with one wrap less; OMH_E for OMH_E and for a bad word; an
   ordinary word is itself. */
int32_t omh_unwrap(int32_t word);

/* The word that has more than half of the list once OMH_E is struck from it,
   else OMH_E. */
int32_t omh_majority(const int32_t *list, size_t list_len);

/* ---- settings, paths and slots */

/* The refusal number of settings; 0 for good ones. 1, 2, 3, 4 */
uint8_t omh_settings_refused(size_t n, size_t m, size_t t, size_t p);

/* The slot of a path, by its level and its relays in the order of a frame's
   fields; relays that the level does not use are not looked at. 8 */
uint8_t omh_slot_of(size_t level, size_t q1, size_t q2, size_t q3,
                    size_t *slot);

/* The slot above a slot over 0. 8 */
uint8_t omh_slot_above(size_t slot, size_t *above);

/* Whether a slot is live for card p: 1 or 0 in the place, 0 for a number that
   is no slot. 1, 2, 3, 4 */
uint8_t omh_is_live(size_t n, size_t m, size_t t, size_t p,
                    size_t slot, int32_t *live);

/* ---- the vote: 1, 2, 3, 4, 5, 8 */

/* At a slot, from the words of a book alone. */
uint8_t omh_vote_at(size_t n, size_t m, size_t t, size_t p,
                    const int32_t *words, size_t words_len,
                    size_t slot, int32_t *vote);

/* ---- the book: two lists of OMH_SLOTS words, those received and the votes.
   A slot that holds OMH_E takes any word, as it is. The same word again leaves
   the slot; a different one, OMH_E among them, makes it OMH_CONTRADICTED, which
   stays until the book is opened anew or filled. */

/* Sets every word and every vote, live or not, to OMH_E. 1, 2, 3, 4, 5 */
uint8_t omh_open(size_t n, size_t m, size_t t, size_t p,
                 int32_t *words, size_t words_len,
                 int32_t *votes, size_t votes_len);

/* Gives a slot a word, and makes the votes there and at each slot above again,
   also where the slot stays as it was. 1, 2, 3, 4, 5, 8 */
uint8_t omh_enter(size_t n, size_t m, size_t t, size_t p,
                  int32_t *words, size_t words_len,
                  int32_t *votes, size_t votes_len,
                  size_t slot, int32_t word);

/* Makes every live vote again from the words, which stay. 1, 2, 3, 4, 5 */
uint8_t omh_refill(size_t n, size_t m, size_t t, size_t p,
                   const int32_t *words, size_t words_len,
                   int32_t *votes, size_t votes_len);

/* The vote at slot 0 as it stands: what the card answers. 5 */
uint8_t omh_held_answer(const int32_t *words, size_t words_len,
                        const int32_t *votes, size_t votes_len,
                        int32_t *answer);

/* ---- the long list: a book for each sender, one after the other, its 1,111
   words and then its 1,111 votes; the held answer of t is omh_held_answer over
   the two lists from OMH_BOOK * t on. No call touches another book than t's. */

/* Opens the book of t. 1, 2, 3, 4, 5 */
uint8_t omh_books_open(size_t n, size_t m, size_t t, size_t p,
                       int32_t *books, size_t books_len);

/* Enters a word in the book of t, as omh_enter does. 1, 2, 3, 4, 5, 8 */
uint8_t omh_books_enter(size_t n, size_t m, size_t t, size_t p,
                        int32_t *books, size_t books_len,
                        size_t slot, int32_t word);

/* Refills the book of t. 1, 2, 3, 4, 5 */
uint8_t omh_books_refill(size_t n, size_t m, size_t t, size_t p,
                         int32_t *books, size_t books_len);

/* ---- frames */

/* The number after x; 0 after 65,535. */
uint16_t omh_next_exchange(uint16_t x);

/* The current number less the frame's, modulo 65,536. */
uint16_t omh_age(uint16_t current, uint16_t frame);

/* By the age: 0 for current, 12 for old, 13 for ahead. */
uint8_t omh_age_class(uint16_t current, uint16_t frame);

/* Puts a frame's fields in the eight places. 9, 10, 11, 14 */
uint8_t omh_read_frame(const uint8_t *frame, size_t frame_len,
                       int32_t fields[OMH_FIELDS]);

/* Puts the frame's OMH_FRAME bytes in the buffer. 5, 14 */
uint8_t omh_write_frame(uint16_t exchange, uint8_t sender, uint8_t level,
                        uint8_t q1, uint8_t q2, uint8_t q3,
                        uint8_t receiver, int32_t word,
                        uint8_t *buffer, size_t buffer_len);

/* Enters a frame's word in a book, as omh_enter does; `current` is the
   exchange number.
   1, 2, 3, 4, 5, 9, 10, 11, 14, 12, 13, 15, 8 */
uint8_t omh_enter_frame(size_t n, size_t m, size_t t, size_t p,
                        int32_t *words, size_t words_len,
                        int32_t *votes, size_t votes_len,
                        uint16_t current,
                        const uint8_t *frame, size_t frame_len);

/* The same in the long list; a frame of another sender than t is refused.
   1, 2, 3, 4, 5, 9, 10, 11, 14, 12, 13, 15, 8 */
uint8_t omh_books_enter_frame(size_t n, size_t m, size_t t, size_t p,
                              int32_t *books, size_t books_len,
                              uint16_t current,
                              const uint8_t *frame, size_t frame_len);

/* ---- the bench: OMH_CARDS status bytes and a table of OMH_TABLE words */

/* The word that card p receives at a slot. 1, 2, 3, 4, 5, 7, 6, 8 */
uint8_t omh_word_for(size_t n, size_t m, size_t t, int32_t x,
                     const uint8_t *statuses, size_t statuses_len,
                     const int32_t *table, size_t table_len,
                     size_t p, size_t slot, int32_t *word);

/* The answer of card p. 1, 2, 3, 4, 5, 7, 6 */
uint8_t omh_answer_for(size_t n, size_t m, size_t t, int32_t x,
                       const uint8_t *statuses, size_t statuses_len,
                       const int32_t *table, size_t table_len,
                       size_t p, int32_t *answer);

/* The answers of the n cards, in the first n places of OMH_CARDS; the rest
   is untouched. 1, 2, 3, 5, 7, 6 */
uint8_t omh_all_answers(size_t n, size_t m, size_t t, int32_t x,
                        const uint8_t *statuses, size_t statuses_len,
                        const int32_t *table, size_t table_len,
                        int32_t *answers, size_t answers_len);

/* Fills a book for card p: the words that it receives stand at the live slots,
   over what was there, with their votes; the rest is untouched.
   1, 2, 3, 4, 5, 7, 6 */
uint8_t omh_fill(size_t n, size_t m, size_t t, int32_t x,
                 const uint8_t *statuses, size_t statuses_len,
                 const int32_t *table, size_t table_len, size_t p,
                 int32_t *words, size_t words_len,
                 int32_t *votes, size_t votes_len);

/* Whether the bound holds: 1 or 0 in the place. 1, 2, 5, 7 */
uint8_t omh_bound(size_t n, size_t m,
                  const uint8_t *statuses, size_t statuses_len,
                  int32_t *held);

/* ---- the outcome of exchanges: OMH_OUTCOME words, a row for each sender and
   in it a word for each card */

/* Sets every word to OMH_E. 5 */
uint8_t omh_outcome_start(int32_t *outcome, size_t outcome_len);

/* Sets the row of t to the answers of the n cards, and OMH_E from card n up;
   every other row is untouched. 1, 2, 3, 5, 7, 6 */
uint8_t omh_outcome_set(size_t n, size_t m, size_t t, int32_t x,
                        const uint8_t *statuses, size_t statuses_len,
                        const int32_t *table, size_t table_len,
                        int32_t *outcome, size_t outcome_len);

/* ---- listing */

/* Puts the text of a listing file at the start of the OMH_TEXT places and
   answers its length; the places after it are untouched. For a file that is
   refused the text is the line `refused K`, by the checks
   9, 10, 11, 16, 9, 1, 2, 3, 7, 6, 16 in this order. */
size_t omh_list(const uint8_t *file, size_t file_len, uint8_t text[OMH_TEXT]);

#ifdef __cplusplus
}
#endif

#endif
