/* A card's book, and its books for every sender: their settings, their lists, and the library's calls on them. */
#ifndef BOOK_H
#define BOOK_H

#include "omh.h"

/* n cards, m rounds of relay, the sender t, the own card p. */
struct settings {
    size_t n, m, t, p;
};

struct book {
    int32_t words[OMH_SLOTS];
    int32_t votes[OMH_SLOTS];
};

/* The long list: a book for each card as sender. */
struct books {
    int32_t list[OMH_BOOKS];
};

/* Each answers 0 or the refusal's number. */
uint8_t book_open(const struct settings *s, struct book *book);
uint8_t book_enter(const struct settings *s, struct book *book, size_t slot, int32_t word);
uint8_t book_enter_frame(const struct settings *s, struct book *book, uint16_t current,
                         const uint8_t *frame, size_t length);
uint8_t book_refill(const struct settings *s, struct book *book);
uint8_t book_answer(const struct book *book, int32_t *answer);

/* The vote at a slot, worked out afresh from the book's words. */
uint8_t book_vote(const struct settings *s, const struct book *book, size_t slot, int32_t *vote);

/* The same on the book of the sender t among the books. */
uint8_t books_open(const struct settings *s, struct books *books);
uint8_t books_enter_frame(const struct settings *s, struct books *books, uint16_t current,
                          const uint8_t *frame, size_t length);
uint8_t books_answer(size_t t, const struct books *books, int32_t *answer);

/* The words of the sender t's book, by slot. */
const int32_t *books_words(size_t t, const struct books *books);

#endif
