/* A card's book, and its books for every sender: the library's calls on them. */
#include "book.h"

uint8_t book_open(const struct settings *s, struct book *book)
{
    return omh_open(s->n, s->m, s->t, s->p, book->words, OMH_SLOTS, book->votes, OMH_SLOTS);
}

uint8_t book_enter(const struct settings *s, struct book *book, size_t slot, int32_t word)
{
    return omh_enter(s->n, s->m, s->t, s->p, book->words, OMH_SLOTS, book->votes, OMH_SLOTS, slot, word);
}

uint8_t book_enter_frame(const struct settings *s, struct book *book, uint16_t current,
                         const uint8_t *frame, size_t length)
{
    return omh_enter_frame(s->n, s->m, s->t, s->p, book->words, OMH_SLOTS, book->votes, OMH_SLOTS,
                           current, frame, length);
}

uint8_t book_refill(const struct settings *s, struct book *book)
{
    return omh_refill(s->n, s->m, s->t, s->p, book->words, OMH_SLOTS, book->votes, OMH_SLOTS);
}

uint8_t book_answer(const struct book *book, int32_t *answer)
{
    return omh_held_answer(book->words, OMH_SLOTS, book->votes, OMH_SLOTS, answer);
}

uint8_t book_vote(const struct settings *s, const struct book *book, size_t slot, int32_t *vote)
{
    return omh_vote_at(s->n, s->m, s->t, s->p, book->words, OMH_SLOTS, slot, vote);
}

uint8_t books_open(const struct settings *s, struct books *books)
{
    return omh_books_open(s->n, s->m, s->t, s->p, books->list, OMH_BOOKS);
}

uint8_t books_enter_frame(const struct settings *s, struct books *books, uint16_t current,
                          const uint8_t *frame, size_t length)
{
    return omh_books_enter_frame(s->n, s->m, s->t, s->p, books->list, OMH_BOOKS, current, frame, length);
}

const int32_t *books_words(size_t t, const struct books *books)
{
    return books->list + OMH_BOOK * t;
}

uint8_t books_answer(size_t t, const struct books *books, int32_t *answer)
{
    const int32_t *words = books_words(t, books), *votes = words + OMH_SLOTS;
    return omh_held_answer(words, OMH_SLOTS, votes, OMH_SLOTS, answer);
}
