/* Books filled by the library, under trial in a soak. */
#include "filling.h"

#include "path.h"

/* The slot's word and vote: as dealt and as worked out afresh where it is
   live, else as before. A number over 1,110 is not live. */
static bool slot_is_right(struct trial *trial, const struct settings *s, const struct book *before,
                          const struct book *book, size_t slot)
{
    int refusal = is_live(s, slot) ? 0 : OMH_REFUSED_PATH;
    bool has_place = slot < OMH_SLOTS;
    int32_t word = has_place ? before->words[slot] : UNTOUCHED;
    int32_t vote = has_place ? before->votes[slot] : UNTOUCHED;
    return is_due(trial, "a word for a card, refusal", exchange_word(&trial->exchange, s->p, slot, &word), refusal)
        && is_due(trial, "a vote, refusal", book_vote(s, book, slot, &vote), refusal)
        && is_due(trial, "a filled book's word", has_place ? book->words[slot] : UNTOUCHED, word)
        && is_due(trial, "a filled book's vote", has_place ? book->votes[slot] : UNTOUCHED, vote);
}

bool filling_is_right(struct trial *trial, const struct settings *s, struct book *book)
{
    const struct exchange *e = &trial->exchange;
    struct book before = *book;
    uint8_t refused = omh_fill(e->n, e->m, e->t, e->x, e->statuses, OMH_CARDS, e->table, OMH_TABLE, s->p,
                               book->words, OMH_SLOTS, book->votes, OMH_SLOTS);
    if (!is_due(trial, "filling a book, refusal", refused, 0))
        return false;
    for (size_t slot = 0; slot <= OMH_SLOTS; slot++)
        if (!slot_is_right(trial, s, &before, book, slot))
            return false;
    int32_t answer = UNTOUCHED;
    return is_due(trial, "a filled book's answer, refusal", book_answer(book, &answer), 0)
        && is_due(trial, "a filled book's answer", answer, trial->answers[s->p]);
}
