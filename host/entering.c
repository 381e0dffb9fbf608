/* Books entered word by word, under trial in a soak. */
#include "entering.h"

#include "account.h"
#include "fields.h"
#include "filling.h"
#include "path.h"
#include "refusing.h"

#include <string.h>

struct entering {
    struct trial *trial;
    const struct settings *settings;
    uint16_t current;               /* exchange number */
    struct book book;
    struct account account;         /* of the words accepted in the book */
    bool dealt_alone;               /* nothing but the words dealt to the card comes */
    size_t count;                   /* of words that come, */
    size_t slots[OMH_SLOTS * COMING];       /* and where, in their order */
};

/* Draws at which live slots words come, at each once or more often, in any order. */
static void draw_slots(struct entering *run)
{
    struct random *random = &run->trial->random;
    run->count = 0;
    for (size_t slot = 0; slot < OMH_SLOTS; slot++)
        if (is_live(run->settings, slot))
            for (size_t times = 1 + random_below(random, COMING); times > 0; times--)
                run->slots[run->count++] = slot;
    for (size_t i = run->count; i > 1; i--) {
        size_t j = random_below(random, i);
        size_t slot = run->slots[i - 1];
        run->slots[i - 1] = run->slots[j];
        run->slots[j] = slot;
    }
}

/* A word to come at a live slot: the one dealt to the card, or any of the table or E. */
static bool draw_word(struct entering *run, size_t slot, int32_t *word)
{
    struct random *random = &run->trial->random;
    const struct exchange *e = &run->trial->exchange;
    if (run->dealt_alone || random_once_in(random, 2))
        return is_due(run->trial, "a word for a card, refusal", exchange_word(e, run->settings->p, slot, word), 0);
    *word = random_once_in(random, 4) ? OMH_E : e->table[random_below(random, OMH_TABLE)];
    return true;
}

/* Writes the word's frame, reads it back, and enters it. */
static bool enter_as_frame(struct entering *run, size_t slot, int32_t word)
{
    int32_t fields[OMH_FIELDS], back[OMH_FIELDS];
    uint8_t frame[OMH_FRAME];
    fields_of(run->settings, run->current, slot, word, fields);
    if (!is_due(run->trial, "a frame's writing, refusal", fields_write(fields, frame, OMH_FRAME), 0)
        || !is_due(run->trial, "a frame's reading, refusal", omh_read_frame(frame, OMH_FRAME, back), 0))
        return false;
    for (size_t i = 0; i < OMH_FIELDS; i++)
        if (!is_due(run->trial, "a field of a frame", back[i], fields[i]))
            return false;
    uint8_t refused = book_enter_frame(run->settings, &run->book, run->current, frame, OMH_FRAME);
    return is_due(run->trial, "a frame's entering, refusal", refused, 0);
}

/* Spoils the votes that an entering at a slot makes again, also where the slot stays as it was. */
static void spoil_way_up(struct book *book, size_t slot)
{
    book->votes[slot] = UNTOUCHED;
    while (slot > 0)
        book->votes[slot = (slot - 1) / OMH_CARDS] = UNTOUCHED;
}

/* Enters a word at a live slot, as a number or as a frame: the slot holds what the account says. */
static bool enter(struct entering *run, size_t slot, int32_t word)
{
    struct random *random = &run->trial->random;
    int32_t held = account_left(&run->account, slot);
    if (random_once_in(random, 2))
        spoil_way_up(&run->book, slot);
    bool good = random_once_in(random, 2)
        ? enter_as_frame(run, slot, word)
        : is_due(run->trial, "an entering, refusal", book_enter(run->settings, &run->book, slot, word), 0);
    if (!good)
        return false;
    account_add(&run->account, slot, word);
    int32_t due = account_left(&run->account, slot);
    run->trial->enterings++;
    run->trial->contradictions += held != OMH_E && held != due;
    return is_due(run->trial, "the word at a slot after an entering", run->book.words[slot], due);
}

/* The held answer is the vote at slot 0, worked out afresh from the words as they stand. */
static bool answer_is_held(struct entering *run, int32_t *held)
{
    int32_t vote = UNTOUCHED;
    *held = UNTOUCHED;
    return is_due(run->trial, "a held answer, refusal", book_answer(&run->book, held), 0)
        && is_due(run->trial, "a vote, refusal", book_vote(run->settings, &run->book, 0, &vote), 0)
        && is_due(run->trial, "a held answer, and the vote at slot 0", *held, vote);
}

/* Enters a word at a slot. Before it, now and then: an entering that is refused, a look at the answer. */
static bool enter_next(struct entering *run, size_t slot)
{
    struct random *random = &run->trial->random;
    int32_t held, word = UNTOUCHED;
    if (random_once_in(random, 8) && !refusal_is_right(run->trial, run->settings, &run->book, run->current, slot))
        return false;
    if (random_once_in(random, 32) && !answer_is_held(run, &held))
        return false;
    return draw_word(run, slot, &word) && enter(run, slot, word);
}

/* All words are in: the answer is the card's where they are those dealt, each slot holds what it should, and refilling
   changes no vote. */
static bool end_is_right(struct entering *run)
{
    int32_t held, due = run->trial->answers[run->settings->p];
    if (!answer_is_held(run, &held)
        || (run->dealt_alone && !is_due(run->trial, "an entered book's answer", held, due)))
        return false;
    struct book before = run->book;
    if (!is_due(run->trial, "refilling, refusal", book_refill(run->settings, &run->book), 0))
        return false;
    for (size_t slot = 0; slot < OMH_SLOTS; slot++) {
        int32_t word = is_live(run->settings, slot) ? account_left(&run->account, slot) : OMH_CONTRADICTED;
        if (!is_due(run->trial, "an entered book's word", run->book.words[slot], word)
            || !is_due(run->trial, "a vote refilled", run->book.votes[slot], before.votes[slot]))
            return false;
    }
    return true;
}

/* Puts a word and a vote that opening clears, and that change nothing at a slot that is not live. */
static void litter(struct book *book, size_t slot)
{
    book->words[slot] = OMH_CONTRADICTED;
    book->votes[slot] = UNTOUCHED;
}

/* Opens the book: all is E. Then the slots that are not live are littered again. */
static bool open_book(struct entering *run)
{
    for (size_t slot = 0; slot < OMH_SLOTS; slot++)
        litter(&run->book, slot);
    if (!is_due(run->trial, "opening, refusal", book_open(run->settings, &run->book), 0))
        return false;
    for (size_t slot = 0; slot < OMH_SLOTS; slot++)
        if (!is_due(run->trial, "an opened book's word", run->book.words[slot], OMH_E)
            || !is_due(run->trial, "an opened book's vote", run->book.votes[slot], OMH_E))
            return false;
    for (size_t slot = 0; slot < OMH_SLOTS; slot++)
        if (!is_live(run->settings, slot))
            litter(&run->book, slot);
    return true;
}

/* A book opened and entered word by word. */
static bool book_is_right(struct entering *run)
{
    memset(&run->account, 0, sizeof run->account);
    draw_slots(run);
    if (!open_book(run))
        return false;
    for (size_t i = 0; i < run->count; i++)
        if (!enter_next(run, run->slots[i]))
            return false;
    return end_is_right(run);
}

bool entering_is_right(struct trial *trial, const struct settings *s)
{
    struct entering run;
    run.trial = trial;
    run.settings = s;
    run.current = (uint16_t)random_below(&trial->random, UINT16_MAX + UINT64_C(1));
    run.dealt_alone = true;
    if (!book_is_right(&run))
        return false;
    run.dealt_alone = false;
    return book_is_right(&run) && filling_is_right(trial, s, &run.book);
}
