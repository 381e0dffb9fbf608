/* Enterings and frames that are refused, under trial in a soak. */
#include "refusing.h"

#include "fields.h"
#include "spoiling.h"

#include <string.h>

/* A right attempt at a live slot. */
static bool attempt_make(struct trial *trial, const struct settings *s, uint16_t current, size_t slot, int32_t word,
                         struct attempt *a)
{
    int32_t fields[OMH_FIELDS];
    *a = (struct attempt){.settings = *s, .words_length = OMH_SLOTS, .votes_length = OMH_SLOTS, .current = current,
                          .framed = !random_once_in(&trial->random, 3), .slot = slot, .length = OMH_FRAME};
    fields_of(s, current, slot, word, fields);
    return is_due(trial, "a frame's writing, refusal", fields_write(fields, a->frame, OMH_FRAME), 0);
}

static uint8_t attempt_enter(const struct attempt *a, struct book *book, int32_t word)
{
    const struct settings *s = &a->settings;
    if (a->framed)
        return omh_enter_frame(s->n, s->m, s->t, s->p, book->words, a->words_length, book->votes, a->votes_length,
                               a->current, a->frame, a->length);
    return omh_enter(s->n, s->m, s->t, s->p, book->words, a->words_length, book->votes, a->votes_length, a->slot, word);
}

/* The spoiled frame when it is only read: refused, and no field is filled, or
   read to fields that are written as the same frame. */
static bool reading_is_right(struct trial *trial, const struct attempt *a)
{
    int32_t fields[OMH_FIELDS];
    for (size_t i = 0; i < OMH_FIELDS; i++)
        fields[i] = UNTOUCHED;
    uint8_t refused = omh_read_frame(a->frame, a->length, fields);
    if (!is_due(trial, "a spoiled frame's reading, refusal", refused, a->reading_due))
        return false;
    if (refused != 0) {
        for (size_t i = 0; i < OMH_FIELDS; i++)
            if (!is_due(trial, "a field of a frame refused", fields[i], UNTOUCHED))
                return false;
        return true;
    }
    uint8_t frame[OMH_FRAME];
    return is_due(trial, "a frame's writing, refusal", fields_write(fields, frame, OMH_FRAME), 0)
        && is_due(trial, "whether a frame is written as it was read", memcmp(frame, a->frame, OMH_FRAME) == 0, true);
}

bool refusal_is_right(struct trial *trial, const struct settings *s, struct book *book, uint16_t current, size_t slot)
{
    int32_t word = trial->exchange.table[random_below(&trial->random, OMH_TABLE)];
    struct attempt attempt;
    if (!attempt_make(trial, s, current, slot, word, &attempt))
        return false;
    attempt_spoil(&attempt, &trial->random);
    struct book before = *book;
    if (!is_due(trial, "a spoiled entering, refusal", attempt_enter(&attempt, book, word), attempt.entering_due)
        || !is_due(trial, "whether a refusal left the book alone", memcmp(book, &before, sizeof before) == 0, true)
        || (attempt.framed && !reading_is_right(trial, &attempt)))
        return false;
    trial->refusals++;
    return true;
}

bool writing_is_refused(struct trial *trial)
{
    struct random *random = &trial->random;
    int32_t fields[OMH_FIELDS] = {[OMH_LEVEL] = OMH_ROUNDS};
    fields[OMH_SENDER + random_below(random, OMH_RECEIVER - OMH_SENDER + 1)] =
        OMH_CARDS + (int32_t)random_below(random, UINT8_MAX + 1 - OMH_CARDS);
    bool fits = random_once_in(random, 2);
    size_t length = fits ? OMH_FRAME : random_below(random, OMH_FRAME);
    uint8_t due = fits ? OMH_REFUSED_FORM : OMH_REFUSED_LONG;
    uint8_t buffer[OMH_FRAME] = {0};
    static const uint8_t before[OMH_FRAME] = {0};
    if (!is_due(trial, "a spoiled frame's writing, refusal", fields_write(fields, buffer, length), due)
        || !is_due(trial, "whether a refusal left the buffer alone", memcmp(buffer, before, OMH_FRAME) == 0, true))
        return false;
    trial->refusals++;
    return true;
}
