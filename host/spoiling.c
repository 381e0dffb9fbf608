/* Enterings that are spoiled in one way or more. */
#include "spoiling.h"

#include "path.h"

#include <string.h>

/* A number over what the settings allow, mostly by one. */
static size_t over(struct random *random, size_t limit)
{
    return random_once_in(random, 4) ? SIZE_MAX : limit;
}

static size_t slot_not_live(const struct settings *s, struct random *random)
{
    size_t slot;
    do
        slot = random_below(random, OMH_SLOTS);
    while (is_live(s, slot));
    return slot;
}

static void spoil_cards(struct attempt *a, struct random *random)
{
    a->settings.n = random_once_in(random, 2) ? 0 : over(random, OMH_CARDS + 1);
}

static void spoil_rounds(struct attempt *a, struct random *random)
{
    a->settings.m = over(random, a->settings.n <= OMH_ROUNDS ? a->settings.n : OMH_ROUNDS + 1);
}

static void spoil_sender(struct attempt *a, struct random *random)
{
    a->settings.t = over(random, a->settings.n);
}

static void spoil_own(struct attempt *a, struct random *random)
{
    a->settings.p = over(random, a->settings.n);
}

static void spoil_lists(struct attempt *a, struct random *random)
{
    size_t *length = random_once_in(random, 2) ? &a->words_length : &a->votes_length;
    *length = random_once_in(random, 2) ? OMH_SLOTS - 1 : random_below(random, OMH_SLOTS);
}

static void spoil_size(struct attempt *a, struct random *random)
{
    a->length = random_once_in(random, 2) ? OMH_FRAME + 1 : random_below(random, OMH_FRAME);
}

static void spoil_mark(struct attempt *a, struct random *random)
{
    a->frame[random_below(random, 3)] ^= (uint8_t)(1u << random_below(random, 8));
}

static void spoil_version(struct attempt *a, struct random *random)
{
    a->frame[3 + random_below(random, 2)] ^= (uint8_t)(1u << random_below(random, 8));
}

/* 10 to 254 for sender, level, a relay or receiver: no card, no level, no unused relay. */
static void spoil_form(struct attempt *a, struct random *random)
{
    a->frame[7 + random_below(random, 6)] = (uint8_t)(OMH_CARDS + random_below(random, OMH_NO_RELAY - OMH_CARDS));
}

/* Gives the frame this age. */
static void set_age(struct attempt *a, size_t age)
{
    uint16_t exchange = (uint16_t)(a->current - age);
    a->frame[5] = (uint8_t)(exchange >> 8);
    a->frame[6] = (uint8_t)exchange;
}

static void spoil_old(struct attempt *a, struct random *random)
{
    set_age(a, 1 + random_below(random, 32767));
}

static void spoil_ahead(struct attempt *a, struct random *random)
{
    set_age(a, 32768 + random_below(random, 32768));
}

/* Another of the ten cards as sender or receiver. */
static void spoil_names(struct attempt *a, struct random *random)
{
    uint8_t *card = &a->frame[random_once_in(random, 2) ? 7 : 12];
    *card = (uint8_t)((*card + 1 + random_below(random, OMH_CARDS - 1)) % OMH_CARDS);
}

static void spoil_path(struct attempt *a, struct random *random)
{
    a->slot = slot_not_live(&a->settings, random);
    struct path path = path_of(a->slot);
    a->frame[8] = path.level;
    memcpy(a->frame + 9, path.relays, OMH_ROUNDS);
    if (random_once_in(random, 4))
        a->slot = over(random, OMH_SLOTS);
}

/* In the order of the checks of a call that enters a frame. A plain entering
   has the same order without those of frames. */
static const struct fault {
    uint8_t number;
    enum { OF_BOTH, OF_FRAMES, OF_READING } seen;     /* OF_READING: by a call that only reads the frame too */
    void (*spoil)(struct attempt *, struct random *);
} faults[] = {
    {OMH_REFUSED_CARDS, OF_BOTH, spoil_cards},
    {OMH_REFUSED_ROUNDS, OF_BOTH, spoil_rounds},
    {OMH_REFUSED_SENDER, OF_BOTH, spoil_sender},
    {OMH_REFUSED_OWN, OF_BOTH, spoil_own},
    {OMH_REFUSED_LONG, OF_BOTH, spoil_lists},
    {OMH_REFUSED_SIZE, OF_READING, spoil_size},
    {OMH_REFUSED_MARK, OF_READING, spoil_mark},
    {OMH_REFUSED_VERSION, OF_READING, spoil_version},
    {OMH_REFUSED_FORM, OF_READING, spoil_form},
    {OMH_REFUSED_OLD, OF_FRAMES, spoil_old},
    {OMH_REFUSED_AHEAD, OF_FRAMES, spoil_ahead},
    {OMH_REFUSED_FOREIGN, OF_FRAMES, spoil_names},
    {OMH_REFUSED_PATH, OF_BOTH, spoil_path},
};

enum { FAULTS = sizeof faults / sizeof faults[0] };

/* From the last to the first, so that what a later one writes cannot undo an earlier one. */
void attempt_spoil(struct attempt *a, struct random *random)
{
    size_t sure;
    do
        sure = random_below(random, FAULTS);
    while (!a->framed && faults[sure].seen != OF_BOTH);
    a->entering_due = 0;
    a->reading_due = 0;
    for (size_t i = FAULTS; i-- > 0;) {
        const struct fault *fault = &faults[i];
        if ((!a->framed && fault->seen != OF_BOTH) || (i != sure && !random_once_in(random, 6)))
            continue;
        fault->spoil(a, random);
        a->entering_due = fault->number;
        if (fault->seen == OF_READING)
            a->reading_due = fault->number;
    }
}
