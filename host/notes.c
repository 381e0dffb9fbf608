/* Notes on a listing file that is accepted: exceptions whose word no card receives. */
#include "notes.h"

#include "ending.h"
#include "listing.h"
#include "path.h"
#include "reasons.h"

/* The card that sends on a slot's path. */
static size_t sending(const struct bytes *file, size_t slot)
{
    struct path path = path_of(slot);
    return path.level == 0 ? settings_in(file, 0).t : path.relays[path.level - 1];
}

static bool is_live_for_any(const struct bytes *file, size_t slot)
{
    struct settings s = settings_in(file, 0);
    for (; s.p < s.n; s.p++)
        if (is_live(&s, slot))
            return true;
    return false;
}

/* Whether a card receives the table's word for this slot and receiver: the
   receiver from an arbitrary card, or everyone from a symmetric one. */
static bool is_received(const struct bytes *file, const struct exception *e)
{
    struct settings receiver = settings_in(file, e->receiver);
    switch (status_in(file, sending(file, e->slot))) {
    case OMH_ARBITRARY:
        return e->receiver < receiver.n && is_live(&receiver, e->slot);
    case OMH_SYMMETRIC:
        return e->receiver == 0 && is_live_for_any(file, e->slot);
    default:
        return false;
    }
}

/* Says why no card receives it: the path, the card that sends, or the receiver is the reason. */
static void say_not_received(const struct bytes *file, const struct exception *e)
{
    struct path path = path_of(e->slot);
    struct settings nobody = settings_in(file, OMH_CARDS);      /* for which the path alone matters */
    struct settings receiver = settings_in(file, e->receiver);
    size_t card = sending(file, e->slot);
    uint8_t status = status_in(file, card);
    if (!is_live(&nobody, e->slot))
        print_path_reason(&nobody, &path, stderr);
    else if (status == OMH_GOOD || status == OMH_MANIFEST)
        fprintf(stderr, "card %zu sends on this path, and is %s", card, status_names[status]);
    else if (status == OMH_SYMMETRIC && e->receiver > 0)
        fprintf(stderr, "card %zu sends on this path, and is symmetric: all receive the word for receiver 0", card);
    else if (status == OMH_SYMMETRIC)
        fputs("no card is left to receive on this path", stderr);
    else if (e->receiver >= receiver.n)
        fprintf(stderr, "the receiver is not there: the last card is %zu", receiver.n - 1);
    else
        print_path_reason(&receiver, &path, stderr);
}

/* The next exception for the same place as exception i; i if there is none. */
static size_t replacing(const struct bytes *file, size_t i)
{
    struct exception e = exception_in(file, i);
    for (size_t j = i + 1; j < exceptions_in(file); j++) {
        struct exception later = exception_in(file, j);
        if (later.slot == e.slot && later.receiver == e.receiver)
            return j;
    }
    return i;
}

/* Notes count exceptions from 1. */
void print_notes(const struct bytes *file, const char *name)
{
    for (size_t i = 0; i < exceptions_in(file); i++) {
        struct exception e = exception_in(file, i);
        bool received = is_received(file, &e);
        size_t by = replacing(file, i);
        if (received && by == i)
            continue;
        begin_message(name);
        fprintf(stderr, "note: exception %zu, slot %zu, receiver %zu, has no effect: ", i + 1, e.slot, e.receiver);
        if (received)
            fprintf(stderr, "exception %zu replaces it", by + 1);
        else
            say_not_received(file, &e);
        putc('\n', stderr);
    }
}
