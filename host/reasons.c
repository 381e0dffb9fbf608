/* Why the library refuses, in words. */
#include "reasons.h"

void print_unknown_reason(FILE *file)
{
    fputs("this call does not give that number", file);
}

void print_settings_reason(uint8_t number, const struct settings *s, FILE *file)
{
    switch (number) {
    case OMH_REFUSED_CARDS:
        fprintf(file, "N is %zu, not 1 to %d", s->n, OMH_CARDS);
        break;
    case OMH_REFUSED_ROUNDS:
        if (s->m > OMH_ROUNDS)
            fprintf(file, "M is %zu, over %d", s->m, OMH_ROUNDS);
        else
            fprintf(file, "M is %zu, not below N, which is %zu", s->m, s->n);
        break;
    case OMH_REFUSED_SENDER:
        fprintf(file, "T is %zu, not below N, which is %zu", s->t, s->n);
        break;
    case OMH_REFUSED_OWN:
        fprintf(file, "P is %zu, not below N, which is %zu", s->p, s->n);
        break;
    default:
        print_unknown_reason(file);
    }
}

static bool relays_before(const struct path *path, size_t i)
{
    for (size_t j = 0; j < i; j++)
        if (path->relays[j] == path->relays[i])
            return true;
    return false;
}

/* Whether relay i keeps the path from being live; prints why. */
static bool print_relay_reason(const struct settings *s, const struct path *path, size_t i, FILE *file)
{
    size_t relay = path->relays[i];
    if (relay >= s->n)
        fprintf(file, "card %zu relays, and the last card is %zu", relay, s->n - 1);
    else if (relay == s->t)
        fprintf(file, "card %zu relays, and is the sender", relay);
    else if (relay == s->p)
        fprintf(file, "card %zu relays, and is the receiver", relay);
    else if (relays_before(path, i))
        fprintf(file, "card %zu relays twice", relay);
    else
        return false;
    return true;
}

void print_path_reason(const struct settings *s, const struct path *path, FILE *file)
{
    if (path->level > s->m) {
        fprintf(file, "level %u is over M, which is %zu", (unsigned)path->level, s->m);
        return;
    }
    for (size_t i = 0; i < path->level; i++)
        if (print_relay_reason(s, path, i, file))
            return;
    fprintf(file, "card %zu is the sender, and receives no relays", s->p);
}
