/* Paths and their slots. */
#include "path.h"

struct path path_of(size_t slot)
{
    struct path path = {0, {OMH_NO_RELAY, OMH_NO_RELAY, OMH_NO_RELAY}};
    size_t first = 0;       /* the level's first slot */
    size_t slots = 1;       /* and how many it has */
    while (slot >= first + slots) {
        first += slots;
        slots *= OMH_CARDS;
        path.level++;
    }
    size_t digits = slot - first;
    for (size_t i = path.level; i-- > 0; digits /= OMH_CARDS)
        path.relays[i] = (uint8_t)(digits % OMH_CARDS);
    return path;
}

bool is_live(const struct settings *s, size_t slot)
{
    if (slot >= OMH_SLOTS)
        return false;
    struct path path = path_of(slot);
    if (path.level > s->m || (s->p == s->t && path.level > 0))
        return false;
    for (size_t i = 0; i < path.level; i++) {
        size_t relay = path.relays[i];
        if (relay >= s->n || relay == s->t || relay == s->p)
            return false;
        for (size_t j = 0; j < i; j++)
            if (path.relays[j] == relay)
                return false;
    }
    return true;
}
