/* Arguments for calls, drawn at random. */
#include "values.h"

#include "../random.h"

#include <string.h>

static struct random state;
static uint64_t spoiled;        /* one value in so many; none if 0 */

void values_start(uint64_t seed)
{
    state = random_start(seed, 0);
}

void values_spoil(uint64_t times)
{
    spoiled = times;
}

bool spoils(void)
{
    return spoiled != 0 && random_once_in(&state, spoiled);
}

uint64_t any(void)
{
    return random_next(&state);
}

size_t below(size_t end)
{
    return random_below(&state, end);
}

size_t beyond(size_t end)
{
    static const int bits[] = {8, 16, 31, 32, 63};
    switch (below(4)) {
    case 0:
        return end + below(3);
    case 1:
        return ((size_t)1 << bits[below(5)]) + end + below(11);
    case 2:
        return SIZE_MAX - below(12);
    default:
        return SIZE_MAX / 10 + below(3);    /* ten times it does not fit */
    }
}

size_t mostly_below(size_t end)
{
    return spoils() ? beyond(end) : below(end);
}

uint8_t mostly(size_t right)
{
    return (uint8_t)(spoils() ? any() : right);
}

int32_t any_word(void)
{
    static const int32_t ends[] = {
        0, 1, -1, OMH_E - 1, 1 - OMH_E, OMH_E, OMH_E + 1, OMH_E + 2, OMH_E + 3,
        OMH_E + 4, OMH_CONTRADICTED, -OMH_E, -OMH_E - 1, INT32_MAX, INT32_MIN,
    };
    return random_once_in(&state, 3) ? (int32_t)any() : ends[below(sizeof ends / sizeof ends[0])];
}

int32_t ordinary(void)
{
    return spoils() ? any_word() : (int32_t)below(2 * (size_t)OMH_E - 1) - (OMH_E - 1);
}

struct settings settings_draw(void)
{
    struct settings s = {OMH_CARDS, OMH_ROUNDS, 0, 0};
    if (random_once_in(&state, 2)) {
        s.n = 1 + below(OMH_CARDS);
        s.m = below(s.n <= OMH_ROUNDS ? s.n : OMH_ROUNDS + 1);
    }
    s.t = below(s.n);
    s.p = below(s.n);
    return s;
}

struct path path_draw(const struct settings *s)
{
    struct path path = {(uint8_t)(s->p == s->t ? 0 : below(s->m + 1)), {OMH_NO_RELAY, OMH_NO_RELAY, OMH_NO_RELAY}};
    for (size_t i = 0; i < path.level; i++) {
        size_t relay;
        do
            relay = below(s->n);
        while (s->n > OMH_ROUNDS + 1
               && (relay == s->t || relay == s->p || memchr(path.relays, (int)relay, i) != NULL));
        path.relays[i] = (uint8_t)relay;
    }
    return path;
}

size_t slot_draw(const struct settings *s)
{
    if (spoils())
        return mostly_below(OMH_SLOTS);
    struct path path = path_draw(s);
    size_t slot = 0;
    for (size_t i = 0; i < path.level; i++)
        slot = OMH_CARDS * slot + 1 + path.relays[i];
    return slot;
}
