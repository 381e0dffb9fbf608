/* Paths and their slots, document 01's 'Settings and paths': to compare the
   library with, and to say why a path is not live. */
#ifndef PATH_H
#define PATH_H

#include "book.h"

#include <stdbool.h>

struct path {
    uint8_t level;
    uint8_t relays[OMH_ROUNDS];     /* OMH_NO_RELAY where the level has none */
};

/* The path of a slot, which is below OMH_SLOTS. */
struct path path_of(size_t slot);

/* Whether the slot, any number, is live for p. */
bool is_live(const struct settings *s, size_t slot);

#endif
