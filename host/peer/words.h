/* Document 01, 'Words': reading, wrapping and unwrapping. */
#ifndef PEER_WORDS_H
#define PEER_WORDS_H

#include <stdbool.h>

#include "../omh.h"

static inline bool is_ordinary(int32_t word)
{
    return -OMH_E < word && word < OMH_E;
}

/* At a level of at most 3 the words that read as themselves are one range. */
static inline int32_t read_at(size_t level, int32_t word)
{
    return (uint32_t)word + (OMH_E - 1) <= 2 * OMH_E - 1 + (uint32_t)level ? word : OMH_E;
}

/* The wrapped reading at a level of at most 2, where no wrap is the fourth. */
static inline int32_t report(size_t level, int32_t word)
{
    int32_t own = read_at(level, word);
    return own + (own >= OMH_E);
}

/* Of a word that was read. */
static inline int32_t unwrap(int32_t word)
{
    return word - (word > OMH_E);
}

#endif
