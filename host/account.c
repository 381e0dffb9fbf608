/* What each slot holds, from all the words that came there. */
#include "account.h"

void account_add(struct account *account, size_t slot, int32_t word)
{
    account->words[slot][account->counts[slot]++] = word;
}

/* E that comes first is left out. Of the rest: none, E; all the same, that word; else contradicted. */
int32_t account_left(const struct account *account, size_t slot)
{
    const int32_t *word = account->words[slot], *end = word + account->counts[slot];
    while (word < end && *word == OMH_E)
        word++;
    if (word == end)
        return OMH_E;
    for (const int32_t *other = word + 1; other < end; other++)
        if (*other != *word)
            return OMH_CONTRADICTED;
    return *word;
}
