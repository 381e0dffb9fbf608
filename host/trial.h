/* One exchange under trial in a soak: what it is, and what was seen. */
#ifndef TRIAL_H
#define TRIAL_H

#include "exchange.h"

/* A bad word, which no vote and no answer is: for places that a call leaves alone. */
#define UNTOUCHED (INT32_MIN + 5)

struct trial {
    struct exchange exchange;
    struct random random;
    bool within;                    /* the bound holds */
    int32_t answers[OMH_CARDS];     /* as omh_all_answers gives them */
    uint64_t enterings;             /* accepted, of this trial and those before it */
    uint64_t contradictions;        /* of these, words that left their slot contradicted, likewise */
    uint64_t refusals;              /* met as expected, likewise */
    const char *failure;            /* what was not as it should be; null if all was */
    int64_t got, due;               /* of the failure */
};

/* Whether `got` is what is due; if not, that is the failure. */
bool is_due(struct trial *trial, const char *what, int64_t got, int64_t due);

#endif
