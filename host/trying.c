/* One exchange drawn at random and tried with every check of a soak. */
#include "trying.h"

#include "answering.h"
#include "entering.h"
#include "refusing.h"

bool trial_run(struct trial *trial, uint64_t seed, uint64_t number)
{
    trial->random = random_start(seed, number);
    exchange_draw(&trial->exchange, &trial->random);
    const struct exchange *e = &trial->exchange;
    trial->within = exchange_within_bound(e);
    struct settings card = {e->n, e->m, e->t, random_below(&trial->random, e->n)};
    return answering_is_right(trial)
        && writing_is_refused(trial)
        && entering_is_right(trial, &card);
}
