/*
 * The library's calls in C, to measure the proved ones against. Each takes, refuses and answers what its
 * namesake in omh.h does; same.c, bools.c and any.c say by which form.
 */
#ifndef PEER_H
#define PEER_H

#include "../omh.h"

#define PEER_CALLS(EACH, form)                                                        \
    EACH(form, majority) EACH(form, vote_at)                                          \
    EACH(form, open) EACH(form, enter) EACH(form, enter_frame) EACH(form, refill)     \
    EACH(form, books_open) EACH(form, books_enter) EACH(form, books_enter_frame)      \
    EACH(form, books_refill)                                                          \
    EACH(form, word_for) EACH(form, fill) EACH(form, answer_for)                      \
    EACH(form, all_answers) EACH(form, outcome_start) EACH(form, outcome_set)         \
    EACH(form, list)

#define PEER_DECLARED(form, name) typeof(omh_##name) form##_##name;
PEER_CALLS(PEER_DECLARED, same)
PEER_CALLS(PEER_DECLARED, bools)
PEER_CALLS(PEER_DECLARED, any)

#endif
