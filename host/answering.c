/* Answers and the bound, under trial in a soak. */
#include "answering.h"

/* Each card's answer among all answers is the one asked for singly, and is
   ordinary or E; there is none from card n up. */
static bool answers_are_right(struct trial *trial)
{
    const struct exchange *e = &trial->exchange;
    for (size_t p = 0; p < OMH_CARDS; p++)
        trial->answers[p] = UNTOUCHED;
    uint8_t refused = omh_all_answers(e->n, e->m, e->t, e->x, e->statuses, OMH_CARDS, e->table, OMH_TABLE,
                                      trial->answers, OMH_CARDS);
    if (!is_due(trial, "all answers, refusal", refused, 0))
        return false;
    for (size_t p = 0; p < OMH_CARDS; p++) {
        int32_t answer = UNTOUCHED;
        refused = omh_answer_for(e->n, e->m, e->t, e->x, e->statuses, OMH_CARDS, e->table, OMH_TABLE, p, &answer);
        if (!is_due(trial, "a card's answer, refusal", refused, p < e->n ? 0 : OMH_REFUSED_OWN)
            || !is_due(trial, "a card's answer among all, and singly", trial->answers[p], answer)
            || !is_due(trial, "whether an answer is ordinary or E", is_ordinary(answer) || answer == OMH_E, p < e->n))
            return false;
    }
    return true;
}

static bool bound_is_right(struct trial *trial)
{
    const struct exchange *e = &trial->exchange;
    int32_t held = UNTOUCHED;
    return is_due(trial, "the bound, refusal", omh_bound(e->n, e->m, e->statuses, OMH_CARDS, &held), 0)
        && is_due(trial, "whether the bound holds", held, trial->within);
}

/* What every good card answers within the bound. To an arbitrary sender that
   is one word, whichever: here that of the first good card. */
static int32_t common_answer(const struct trial *trial)
{
    const struct exchange *e = &trial->exchange;
    switch (e->statuses[e->t]) {
    case OMH_GOOD:
        return e->x;
    case OMH_SYMMETRIC:
        return is_ordinary(e->table[0]) ? e->table[0] : OMH_E;
    case OMH_ARBITRARY:
        for (size_t card = 0; card < e->n; card++)
            if (e->statuses[card] == OMH_GOOD)
                return trial->answers[card];
    }
    return OMH_E;
}

static bool good_cards_agree(struct trial *trial)
{
    const struct exchange *e = &trial->exchange;
    int32_t due = common_answer(trial);
    for (size_t card = 0; card < e->n; card++)
        if (e->statuses[card] == OMH_GOOD
            && !is_due(trial, "a good card's answer within the bound", trial->answers[card], due))
            return false;
    return true;
}

bool answering_is_right(struct trial *trial)
{
    return answers_are_right(trial)
        && bound_is_right(trial)
        && (!trial->within || good_cards_agree(trial));
}
