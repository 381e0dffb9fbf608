/* Wrong functions in the place of the library's, one at a time, named by the
   environment's IMPOSTOR: a soak has to find each. Linked with the linker's
   --wrap, by which a call of omh_X comes to __wrap_omh_X, and __real_omh_X is
   the library's. Without IMPOSTOR, and in all other calls, the library's
   answer goes through. */
#include "../omh.h"

#include <stdbool.h>
#include <stdlib.h>
#include <string.h>

#define FUNCTION(name, answer, parameters)  \
    answer __real_##name parameters;        \
    answer __wrap_##name parameters;
#include "functions.h"
#undef FUNCTION

static bool is(const char *impostor)
{
    const char *chosen = getenv("IMPOSTOR");
    return chosen != NULL && strcmp(chosen, impostor) == 0;
}

/* The statuses that the bench's calls see. */
static const uint8_t *seen(const uint8_t *statuses)
{
    static uint8_t changed[OMH_CARDS];
    if (!is("symmetric cards are taken for arbitrary"))
        return statuses;
    for (size_t card = 0; card < OMH_CARDS; card++)
        changed[card] = statuses[card] == 2 ? 1 : statuses[card];
    return changed;
}

uint8_t __wrap_omh_all_answers(size_t n, size_t m, size_t t, int32_t x, const uint8_t *statuses, size_t statuses_len,
                               const int32_t *table, size_t table_len, int32_t *answers, size_t answers_len)
{
    uint8_t refused = __real_omh_all_answers(n, m, t, x, seen(statuses), statuses_len, table, table_len,
                                             answers, answers_len);
    if (is("all answers are the sender's value"))
        for (size_t p = 0; p < n; p++)
            answers[p] = x;
    if (is("all answers touch a place from n up") && n < OMH_CARDS)
        answers[n] = OMH_E;
    return refused;
}

uint8_t __wrap_omh_answer_for(size_t n, size_t m, size_t t, int32_t x, const uint8_t *statuses, size_t statuses_len,
                              const int32_t *table, size_t table_len, size_t p, int32_t *answer)
{
    if (is("card 0 is asked for every card"))
        p = 0;
    return __real_omh_answer_for(n, m, t, x, seen(statuses), statuses_len, table, table_len, p, answer);
}

uint8_t __wrap_omh_bound(size_t n, size_t m, const uint8_t *statuses, size_t statuses_len, int32_t *held)
{
    uint8_t refused = __real_omh_bound(n, m, statuses, statuses_len, held);
    if (is("the bound always holds"))
        *held = 1;
    return refused;
}

uint8_t __wrap_omh_word_for(size_t n, size_t m, size_t t, int32_t x, const uint8_t *statuses, size_t statuses_len,
                            const int32_t *table, size_t table_len, size_t p, size_t slot, int32_t *word)
{
    uint8_t refused = __real_omh_word_for(n, m, t, x, seen(statuses), statuses_len, table, table_len, p, slot, word);
    if (is("a relayed word is not wrapped") && refused == 0 && slot > 0 && *word > OMH_E && *word <= OMH_E + OMH_ROUNDS)
        *word -= 1;
    return refused;
}

static void keep_contradicted(int32_t *words, const int32_t before[OMH_SLOTS])
{
    for (size_t slot = 0; slot < OMH_SLOTS; slot++)
        if (before[slot] == OMH_CONTRADICTED)
            words[slot] = OMH_CONTRADICTED;
}

uint8_t __wrap_omh_fill(size_t n, size_t m, size_t t, int32_t x, const uint8_t *statuses, size_t statuses_len,
                        const int32_t *table, size_t table_len, size_t p,
                        int32_t *words, size_t words_len, int32_t *votes, size_t votes_len)
{
    int32_t before[OMH_SLOTS];
    memcpy(before, words, sizeof before);
    uint8_t refused = __real_omh_fill(n, m, t, x, seen(statuses), statuses_len, table, table_len, p,
                                      words, words_len, votes, votes_len);
    if (is("filling touches a slot that is not live"))
        votes[1 + t] = OMH_E;
    if (is("filling leaves contradicted words"))
        keep_contradicted(words, before);
    return refused;
}

uint8_t __wrap_omh_open(size_t n, size_t m, size_t t, size_t p, int32_t *words, size_t words_len,
                        int32_t *votes, size_t votes_len)
{
    int32_t last = votes[OMH_SLOTS - 1], before[OMH_SLOTS];
    memcpy(before, words, sizeof before);
    uint8_t refused = __real_omh_open(n, m, t, p, words, words_len, votes, votes_len);
    if (is("opening leaves the last vote"))
        votes[OMH_SLOTS - 1] = last;
    if (is("opening leaves contradicted words"))
        keep_contradicted(words, before);
    return refused;
}

/* Another rule for a second word: what its slot holds when it comes, and the word that comes. */
static void second_word(int32_t *held, int32_t *word)
{
    if (*held == OMH_E)
        return;
    if (is("the last word wins"))
        *held = OMH_E;
    if (is("the first word wins"))
        *word = *held;
    if (is("a second word E is passed over") && *word == OMH_E)
        *word = *held;
    if (is("words are compared as they read") && omh_read_at(OMH_ROUNDS, *held) == omh_read_at(OMH_ROUNDS, *word))
        *word = *held;
    if (is("a contradicted slot takes the next word") && *held == OMH_CONTRADICTED)
        *held = OMH_E;
}

/* The library's entering by that rule; after a refusal the slot is as it was. */
static uint8_t enter_second(size_t n, size_t m, size_t t, size_t p, int32_t *words, size_t words_len,
                            int32_t *votes, size_t votes_len, size_t slot, int32_t word)
{
    int32_t none = OMH_E, *held = slot < OMH_SLOTS ? &words[slot] : &none, stood = *held;
    second_word(held, &word);
    uint8_t refused = __real_omh_enter(n, m, t, p, words, words_len, votes, votes_len, slot, word);
    if (refused != 0)
        *held = stood;
    return refused;
}

uint8_t __wrap_omh_enter(size_t n, size_t m, size_t t, size_t p, int32_t *words, size_t words_len,
                         int32_t *votes, size_t votes_len, size_t slot, int32_t word)
{
    int32_t answer = votes[0], stood = slot < OMH_SLOTS ? words[slot] : OMH_E, before[OMH_SLOTS];
    memcpy(before, votes, sizeof before);
    uint8_t refused = enter_second(n, m, t, p, words, words_len, votes, votes_len, slot, word);
    if (is("a slot that stays has its votes left") && refused == 0 && words[slot] == stood)
        memcpy(votes, before, sizeof before);
    if (is("a contradicted slot holds E") && refused == 0 && words[slot] == OMH_CONTRADICTED)
        words[slot] = OMH_E;
    if (is("entering re-makes no answer"))
        votes[0] = answer;
    if (is("a second word changes the slot above") && refused == 0 && slot > 0 && stood != OMH_E)
        words[(slot - 1) / OMH_CARDS] = OMH_CONTRADICTED;
    if (is("a bad word is stored as E") && refused == 0 && word > OMH_E + OMH_ROUNDS)
        words[slot] = OMH_E;
    if (is("a refused entering changes a word that is never live") && refused != 0 && words_len == OMH_SLOTS)
        words[OMH_SLOTS - 1] ^= 1;
    if (is("the path is checked first") && refused != 0 && slot >= OMH_SLOTS)
        return OMH_REFUSED_PATH;
    return refused;
}

uint8_t __wrap_omh_enter_frame(size_t n, size_t m, size_t t, size_t p, int32_t *words, size_t words_len,
                               int32_t *votes, size_t votes_len, uint16_t current,
                               const uint8_t *frame, size_t frame_len)
{
    if (is("frames of any age are taken") && frame_len == OMH_FRAME)
        current = (uint16_t)(frame[5] << 8 | frame[6]);
    if (is("a second frame changes nothing") && words[0] != OMH_E && frame_len == OMH_FRAME && frame[8] == 0)
        return 0;
    return __real_omh_enter_frame(n, m, t, p, words, words_len, votes, votes_len, current, frame, frame_len);
}

uint8_t __wrap_omh_write_frame(uint16_t exchange, uint8_t sender, uint8_t level, uint8_t q1, uint8_t q2, uint8_t q3,
                               uint8_t receiver, int32_t word, uint8_t *buffer, size_t buffer_len)
{
    if (is("words are written without their sign"))
        word &= INT32_MAX;
    uint8_t refused = __real_omh_write_frame(exchange, sender, level, q1, q2, q3, receiver, word, buffer, buffer_len);
    if (is("a refused writing leaves a byte") && refused != 0 && buffer_len > 0)
        buffer[0] = 'O';
    return refused;
}

uint8_t __wrap_omh_read_frame(const uint8_t *frame, size_t frame_len, int32_t *fields)
{
    uint8_t refused = __real_omh_read_frame(frame, frame_len, fields);
    if (is("sender and receiver are exchanged") && refused == 0) {
        fields[OMH_SENDER] = frame[12];
        fields[OMH_RECEIVER] = frame[7];
    }
    if (is("a relay named twice is read as another") && refused == 0 && frame[8] > 1 && frame[9] == frame[10])
        fields[OMH_Q2] = frame[9] == 0;
    if (is("a refused reading fills a field") && refused != 0)
        fields[OMH_WORD] = 0;
    return refused;
}

uint8_t __wrap_omh_vote_at(size_t n, size_t m, size_t t, size_t p, const int32_t *words, size_t words_len,
                           size_t slot, int32_t *vote)
{
    uint8_t refused = __real_omh_vote_at(n, m, t, p, words, words_len, slot, vote);
    if (is("every vote is the sender's word") && refused == 0)
        *vote = words[0];
    return refused;
}

uint8_t __wrap_omh_refill(size_t n, size_t m, size_t t, size_t p, const int32_t *words, size_t words_len,
                          int32_t *votes, size_t votes_len)
{
    uint8_t refused = __real_omh_refill(n, m, t, p, words, words_len, votes, votes_len);
    if (is("refilling changes a slot that is not live"))
        votes[1 + t] ^= 1;
    return refused;
}

uint8_t __wrap_omh_held_answer(const int32_t *words, size_t words_len, const int32_t *votes, size_t votes_len,
                               int32_t *answer)
{
    uint8_t refused = __real_omh_held_answer(words, words_len, votes, votes_len, answer);
    if (is("every answer is E"))
        *answer = OMH_E;
    if (is("there is no answer before the sender's word") && words[0] == OMH_E)
        *answer = OMH_E;
    return refused;
}
