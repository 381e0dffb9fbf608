/* The inputs of the cases, the same in every run. */
#include "inputs.h"

#include <stdio.h>
#include <string.h>

#include "../peer/paths.h"
#include "../peer/peer.h"
#include "numbers.h"

static int32_t some_word(bool mixed)
{
    static const int32_t words[] = {-120, -120, -120, 7, 500, OMH_E, OMH_E + 1, INT32_MAX};
    return mixed ? words[below(8)] : -120;
}

/* A frame at the deepest live level, with its slot and word: its relays are the first cards after p, round, that are not t. */
static void make_frame(struct input *in, int32_t word)
{
    size_t level = in->m < in->n - 2 ? in->m : in->n - 2;
    uint8_t *at = put_bytes(in->frame, "OMH", 3);
    at = put(at, 1, 2);
    at = put(at, in->current, 2);
    at = put(at, in->t, 1);
    at = put(at, level, 1);
    size_t q = in->p;
    in->slot = 0;
    for (size_t i = 0; i < OMH_ROUNDS; i++) {
        do
            q = (q + 1) % in->n;
        while (q == in->t);
        at = put(at, i < level ? q : 255, 1);
        if (i < level)
            in->slot = longer(in->slot) + q;
    }
    at = put(at, in->p, 1);
    put(at, (uint32_t)word, 4);
    in->told = word;
}

static void make_file(struct input *in)
{
    uint8_t *at = put_bytes(in->file, "OMX", 3);
    at = put(at, 1, 2);
    at = put(at, in->n, 1);
    at = put(at, in->m, 1);
    at = put(at, in->t, 1);
    at = put_bytes(at, in->statuses, OMH_CARDS);
    at = put(at, (uint32_t)in->x, 4);
    at = put(at, EXCEPTIONS, 2);
    for (int i = 0; i < EXCEPTIONS; i++) {
        at = put(at, below(OMH_SLOTS), 2);
        at = put(at, below(OMH_CARDS), 1);
        at = put(at, (uint32_t)some_word(true), 4);
    }
}

static bool enters(enum kind kind)
{
    return kind == WORD || kind == ENTER || kind == LONG_WORD || kind == LONG_ENTER;
}

/* Input i, the votes of its book refilled; for a majority, n is the length of the list. Where a word is entered, its
   slot holds it already: every call leaves the book as it is. */
static void make_input(struct input *in, size_t i, enum kind kind, size_t n, size_t m, bool mixed)
{
    in->n = n;
    in->m = m;
    in->t = i % n;
    in->p = (in->t + 1 + below(n - 1)) % n;
    for (size_t k = 0; k < OMH_SLOTS; k++)
        in->words[k] = some_word(mixed);
    in->current = 3;
    make_frame(in, some_word(mixed));
    if (enters(kind))
        in->words[in->slot] = in->told;
    in->x = -120;
    for (size_t q = 0; q < n; q++)
        in->statuses[q] = (uint8_t)(mixed ? below(4) : 0);
    for (size_t k = 0; k < OMH_TABLE; k++)
        in->table[k] = some_word(mixed);
    make_file(in);
    same_refill(n, m, in->t, in->p, in->words, OMH_SLOTS, in->votes, OMH_SLOTS);
    for (int32_t *book = in->books; book < in->books + OMH_BOOKS; book += OMH_BOOK) {
        memcpy(book, in->words, sizeof in->words);
        memcpy(book + OMH_SLOTS, in->votes, sizeof in->votes);
    }
}

/* The kind of this name; KINDS if there is none. */
static enum kind kind_of(const char *name)
{
    static const char *const kinds[KINDS] = {
        "majority", "vote", "open", "word", "enter", "refill", "longword", "longenter", "longrefill",
        "dealt", "fill", "answer", "answers", "row", "list",
    };
    enum kind kind = MAJORITY;
    while (kind < KINDS && strcmp(name, kinds[kind]) != 0)
        kind++;
    return kind;
}

bool make_inputs(const char *name, enum kind *kind, struct input inputs[INPUTS])
{
    char kind_name[12], words[10];
    size_t n, m;
    if (sscanf(name, "%11[a-z]-%zu-%zu-%9s", kind_name, &n, &m, words) != 4 || n < 2 || n > OMH_CARDS)
        return false;
    bool mixed = strcmp(words, "mixed") == 0;
    if (!mixed && strcmp(words, "agreeing") != 0)
        return false;
    *kind = kind_of(kind_name);
    if (*kind == KINDS)
        return false;
    for (size_t i = 0; i < INPUTS; i++)
        make_input(&inputs[i], i, *kind, n, m, mixed);
    return true;
}
