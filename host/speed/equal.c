/*
 * equal COUNT: calls the library and each form of C with the same random input, COUNT times for each function,
 * and compares answers, refusals and all lent memory. At a difference it prints the input and ends with 1.
 */
#include <stdio.h>
#include <stdlib.h>
#include <string.h>

#include "numbers.h"
#include "versions.h"

enum { LONGEST = 100, FILE_MOST = 24 + 7 * 66 };

/* What one call is given and what it leaves; every list has room for one element too many. */
struct call {
    size_t n, m, t, p, slot;
    size_t list_len, words_len, votes_len, books_len, frame_len;
    size_t statuses_len, table_len, answers_len, outcome_len, file_len;
    int32_t x;
    uint16_t current;
    int32_t list[LONGEST], words[OMH_SLOTS + 1], votes[OMH_SLOTS + 1], books[OMH_BOOKS + 1], table[OMH_TABLE + 1];
    uint8_t frame[OMH_FRAME + 1], statuses[OMH_CARDS + 1], file[FILE_MOST];
    int32_t word, answers[OMH_CARDS + 1], outcome[OMH_OUTCOME + 1];
    uint8_t text[OMH_TEXT];
    size_t text_len;
    uint8_t refusal;
};

#define SETTINGS c->n, c->m, c->t, c->p
#define BOOK c->words, c->words_len, c->votes, c->votes_len
#define BOOKS c->books, c->books_len
#define EXCHANGE c->n, c->m, c->t, c->x, c->statuses, c->statuses_len, c->table, c->table_len

static void majority(const struct version *v, struct call *c)
{
    c->word = v->majority(c->list, c->list_len);
}

static void vote_at(const struct version *v, struct call *c)
{
    c->refusal = v->vote_at(SETTINGS, c->words, c->words_len, c->slot, &c->word);
}

static void open(const struct version *v, struct call *c)
{
    c->refusal = v->open(SETTINGS, BOOK);
}

static void enter(const struct version *v, struct call *c)
{
    c->refusal = v->enter(SETTINGS, BOOK, c->slot, c->word);
}

static void refill(const struct version *v, struct call *c)
{
    c->refusal = v->refill(SETTINGS, BOOK);
}

static void enter_frame(const struct version *v, struct call *c)
{
    c->refusal = v->enter_frame(SETTINGS, BOOK, c->current, c->frame, c->frame_len);
}

static void books_open(const struct version *v, struct call *c)
{
    c->refusal = v->books_open(SETTINGS, BOOKS);
}

static void books_enter(const struct version *v, struct call *c)
{
    c->refusal = v->books_enter(SETTINGS, BOOKS, c->slot, c->word);
}

static void books_refill(const struct version *v, struct call *c)
{
    c->refusal = v->books_refill(SETTINGS, BOOKS);
}

static void books_enter_frame(const struct version *v, struct call *c)
{
    c->refusal = v->books_enter_frame(SETTINGS, BOOKS, c->current, c->frame, c->frame_len);
}

static void word_for(const struct version *v, struct call *c)
{
    c->refusal = v->word_for(EXCHANGE, c->p, c->slot, &c->word);
}

static void fill(const struct version *v, struct call *c)
{
    c->refusal = v->fill(EXCHANGE, c->p, BOOK);
}

static void answer_for(const struct version *v, struct call *c)
{
    c->refusal = v->answer_for(EXCHANGE, c->p, &c->word);
}

static void all_answers(const struct version *v, struct call *c)
{
    c->refusal = v->all_answers(EXCHANGE, c->answers, c->answers_len);
}

static void outcome_start(const struct version *v, struct call *c)
{
    c->refusal = v->outcome_start(c->outcome, c->outcome_len);
}

static void outcome_set(const struct version *v, struct call *c)
{
    c->refusal = v->outcome_set(EXCHANGE, c->outcome, c->outcome_len);
}

static void list(const struct version *v, struct call *c)
{
    c->text_len = v->list(c->file, c->file_len, c->text);
}

#define NAMED(prefix, function) {#function, function},
static const struct function { const char *name; void (*make)(const struct version *, struct call *); } functions[] = {
    PEER_CALLS(NAMED, )
};

static const struct version omh = VERSION(omh), forms[] = {VERSION(same), VERSION(bools), VERSION(any)};

/* Whether to spoil one thing: seldom, so that most calls are not refused. */
static bool seldom(void)
{
    return below(40) == 0;
}

/* A number below `end`, seldom one that is not. */
static size_t mostly_below(size_t end)
{
    return seldom() || end == 0 ? end + below(3) : below(end);
}

static size_t length(size_t right)
{
    return seldom() ? right - 1 + 2 * below(2) : right;
}

/* Words out of a few, the first ones most often, so that some have the majority and some have not. */
static void some_words(int32_t *words, size_t len)
{
    static const int32_t edges[] = {OMH_E, OMH_E + 1, OMH_E + 2, OMH_E + 3, OMH_E + 4, OMH_CONTRADICTED, OMH_E - 1,
                                    1 - OMH_E, -OMH_E, INT32_MIN, INT32_MAX, 0, -120};
    int32_t few[6];
    for (size_t i = 0; i < 6; i++)
        few[i] = below(3) ? edges[below(13)] : (int32_t)below(UINT32_MAX);
    size_t spread = 1 + below(6);
    for (size_t i = 0; i < len; i++)
        words[i] = few[below(1 + below(spread))];
}

static void some_settings(struct call *c)
{
    c->n = seldom() ? 0 : 1 + mostly_below(OMH_CARDS);
    c->m = mostly_below(c->n < 4 ? c->n : 4);
    c->t = mostly_below(c->n);
    c->p = mostly_below(c->n);
    c->slot = 0;
    for (size_t level = below(c->m + 1); level > 0; level--)
        c->slot = 10 * c->slot + 1 + mostly_below(c->n);
}

static void some_exchange(struct call *c)
{
    c->x = (int32_t)below(2 * OMH_E - 1) - (OMH_E - 1);
    if (seldom())
        some_words(&c->x, 1);
    for (size_t q = 0; q <= OMH_CARDS; q++)
        c->statuses[q] = (uint8_t)(seldom() && seldom() ? below(256) : q < c->n && below(2) ? below(4) : 0);
    some_words(c->table, OMH_TABLE + 1);
    some_words(c->answers, OMH_CARDS + 1);
    c->statuses_len = length(OMH_CARDS);
    c->table_len = length(OMH_TABLE);
    c->answers_len = length(OMH_CARDS);
    some_words(c->outcome, OMH_OUTCOME + 1);
    c->outcome_len = length(OMH_OUTCOME);
}

static void some_frame(struct call *c)
{
    static const uint16_t ages[] = {1, 32767, 32768, 65535};
    c->current = (uint16_t)below(65536);
    size_t level = below(c->m + 1);
    uint8_t *at = put_bytes(c->frame, "OMH", 3);
    at = put(at, 1, 2);
    at = put(at, (size_t)c->current + 65536 - (seldom() ? ages[below(4)] : 0), 2);
    at = put(at, seldom() ? below(OMH_CARDS) : c->t, 1);
    at = put(at, level, 1);
    for (size_t i = 0; i < OMH_ROUNDS; i++)
        at = put(at, i < level ? mostly_below(c->n) : 255, 1);
    at = put(at, seldom() ? below(OMH_CARDS) : c->p, 1);
    int32_t word;
    some_words(&word, 1);
    put(at, (uint32_t)word, 4);
    c->frame_len = length(OMH_FRAME);
    if (below(10) == 0)
        c->frame[below(OMH_FRAME)] = (uint8_t)below(256);
}

static void some_file(struct call *c)
{
    size_t count = below(seldom() ? 67 : 65);
    uint8_t *at = put_bytes(c->file, "OMX", 3);
    at = put(at, 1, 2);
    at = put(at, c->n, 1);
    at = put(at, c->m, 1);
    at = put(at, c->t, 1);
    at = put_bytes(at, c->statuses, OMH_CARDS);
    at = put(at, (uint32_t)c->x, 4);
    at = put(at, count, 2);
    for (size_t i = 0; i < count; i++) {
        at = put(at, below(seldom() && seldom() ? 1200 : OMH_SLOTS), 2);
        at = put(at, below(seldom() && seldom() ? 12 : OMH_CARDS), 1);
        at = put(at, (uint32_t)c->table[i], 4);
    }
    c->file_len = seldom() ? below(FILE_MOST) : (size_t)(at - c->file);
    if (below(10) == 0)
        c->file[below(24)] = (uint8_t)below(256);
}

static void some_call(struct call *c)
{
    some_settings(c);
    some_words(&c->word, 1);
    c->list_len = below(3) ? below(12) : below(LONGEST + 1);
    some_words(c->list, LONGEST);
    some_words(c->words, OMH_SLOTS + 1);
    some_words(c->votes, OMH_SLOTS + 1);
    c->words_len = length(OMH_SLOTS);
    c->votes_len = length(OMH_SLOTS);
    some_words(c->books, OMH_BOOKS + 1);
    c->books_len = length(OMH_BOOKS);
    some_exchange(c);
    some_frame(c);
    some_file(c);
}

/* Calls the library and each form with what is given; false, and the input printed, where one differs. */
static bool compare(const struct function *f, const struct call *given, struct call *left)
{
    static struct call right;
    memcpy(left, given, sizeof *given);
    f->make(&omh, left);
    for (size_t i = 0; i < sizeof forms / sizeof *forms; i++) {
        memcpy(&right, given, sizeof *given);
        f->make(&forms[i], &right);
        if (memcmp(left, &right, sizeof right) == 0)
            continue;
        printf("%s_%s differs; struct call was ", forms[i].prefix, f->name);
        for (size_t j = 0; j < sizeof *given; j++)
            printf("%02x", ((const uint8_t *)given)[j]);
        putchar('\n');
        return false;
    }
    return true;
}

int main(int argc, char **argv)
{
    static struct call given, left;
    size_t count = argc == 2 ? strtoul(argv[1], NULL, 10) : 0, compared = 0, refused = 0;
    for (size_t i = 0; i < count; i++) {
        some_call(&given);
        for (size_t f = 0; f < sizeof functions / sizeof *functions; f++) {
            if (!compare(&functions[f], &given, &left))
                return 1;
            compared++;
            refused += left.refusal != 0 || left.text[0] == 'r';
        }
    }
    printf("%zu calls compared in each form, no difference (%zu of them refused)\n", compared, refused);
    return compared == 0;
}
