/*
 * draw SEED COUNT: writes COUNT requests for calls, over all functions of omh.h: settings in and out of range, lists of
 * wrong lengths, books of garbage and books in use, words of all kinds, frames and listing files, right and spoiled.
 */
#include "request.h"
#include "values.h"

#include <stdio.h>
#include <stdlib.h>
#include <string.h>

enum {
    TOLD = 2,               /* words that come to a book again and again */
    GUARD = 64,             /* bytes beside a list that a call must leave alone */
    MOST = OMH_BOOKS * sizeof(int32_t) + GUARD,     /* the longest list */
    HEAD = 24,              /* a listing file's bytes before its exceptions, */
    EXCEPTION = 7,          /* of an exception, */
    EXCEPTIONS = 64         /* and how many it may have */
};

static uint64_t left;                   /* requests to be written yet */
static struct request request;
static uint8_t blocks[LISTS][MOST];
static size_t lengths[LISTS];           /* of the lists, as they are */
static struct settings s;
static int32_t told[TOLD];

/* ---- requests */

/* The length that a call is told: never more than there is, which is much where a block begins its room. */
static size_t told_length(const struct block *block, size_t length)
{
    static const size_t more[] = {1, 2, 1000, (size_t)1 << 32};
    if (!spoils())
        return length;
    return block->high || below(2) == 0 ? below(length + 1) : length + more[below(4)];
}

/* Writes the request, with the blocks that are new. */
static void ask(enum function function, size_t lists)
{
    if (left-- == 0)
        exit(fflush(stdout) == 0 ? 0 : 2);
    request.function = function;
    request.blocks = lists;
    for (size_t i = 0; i < lists; i++)
        request.block[i].length = told_length(&request.block[i], lengths[i]);
    if (function == CALL_omh_majority)      /* which reads all that it is told of */
        request.block[0].length = lengths[0];
    fwrite(&request, sizeof request, 1, stdout);
    for (size_t i = 0; i < lists; i++) {
        if (!request.block[i].kept)
            fwrite(blocks[i], 1, request.block[i].size, stdout);
        request.block[i].kept = 1;
    }
}

static void number(size_t i, uint64_t value)
{
    request.numbers[i] = value;
}

static void number_word(size_t i, int32_t word)
{
    request.numbers[i] = (uint64_t)word;
}

/* A new block for list i; answers where its list is. */
static void *lend(size_t i, size_t length, size_t element)
{
    size_t size = length * element;
    struct block *block = &request.block[i];
    *block = (struct block){.size = size + GUARD, .high = below(2)};
    block->list = block->high ? GUARD : 0;
    lengths[i] = length;
    uint8_t *guard = blocks[i] + (block->high ? 0 : size);
    for (size_t k = 0; k < GUARD; k++)
        guard[k] = (uint8_t)any();
    return blocks[i] + block->list;
}

/* Words out of few, so that votes are contested. */
static void lend_words(size_t i, size_t length)
{
    enum { FEW = 5 };
    int32_t few[FEW], *words = lend(i, length, sizeof *words);
    for (size_t k = 0; k < FEW; k++)
        few[k] = any_word();
    size_t spread = 1 + below(FEW);
    for (size_t k = 0; k < length; k++)
        words[k] = few[below(1 + below(spread))];
}

/* From here on another book is told words. */
static void tell_another(void)
{
    for (size_t i = 0; i < TOLD; i++)
        told[i] = any_word();
}

/* A word that comes to the book: any, or one that may have come on its path before. */
static int32_t told_word(void)
{
    return below(2) == 0 ? any_word() : told[below(TOLD)];
}

static uint8_t *put(uint8_t *at, uint64_t value, size_t bytes)
{
    while (bytes-- > 0)
        *at++ = (uint8_t)(value >> 8 * bytes);
    return at;
}

/* ---- words and ages */

static void ask_words(void)
{
    number(0, mostly_below(OMH_ROUNDS + 1));
    number_word(1, any_word());
    ask(CALL_omh_read_at, 0);
    number_word(0, any_word());
    ask(CALL_omh_wrap, 0);
    ask(CALL_omh_unwrap, 0);
    lend_words(0, below(8) == 0 ? below(2000) : below(14));
    ask(CALL_omh_majority, 1);
}

static void ask_ages(void)
{
    uint16_t current = (uint16_t)(below(4) == 0 ? UINT16_MAX : any());
    number(0, current);
    ask(CALL_omh_next_exchange, 0);
    number(1, (uint16_t)(below(2) == 0 ? any() : current + 32766 * below(3) + below(4)));
    ask(CALL_omh_age, 0);
    ask(CALL_omh_age_class, 0);
}

/* ---- frames */

/* A frame for the book of the settings. */
static void lend_frame(size_t i, uint16_t current)
{
    static const uint16_t ages[] = {1, 255, 256, 32767, 32768, 32769, 65535};
    struct path path = path_draw(&s);
    uint8_t *frame = lend(i, OMH_FRAME, 1);
    uint8_t *at = put(frame, 0x4F4D48, 3);
    at = put(at, spoils() ? any() : 1, 2);
    at = put(at, (uint16_t)(current - (spoils() ? ages[below(7)] : 0)), 2);
    at = put(at, mostly(s.t), 1);
    at = put(at, mostly(path.level), 1);
    for (size_t k = 0; k < OMH_ROUNDS; k++)
        at = put(at, mostly(path.relays[k]), 1);
    at = put(at, mostly(s.p), 1);
    put(at, (uint32_t)told_word(), 4);
    if (spoils())
        frame[below(OMH_FRAME)] ^= (uint8_t)(1u << below(8));
}

/* A frame is written, and read again; and another is read. */
static void ask_frames(void)
{
    s = settings_draw();
    struct path path = path_draw(&s);
    number(0, (uint16_t)any());
    number(1, mostly(s.t));
    number(2, mostly(path.level));
    for (size_t k = 0; k < OMH_ROUNDS; k++)
        number(3 + k, mostly(path.relays[k]));
    number(6, mostly(s.p));
    number_word(7, any_word());
    lend(0, OMH_FRAME, 1);
    ask(CALL_omh_write_frame, 1);
    lend_words(1, OMH_FIELDS);
    ask(CALL_omh_read_frame, 2);
    lend_frame(0, (uint16_t)any());
    lend_words(1, OMH_FIELDS);
    ask(CALL_omh_read_frame, 2);
}

/* ---- settings, paths and slots */

static void number_settings(void)
{
    number(0, !spoils() ? s.n : below(2) == 0 ? 0 : beyond(OMH_CARDS + 1));
    number(1, spoils() ? beyond(s.n <= OMH_ROUNDS ? s.n : OMH_ROUNDS + 1) : s.m);
    number(2, spoils() ? beyond(s.n) : s.t);
    number(3, spoils() ? beyond(s.n) : s.p);
}

/* A place for a slot, which holds anything. */
static void lend_slot(size_t i)
{
    size_t *slot = lend(i, 1, sizeof *slot);
    *slot = any();
}

static void ask_paths(void)
{
    s = settings_draw();
    number_settings();
    ask(CALL_omh_settings_refused, 0);
    number(4, slot_draw(&s));
    lend_words(0, 1);
    ask(CALL_omh_is_live, 1);
    struct path path = path_draw(&s);
    number(0, spoils() ? beyond(OMH_ROUNDS + 1) : path.level);
    for (size_t k = 0; k < OMH_ROUNDS; k++)
        number(1 + k, spoils() ? beyond(OMH_CARDS) : path.relays[k]);
    lend_slot(0);
    ask(CALL_omh_slot_of, 1);
    number(0, slot_draw(&s));
    lend_slot(0);
    ask(CALL_omh_slot_above, 1);
}

/* ---- votes and books */

static void ask_votes(void)
{
    s = settings_draw();
    lend_words(0, OMH_SLOTS);
    for (int i = 0; i < 5; i++) {
        number_settings();
        number(4, slot_draw(&s));
        lend_words(1, 1);
        ask(CALL_omh_vote_at, 2);
    }
}

/* A call on a book in use, whose exchange has this number. */
static void ask_of_book(uint16_t current)
{
    number_settings();
    switch (below(12)) {
    case 0:
        ask(CALL_omh_refill, 2);
        break;
    case 1:
        lend_words(2, 1);
        ask(CALL_omh_held_answer, 3);
        break;
    case 2: case 3: case 4: case 5:
        number(4, current);
        lend_frame(2, current);
        ask(CALL_omh_enter_frame, 3);
        break;
    default:
        number(4, slot_draw(&s));
        number_word(5, told_word());
        ask(CALL_omh_enter, 2);
    }
}

/* A book of garbage, which is mostly opened first. */
static void ask_book(void)
{
    s = settings_draw();
    tell_another();
    lend_words(0, OMH_SLOTS);
    lend_words(1, OMH_SLOTS);
    if (below(3) > 0) {
        number_settings();
        ask(CALL_omh_open, 2);
    }
    uint16_t current = (uint16_t)any();
    for (int i = 0; i < 30; i++)
        ask_of_book(current);
}

/* A call on the long list, for one of its books. */
static void ask_of_books(uint16_t current)
{
    s.t = below(s.n);
    number_settings();
    switch (below(8)) {
    case 0:
        ask(CALL_omh_books_open, 1);
        break;
    case 1:
        ask(CALL_omh_books_refill, 1);
        break;
    case 2: case 3: case 4:
        number(4, current);
        lend_frame(1, current);
        ask(CALL_omh_books_enter_frame, 2);
        break;
    default:
        number(4, slot_draw(&s));
        number_word(5, told_word());
        ask(CALL_omh_books_enter, 1);
    }
}

/* A long list of garbage, every card of its rack the sender in turn. */
static void ask_books(void)
{
    s = settings_draw();
    tell_another();
    lend_words(0, OMH_BOOKS);
    uint16_t current = (uint16_t)any();
    for (int i = 0; i < 20; i++)
        ask_of_books(current);
}

/* ---- the bench and listing files */

static void put_statuses(uint8_t statuses[OMH_CARDS])
{
    size_t faulty = below(4);       /* of four cards, about */
    for (size_t card = 0; card < OMH_CARDS; card++)
        statuses[card] = (uint8_t)(card < s.n && below(4) < faulty ? below(4) : 0);
    if (spoils())
        statuses[below(OMH_CARDS)] = (uint8_t)any();
}

static void ask_bound(void)
{
    s = settings_draw();
    put_statuses(lend(0, OMH_CARDS, 1));
    lend_words(1, 1);
    number_settings();
    ask(CALL_omh_bound, 2);
}

/* The four calls on one exchange, whose table is lent. */
static void ask_of_exchange(void)
{
    put_statuses(lend(0, OMH_CARDS, 1));
    number_settings();
    number_word(3, ordinary());
    number(4, mostly_below(s.n));
    lend_words(2, 1);
    ask(CALL_omh_answer_for, 3);
    lend_words(2, OMH_CARDS);
    ask(CALL_omh_all_answers, 3);
    lend_words(2, OMH_SLOTS);
    lend_words(3, OMH_SLOTS);
    ask(CALL_omh_fill, 4);
    for (int i = 0; i < 4; i++) {
        number(5, slot_draw(&s));
        lend_words(2, 1);
        ask(CALL_omh_word_for, 3);
    }
}

static void ask_bench(void)
{
    s = settings_draw();
    lend_words(1, OMH_TABLE);
    for (int i = 0; i < 3; i++)
        ask_of_exchange();
}

/* An outcome of garbage, rows set in it one after the other; and another that starts. */
static void ask_outcome(void)
{
    s = settings_draw();
    lend_words(0, OMH_OUTCOME);
    ask(CALL_omh_outcome_start, 1);
    lend_words(1, OMH_TABLE);
    lend_words(2, OMH_OUTCOME);
    for (int i = 0; i < 6; i++) {
        s.t = below(s.n);
        put_statuses(lend(0, OMH_CARDS, 1));
        number_settings();
        number_word(3, ordinary());
        ask(CALL_omh_outcome_set, 3);
    }
}

static void ask_listing(void)
{
    s = settings_draw();
    size_t count = spoils() ? EXCEPTIONS + 1 + below(4) : below(EXCEPTIONS + 1);
    uint8_t *at = lend(0, HEAD + EXCEPTION * count, 1);
    if (spoils())
        lengths[0] = below(lengths[0]);
    at = put(at, spoils() ? any() : 0x4F4D58, 3);
    at = put(at, spoils() ? any() : 1, 2);
    at = put(at, mostly(s.n), 1);
    at = put(at, mostly(s.m), 1);
    at = put(at, mostly(s.t), 1);
    put_statuses(at);
    at = put(at + OMH_CARDS, (uint32_t)ordinary(), 4);
    at = put(at, spoils() ? any() : count, 2);
    for (size_t i = 0; i < count; i++) {
        s.p = below(s.n);
        at = put(at, slot_draw(&s), 2);
        at = put(at, mostly(s.p), 1);
        at = put(at, (uint32_t)any_word(), 4);
    }
    lend(1, OMH_TEXT, 1);
    ask(CALL_omh_list, 2);
}

int main(int count, char **arguments)
{
    static void (*const asks[])(void) = {
        ask_words, ask_ages, ask_frames, ask_paths, ask_votes, ask_book, ask_books, ask_bound, ask_bench, ask_outcome,
        ask_listing, ask_listing,
    };
    static const uint64_t spoiled[] = {0, 50, 20, 8, 3};
    if (count != 3) {
        fputs("usage: draw SEED COUNT\n", stderr);
        return 2;
    }
    values_start(strtoull(arguments[1], NULL, 10));
    left = strtoull(arguments[2], NULL, 10);
    for (;;) {
        values_spoil(spoiled[below(sizeof spoiled / sizeof spoiled[0])]);
        asks[below(sizeof asks / sizeof asks[0])]();
    }
}
