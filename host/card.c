/* bench card: a card's book, or its books for every sender, into which frames are entered. */
#include "book.h"
#include "commands.h"
#include "ending.h"
#include "fields.h"
#include "frame_refusals.h"
#include "lines.h"
#include "number.h"

#include <string.h>

static const char help[] =
    "usage: bench card N M T P [EXCHANGE]\n"
    "       bench card N M all P [EXCHANGE]\n"
    "\n"
    "Opens the book of card P among N cards, with M rounds of relay and the sender T;\n"
    "with `all`, its books for every sender. Reads frames from standard input, one to\n"
    "a line, in hex as `bench frame` makes them, and enters each, with `all` in the\n"
    "book of the sender that it names; blank lines and lines that begin with # are\n"
    "passed over. EXCHANGE is the current exchange number, 0 if it is not given.\n"
    "\n"
    "Prints a line for each frame, in their order:\n"
    "  accepted\n"
    "  refused K line L path T Q..: what is wrong\n"
    "  garbled line L column C: what is wrong\n"
    "K is the refusal's number. The path is the frame's sender and used relays; it is\n"
    "left out where the bytes have not a frame's length, mark and version. A garbled\n"
    "line is not hex.\n"
    "\n"
    "After `accepted`, `contradicted T Q..: V, then W` tells that the frame's path\n"
    "held the word V and got another, W; - is E. From then on the path's word reads\n"
    "as missing, whatever comes there, and no more is told of it.\n"
    "\n"
    "A line `answer A` has the held answer, - where there is none, at the start and\n"
    "whenever it changes. With `all` a line `answer T A` has the held answer of the\n"
    "book of sender T whenever it changes; all start as -.\n"
    "\n"
    "For example, card 3 among 4 cards is told 30 by card 0, and 45 by card 1:\n"
    "  { bench frame make 0 0 0 - - - 3 30; bench frame make 0 1 0 - - - 3 45; } |\n"
    "      bench card 4 1 all 3\n"
    "\n"
    "Exit status: 0 if all was accepted, 1 if the settings or a frame were refused or\n"
    "a line was garbled, 2 for wrong usage or input that cannot be read.\n";

/* Books in use: that of the sender t, or with `all` those of every card. */
struct card {
    struct settings settings;       /* with `all`, t changes with the book in use */
    bool all;
    uint16_t exchange;
    struct books books;
    int32_t answers[OMH_CARDS];     /* by sender, as opened or last told */
};

/* Of the book in use. Not refused, as its lists have the right length. */
static int32_t held_answer(const struct card *card)
{
    int32_t answer = OMH_E;
    books_answer(card->settings.t, &card->books, &answer);
    return answer;
}

/* Tells the held answer of the book in use, as a listing does. */
static void tell_answer(struct card *card)
{
    char text[WORD_TEXT];
    size_t t = card->settings.t;
    card->answers[t] = held_answer(card);
    fputs("answer ", stdout);
    if (card->all)
        printf("%zu ", t);
    puts(word_text(card->answers[t], text));
}

/* The sender that the frame names. Where that is no card of the rack: 0, whose
   book refuses the frame, as every other would. */
static size_t sender_of(const struct card *card, const int32_t fields[OMH_FIELDS])
{
    size_t sender = (size_t)fields[OMH_SENDER];
    return sender < card->settings.n ? sender : 0;
}

/* The word of the frame's path in the book in use. Not refused, as the fields are well formed. */
static const int32_t *word_at(const struct card *card, const int32_t fields[OMH_FIELDS])
{
    size_t slot = 0;
    omh_slot_of((size_t)fields[OMH_LEVEL], (size_t)fields[OMH_Q1], (size_t)fields[OMH_Q2], (size_t)fields[OMH_Q3],
                &slot);
    return books_words(card->settings.t, &card->books) + slot;
}

/* Tells of a path that holds contradicted where another word stood. */
static void tell_contradicted(const int32_t fields[OMH_FIELDS], int32_t stood, int32_t stands)
{
    char text[WORD_TEXT], came[WORD_TEXT];
    if (stands != OMH_CONTRADICTED || stood == OMH_CONTRADICTED || stood == OMH_E)
        return;
    fputs("contradicted", stdout);
    fields_print_path(fields);
    printf(": %s, then %s\n", word_text(stood, text), word_text(fields[OMH_WORD], came));
}

/* Answers whether the frame was accepted. */
static bool enter_frame(struct card *card, const struct bytes *frame, uint64_t line)
{
    struct settings *s = &card->settings;
    int32_t fields[OMH_FIELDS] = {0};       /* of bytes that are no frame: they are refused below */
    omh_read_frame(frame->at, bytes_kept(frame), fields);
    if (card->all)
        s->t = sender_of(card, fields);
    const int32_t *word = word_at(card, fields);
    int32_t stood = *word;
    uint8_t refused = books_enter_frame(s, &card->books, card->exchange, frame->at, bytes_kept(frame));
    if (refused != 0) {
        print_not_entered(refused, line, frame, s, card->exchange);
        return false;
    }
    puts("accepted");
    tell_contradicted(fields, stood, *word);
    if (held_answer(card) != card->answers[s->t])
        tell_answer(card);
    return true;
}

static bool take_line(void *with, const struct line *line)
{
    if (!line->garbled)
        return enter_frame(with, &line->hex.bytes, line->number);
    print_garbled(line);
    return false;
}

static bool take_settings(int count, char **arguments, struct card *card)
{
    uint64_t n, m, t = 0, p, exchange = 0;
    card->all = strcmp(arguments[2], "all") == 0;
    if (!take_natural("N", arguments[0], 0, SIZE_MAX, &n) || !take_natural("M", arguments[1], 0, SIZE_MAX, &m)
        || (!card->all && !take_natural("T", arguments[2], 0, SIZE_MAX, &t))
        || !take_natural("P", arguments[3], 0, SIZE_MAX, &p)
        || (count == 5 && !take_natural("EXCHANGE", arguments[4], 0, UINT16_MAX, &exchange)))
        return false;
    card->settings = (struct settings){(size_t)n, (size_t)m, (size_t)t, (size_t)p};
    card->exchange = (uint16_t)exchange;
    return true;
}

/* Opens the book of t, with `all` every book from t on; answers 0 or the refusal's number. */
static uint8_t open_books(struct card *card)
{
    struct settings *s = &card->settings;
    do {
        uint8_t refused = books_open(s, &card->books);
        if (refused != 0)
            return refused;
        card->answers[s->t] = held_answer(card);
    } while (card->all && ++s->t < s->n);
    return 0;
}

static int run(int count, char **arguments)
{
    if (count != 4 && count != 5)
        return wrong_usage("card takes four or five arguments: N M T P [EXCHANGE] or N M all P [EXCHANGE]");
    static struct card card;
    if (!take_settings(count, arguments, &card))
        return WRONG_USAGE;
    uint8_t refused = open_books(&card);
    if (refused != 0) {
        print_not_opened(refused, &card.settings);
        return REFUSED;
    }
    if (!card.all)
        tell_answer(&card);
    fflush(stdout);
    return each_line(take_line, &card);
}

const struct command card_command = {
    "card", "enters frames in a card's books, and tells its held answers", help, NULL, run,
};
