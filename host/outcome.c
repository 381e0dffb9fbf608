/* bench outcome: every card is sender in turn, an exchange to a listing file. */
#include "commands.h"
#include "ending.h"
#include "file_refusals.h"
#include "input.h"
#include "listing.h"
#include "notes.h"
#include "rack.h"

static const char help[] =
    "usage: bench outcome FILE..\n"
    "\n"
    "Every card is sender in turn: each FILE is a listing file, - for standard input,\n"
    "with one exchange, in the order of the exchanges. They are of one rack: with the\n"
    "same number of cards, rounds of relay and statuses.\n"
    "\n"
    "Prints a table with a column for each card, headed by its number and status, and\n"
    "a row for each sender: the cards' answers in its exchange, - for none. Where a\n"
    "sender has several exchanges the last counts; where it has none, its row is all\n"
    "- and ends in `not set`. Below the table stand\n"
    "  good columns equal    or    good columns differ: card A and card B in row T\n"
    "  bound held            or    bound not held\n"
    "with the first good cards that differ.\n"
    "\n"
    "A file that cannot be read, that is refused, or that is of another rack than the\n"
    "first ends it: standard error names the file and says what is wrong, and nothing\n"
    "is printed. Notes on standard error are those of `bench list`, with the file.\n"
    "\n"
    "For example, cards 0 and 1 tell one half of the rack -120, the other half 120:\n"
    "  bench outcome examples/turns_inside/*.omx\n"
    "\n"
    "Exit status: 0 if printed, 1 if a file was refused or is of another rack, 2 for\n"
    "wrong usage or a file that cannot be read.\n";

struct outcome {
    const char *first;              /* the name of the first file; null before it */
    struct rack rack;               /* of that file */
    struct exchange exchange;       /* of the file in hand */
};

/* Says in what the exchange in hand first differs from the rack, if it does; answers whether. */
static bool is_of_another_rack(const struct outcome *outcome, const char *name)
{
    const struct rack *rack = &outcome->rack;
    const struct exchange *e = &outcome->exchange;
    size_t card = 0;
    while (card < OMH_CARDS && e->statuses[card] == rack->statuses[card])
        card++;
    if (e->n == rack->n && e->m == rack->m && card == OMH_CARDS)
        return false;
    begin_message(name);
    if (e->n != rack->n)
        fprintf(stderr, "N is %zu, but %zu", e->n, rack->n);
    else if (e->m != rack->m)
        fprintf(stderr, "M is %zu, but %zu", e->m, rack->m);
    else
        fprintf(stderr, "card %zu is %s, but %s", card, status_names[e->statuses[card]],
                status_names[rack->statuses[card]]);
    fprintf(stderr, " in %s: the files are not of one rack\n", outcome->first);
    return true;
}

/* Takes the exchange of a file that is accepted; the first one's rack is that of all. */
static void take_exchange(struct outcome *outcome, const struct bytes *file, const char *name)
{
    exchange_in(file, &outcome->exchange);
    if (outcome->first != NULL)
        return;
    outcome->first = name;
    rack_start(&outcome->rack, &outcome->exchange);
}

/* Sets the row of a file's sender; answers an ending. */
static int take_file(struct outcome *outcome, const char *argument)
{
    const char *name = input_name(argument);
    struct bytes file;
    char text[OMH_TEXT + 1];
    if (!input_read(argument, &file))
        return NOT_DONE;
    uint8_t refused = text_of(&file, text);
    if (refused == 0) {
        take_exchange(outcome, &file, name);
        if (is_of_another_rack(outcome, name))
            return REFUSED;
        refused = rack_set_row(&outcome->rack, &outcome->exchange);
    }
    if (refused != 0) {
        explain_refused_file(refused, &file, name);
        return REFUSED;
    }
    print_notes(&file, name);
    return DONE;
}

static int run(int count, char **arguments)
{
    if (count == 0)
        return wrong_usage("outcome takes one argument or more: FILE..");
    static struct outcome outcome;
    for (int i = 0; i < count; i++) {
        int status = take_file(&outcome, arguments[i]);
        if (status != DONE)
            return status;
    }
    rack_print(&outcome.rack);
    return DONE;
}

const struct command outcome_command = {
    "outcome", "tells the answers to each sender, from listing files of one rack", help, NULL, run,
};
