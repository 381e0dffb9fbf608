/* A rack on the bench, and the outcome of its exchanges. */
#include "rack.h"

#include "number.h"

#include <string.h>

/* The outcome is not refused, as it has the right length. */
void rack_start(struct rack *rack, const struct exchange *e)
{
    *rack = (struct rack){.n = e->n, .m = e->m};
    memcpy(rack->statuses, e->statuses, sizeof rack->statuses);
    omh_outcome_start(rack->outcome, OMH_OUTCOME);
}

uint8_t rack_set_row(struct rack *rack, const struct exchange *e)
{
    uint8_t refused = omh_outcome_set(e->n, e->m, e->t, e->x, e->statuses, OMH_CARDS, e->table, OMH_TABLE,
                                      rack->outcome, OMH_OUTCOME);
    if (refused == 0)
        rack->set[e->t] = true;
    return refused;
}

/* What the card answered to the sender. */
static int32_t word_at(const struct rack *rack, size_t sender, size_t card)
{
    return rack->outcome[OMH_CARDS * sender + card];
}

/* ---- the table */

/* The longest text of a card's column. */
static int width_of(const struct rack *rack, size_t card)
{
    char text[WORD_TEXT];
    size_t width = strlen(status_names[rack->statuses[card]]);
    for (size_t sender = 0; sender < rack->n; sender++) {
        size_t length = strlen(word_text(word_at(rack, sender, card), text));
        if (length > width)
            width = length;
    }
    return (int)width;
}

/* Which cards the columns are of, and which of them are good. */
static void print_head(const struct rack *rack, const int widths[OMH_CARDS])
{
    fputs("card    ", stdout);
    for (size_t card = 0; card < rack->n; card++)
        printf("  %*zu", widths[card], card);
    fputs("\nstatus  ", stdout);
    for (size_t card = 0; card < rack->n; card++)
        printf("  %*s", widths[card], status_names[rack->statuses[card]]);
    putchar('\n');
}

static void print_row(const struct rack *rack, size_t sender, const int widths[OMH_CARDS])
{
    char text[WORD_TEXT];
    printf("sender %zu", sender);
    for (size_t card = 0; card < rack->n; card++)
        printf("  %*s", widths[card], word_text(word_at(rack, sender, card), text));
    puts(rack->set[sender] ? "" : "  not set");
}

/* ---- what is said below it */

/* Whether good cards' words differ in a sender's row; prints the first two that do. */
static bool print_difference(const struct rack *rack, size_t sender)
{
    size_t first = OMH_CARDS;
    for (size_t card = 0; card < rack->n; card++) {
        if (rack->statuses[card] != OMH_GOOD)
            continue;
        if (first == OMH_CARDS)
            first = card;
        if (word_at(rack, sender, card) == word_at(rack, sender, first))
            continue;
        printf("good columns differ: card %zu and card %zu in row %zu\n", first, card, sender);
        return true;
    }
    return false;
}

static void print_whether_equal(const struct rack *rack)
{
    for (size_t sender = 0; sender < rack->n; sender++)
        if (print_difference(rack, sender))
            return;
    puts("good columns equal");
}

/* Not refused, as the rack's exchanges were not. */
static void print_bound(const struct rack *rack)
{
    int32_t held = 0;
    omh_bound(rack->n, rack->m, rack->statuses, OMH_CARDS, &held);
    puts(held ? "bound held" : "bound not held");
}

void rack_print(const struct rack *rack)
{
    int widths[OMH_CARDS];
    for (size_t card = 0; card < rack->n; card++)
        widths[card] = width_of(rack, card);
    print_head(rack, widths);
    for (size_t sender = 0; sender < rack->n; sender++)
        print_row(rack, sender, widths);
    print_whether_equal(rack);
    print_bound(rack);
}
