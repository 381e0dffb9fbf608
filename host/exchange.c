/* An exchange on the bench, which a soak draws at random. */
#include "exchange.h"

#include <inttypes.h>
#include <string.h>

enum { PALETTE = 8 };       /* how many words a table is drawn from */

#define ORDINARY_MOST INT32_C(999999999)

const char *const status_names[] = {
    [OMH_GOOD] = "good", [OMH_ARBITRARY] = "arbitrary", [OMH_SYMMETRIC] = "symmetric", [OMH_MANIFEST] = "manifest",
};

bool is_ordinary(int32_t word)
{
    return word >= -ORDINARY_MOST && word <= ORDINARY_MOST;
}

bool exchange_within_bound(const struct exchange *e)
{
    size_t cards[] = {[OMH_GOOD] = 0, [OMH_ARBITRARY] = 0, [OMH_SYMMETRIC] = 0, [OMH_MANIFEST] = 0};
    for (size_t card = 0; card < e->n; card++)
        cards[e->statuses[card]]++;
    return e->n > 2 * cards[OMH_ARBITRARY] + 2 * cards[OMH_SYMMETRIC] + cards[OMH_MANIFEST] + e->m && cards[OMH_ARBITRARY] <= e->m;
}

static int32_t draw_ordinary(struct random *random)
{
    switch (random_below(random, 4)) {
    case 0:
        return (int32_t)random_below(random, 5) - 2;
    case 1:
        return ORDINARY_MOST;
    case 2:
        return -ORDINARY_MOST;
    default:
        return (int32_t)random_below(random, 2 * (uint64_t)ORDINARY_MOST + 1) - ORDINARY_MOST;
    }
}

/* E, wrapped missing or bad: the ends of their ranges among them. */
static int32_t draw_other(struct random *random)
{
    static const int32_t others[] = {
        OMH_E, OMH_E + 1, OMH_E + 2, OMH_E + 3, OMH_E + 4, OMH_CONTRADICTED, INT32_MAX, -OMH_E, INT32_MIN,
    };
    return others[random_below(random, sizeof others / sizeof others[0])];
}

static void draw_table(struct exchange *e, struct random *random)
{
    int32_t palette[PALETTE];
    int32_t second = draw_ordinary(random);
    for (size_t i = 0; i < PALETTE; i++) {
        switch (random_below(random, 4)) {
        case 0:
            palette[i] = e->x;
            break;
        case 1:
            palette[i] = second;
            break;
        case 2:
            palette[i] = draw_ordinary(random);
            break;
        default:
            palette[i] = draw_other(random);
        }
    }
    for (size_t i = 0; i < OMH_TABLE; i++)
        e->table[i] = palette[random_below(random, PALETTE)];
}

/* Three times in four no card is made faulty that would break the bound. */
static void draw_statuses(struct exchange *e, struct random *random)
{
    memset(e->statuses, OMH_GOOD, sizeof e->statuses);
    bool within = !random_once_in(random, 4);
    for (size_t tries = random_below(random, e->n + 1); tries > 0; tries--) {
        size_t card = random_below(random, e->n);
        uint8_t before = e->statuses[card];
        e->statuses[card] = (uint8_t)(1 + random_below(random, OMH_MANIFEST));
        if (within && !exchange_within_bound(e))
            e->statuses[card] = before;
    }
}

void exchange_draw(struct exchange *e, struct random *random)
{
    size_t one = random_below(random, OMH_CARDS);
    size_t other = random_below(random, OMH_CARDS);
    e->n = 1 + (one > other ? one : other);     /* rather many cards than few */
    e->m = random_below(random, e->n <= OMH_ROUNDS ? e->n : OMH_ROUNDS + 1);
    e->t = random_below(random, e->n);
    e->x = draw_ordinary(random);
    draw_statuses(e, random);
    draw_table(e, random);
}

uint8_t exchange_word(const struct exchange *e, size_t p, size_t slot, int32_t *word)
{
    return omh_word_for(e->n, e->m, e->t, e->x, e->statuses, OMH_CARDS, e->table, OMH_TABLE, p, slot, word);
}

void exchange_print(const struct exchange *e, FILE *file)
{
    fprintf(file, "n %zu, m %zu, t %zu, x %" PRId32 ", statuses", e->n, e->m, e->t, e->x);
    for (size_t card = 0; card < e->n; card++)
        fprintf(file, " %u", (unsigned)e->statuses[card]);
    putc('\n', file);
}
