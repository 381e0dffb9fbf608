/*
 * speed calls CASE COUNT VERSION: makes COUNT calls of a case with one version of the functions.
 * speed times CASE COUNT VERSION..: prints for each version the CPU time of COUNT calls in nanoseconds.
 * speed paths N M: prints how many live paths a card that is not the sender has.
 * A case is KIND-N-M-WORDS: a kind of inputs.h in small letters alone, N cards (for a majority, N words) and
 * M rounds, WORDS agreeing or mixed.
 */
#include <stdio.h>
#include <stdlib.h>
#include <string.h>
#include <time.h>

#include "../peer/paths.h"
#include "inputs.h"
#include "versions.h"

static const struct version versions[] = {
    VERSION(omh), VERSION(same), VERSION(bools), VERSION(any), VERSION(second), VERSION(none),
};
enum { VERSIONS = sizeof versions / sizeof *versions };

/* Rounds of alternating blocks for the times. */
enum { ROUNDS = 20 };

static void usage(void)
{
    fputs("usage: speed calls CASE COUNT VERSION | times CASE COUNT VERSION.. | paths N M\n"
          "VERSION: omh, same, bools, any, second or none\n", stderr);
    exit(2);
}

static const struct version *version_of(const char *prefix)
{
    for (size_t i = 0; i < VERSIONS; i++)
        if (strcmp(prefix, versions[i].prefix) == 0)
            return &versions[i];
    usage();
    return NULL;
}

#define SETTINGS in->n, in->m, in->t, in->p
#define BOOK in->words, OMH_SLOTS, in->votes, OMH_SLOTS
#define BOOKS in->books, OMH_BOOKS
#define EXCHANGE in->n, in->m, in->t, in->x, in->statuses, OMH_CARDS, in->table, OMH_TABLE

/* Answers 0 unless the call is refused. */
static int call(const struct version *v, enum kind kind, struct input *in)
{
    switch (kind) {
    case MAJORITY:
        in->word = v->majority(in->words, in->n);
        return 0;
    case VOTE:
        return v->vote_at(SETTINGS, in->words, OMH_SLOTS, 0, &in->word);
    case OPEN:
        return v->open(SETTINGS, BOOK);
    case WORD:
        return v->enter(SETTINGS, BOOK, in->slot, in->told);
    case ENTER:
        return v->enter_frame(SETTINGS, BOOK, in->current, in->frame, OMH_FRAME);
    case REFILL:
        return v->refill(SETTINGS, BOOK);
    case LONG_WORD:
        return v->books_enter(SETTINGS, BOOKS, in->slot, in->told);
    case LONG_ENTER:
        return v->books_enter_frame(SETTINGS, BOOKS, in->current, in->frame, OMH_FRAME);
    case LONG_REFILL:
        return v->books_refill(SETTINGS, BOOKS);
    case DEALT:
        return v->word_for(EXCHANGE, in->p, in->slot, &in->word);
    case FILL:
        return v->fill(EXCHANGE, in->p, BOOK);
    case ANSWER:
        return v->answer_for(EXCHANGE, in->p, &in->word);
    case ANSWERS:
        return v->all_answers(EXCHANGE, in->answers, OMH_CARDS);
    case ROW:
        return v->outcome_set(EXCHANGE, in->outcome, OMH_OUTCOME);
    case LIST:
        v->list(in->file, sizeof in->file, in->text);
        return in->text[0] == 'r';
    case KINDS:
        break;
    }
    return 1;
}

/* A refused call is no measure of anything. */
static void run(const struct version *v, enum kind kind, struct input *inputs, size_t count)
{
    int refused = 0;
    for (size_t i = 0; i < count; i++)
        refused |= call(v, kind, &inputs[i % INPUTS]);
    if (refused) {
        fputs("speed: a call was refused\n", stderr);
        exit(1);
    }
}

/* CPU time of a block of calls, in nanoseconds. */
static double block(const struct version *v, enum kind kind, struct input *inputs, size_t count)
{
    struct timespec from, to;
    clock_gettime(CLOCK_PROCESS_CPUTIME_ID, &from);
    run(v, kind, inputs, count);
    clock_gettime(CLOCK_PROCESS_CPUTIME_ID, &to);
    return (double)(to.tv_sec - from.tv_sec) * 1e9 + (double)(to.tv_nsec - from.tv_nsec);
}

/* Prints the least block of each version: what else the machine does can only make a block longer. */
static void print_times(char **names, size_t named, enum kind kind, struct input *inputs, size_t count)
{
    double least[VERSIONS];
    for (int i = 0; i < ROUNDS; i++)
        for (size_t j = 0; j < named; j++) {
            double time = block(version_of(names[j]), kind, inputs, count);
            if (i == 0 || time < least[j])
                least[j] = time;
        }
    for (size_t j = 0; j < named; j++)
        printf("%.0f\n", least[j]);
}

static void print_paths(size_t n, size_t m)
{
    size_t live = 0;
    for (size_t k = 0; k < OMH_SLOTS; k++) {
        cards members = relaying(n, 0, 1);
        live += is_live(m, k, &members);
    }
    printf("%zu\n", live);
}

int main(int argc, char **argv)
{
    static struct input inputs[INPUTS];
    enum kind kind;
    if (argc == 4 && strcmp(argv[1], "paths") == 0) {
        print_paths(strtoul(argv[2], NULL, 10), strtoul(argv[3], NULL, 10));
        return 0;
    }
    if (argc < 5 || !make_inputs(argv[2], &kind, inputs))
        usage();
    size_t count = strtoul(argv[3], NULL, 10), named = (size_t)argc - 4;
    if (strcmp(argv[1], "calls") == 0 && named == 1)
        run(version_of(argv[4]), kind, inputs, count);
    else if (strcmp(argv[1], "times") == 0 && named <= VERSIONS)
        print_times(argv + 4, named, kind, inputs, count);
    else
        usage();
    return 0;
}
