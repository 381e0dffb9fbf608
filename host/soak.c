/* bench soak: the library tried with random exchanges. */
#include "commands.h"
#include "ending.h"
#include "progress.h"
#include "trying.h"

#include <inttypes.h>
#include <time.h>

static const char help[] =
    "usage: bench soak [--seed S] [--count C] [--first F] [--progress]\n"
    "\n"
    "Tries the library with C random exchanges, 10000 if C is not given. Checks that\n"
    "within the bound the good cards agree and answer what they should; that a book\n"
    "ends at its card's answer when the words come in any order, once or more often,\n"
    "as frames or not, with refused ones among them; and that a slot holds what it\n"
    "should when different words come on its path.\n"
    "\n"
    "The seed S is printed; if it is not given it comes from the clock. Exchanges are\n"
    "numbered from 1 to 18446744073709551615, and --first F begins with exchange F of\n"
    "the seed. --progress shows on standard error, about once a second, how far it\n"
    "is; on a terminal that is shown anyway.\n"
    "\n"
    "Exit status: 0 if all was right, 1 on the first failure, 2 for wrong usage.\n";

struct soak {
    uint64_t seed, first, count;
    bool seeded;            /* the seed is given */
    bool progress;          /* wanted */
    uint64_t exchanges;     /* done */
    uint64_t within;        /* of these, within the bound */
};

static struct soak asked = {.first = 1, .count = 10000};

static const struct option options[] = {
    {"--seed", &asked.seed, 0, &asked.seeded},
    {"--count", &asked.count, 1, NULL},
    {"--first", &asked.first, 1, NULL},
    {"--progress", NULL, 0, &asked.progress},
    {NULL, NULL, 0, NULL},
};

static uint64_t seed_of_clock(void)
{
    struct timespec now;
    timespec_get(&now, TIME_UTC);
    return (uint64_t)now.tv_sec * UINT64_C(1000000000) + (uint64_t)now.tv_nsec;
}

/* Whether there are so many exchanges from the first on; if not, says so. */
static bool has_exchanges(const struct soak *soak)
{
    uint64_t left = UINT64_MAX - soak->first + 1;
    if (soak->count <= left)
        return true;
    fprintf(stderr, "bench: exchanges go up to %" PRIu64 ": with --first %" PRIu64 " --count is at most %" PRIu64
            ", not %" PRIu64 "\n", UINT64_MAX, soak->first, left, soak->count);
    return false;
}

/* The last exchange failed: what it was, and how to repeat it. */
static void print_failure(const struct soak *soak, const struct trial *trial)
{
    uint64_t number = soak->first + soak->exchanges - 1;
    printf("failed in exchange %" PRIu64 " of seed %" PRIu64 ": %s: %" PRId64 ", due %" PRId64 "\n",
           number, soak->seed, trial->failure, trial->got, trial->due);
    exchange_print(&trial->exchange, stdout);
    printf("to repeat it: bench soak --seed %" PRIu64 " --first %" PRIu64 " --count 1\n", soak->seed, number);
}

/* Runs trial after trial, up to the first that fails. */
static void soak_run(struct soak *soak, struct trial *trial)
{
    struct progress progress = progress_start(soak->progress);
    bool good = true;
    while (good && soak->exchanges < soak->count) {
        good = trial_run(trial, soak->seed, soak->first + soak->exchanges);
        soak->exchanges++;
        soak->within += trial->within;
        progress_tell(&progress, soak->exchanges, soak->count);
    }
    progress_end(&progress, soak->exchanges, soak->count);
    if (!good)
        print_failure(soak, trial);
}

static void print_count(const char *name, uint64_t count)
{
    printf("%-16s  %12" PRIu64 "\n", name, count);
}

static int run(int count, char **arguments)
{
    (void)arguments;
    if (count > 0)
        return wrong_usage("soak takes options alone");
    struct soak soak = asked;
    if (!has_exchanges(&soak))
        return WRONG_USAGE;
    if (!soak.seeded)
        soak.seed = seed_of_clock();
    printf("seed %" PRIu64 "\n", soak.seed);
    fflush(stdout);
    static struct trial trial;
    soak_run(&soak, &trial);
    print_count("exchanges", soak.exchanges);
    print_count("within the bound", soak.within);
    print_count("enterings", trial.enterings);
    print_count("contradictions", trial.contradictions);
    print_count("refusals", trial.refusals);
    print_count("failures", trial.failure != NULL);
    return trial.failure == NULL ? DONE : REFUSED;
}

const struct command soak_command = {"soak", "tries the library with random exchanges", help, options, run};
