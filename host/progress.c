/* A progress line on standard error about once a second. */
#define _POSIX_C_SOURCE 200809L     /* for isatty and fileno */

#include "progress.h"

#include <inttypes.h>
#include <stdio.h>
#include <unistd.h>

struct progress progress_start(bool wanted)
{
    bool terminal = isatty(fileno(stderr));
    return (struct progress){wanted || terminal, terminal, time(NULL)};
}

static void show(uint64_t done, uint64_t all, char end)
{
    fprintf(stderr, "%" PRIu64 " of %" PRIu64 " exchanges%c", done, all, end);
}

void progress_tell(struct progress *progress, uint64_t done, uint64_t all)
{
    time_t now = time(NULL);
    if (!progress->shown || now == progress->last)
        return;
    progress->last = now;
    show(done, all, progress->terminal ? '\r' : '\n');
}

void progress_end(const struct progress *progress, uint64_t done, uint64_t all)
{
    if (progress->shown)
        show(done, all, '\n');
}
