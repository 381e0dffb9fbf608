/* A progress line on standard error about once a second. */
#ifndef PROGRESS_H
#define PROGRESS_H

#include <stdbool.h>
#include <stdint.h>
#include <time.h>

struct progress {
    bool shown;
    bool terminal;      /* where each line takes the place of the one before */
    time_t last;
};

/* It is shown if it is wanted, or if standard error is a terminal. */
struct progress progress_start(bool wanted);

/* To be called often; shows a line if a second has passed. */
void progress_tell(struct progress *progress, uint64_t done, uint64_t all);

/* Shows the last line. */
void progress_end(const struct progress *progress, uint64_t done, uint64_t all);

#endif
