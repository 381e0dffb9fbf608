/* Options as people write them: --NAME, --NAME VALUE or --NAME=VALUE, anywhere
   among the arguments. After -- come arguments alone. What begins with a single
   - is an argument: a negative number, or - itself. */
#ifndef OPTIONS_H
#define OPTIONS_H

#include <stdbool.h>
#include <stdint.h>

struct option {
    const char *name;       /* with its --; null ends the list */
    uint64_t *number;       /* the place of its value; null if it takes none */
    uint64_t least;         /* that the value may be */
    bool *given;            /* set where the option is given; may be null */
};

/* Takes the options out of a command's arguments, and answers how many
   arguments are left at the front. After a message, -1. `options` is null where
   the command has none. */
int take_options(const char *command, const struct option *options, int count, char **arguments);

/* Whether an argument before -- is this one. */
bool has_option(const char *name, int count, char **arguments);

#endif
