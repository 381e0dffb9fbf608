/* The commands of the bench host. */
#ifndef COMMANDS_H
#define COMMANDS_H

#include "options.h"

struct command {
    const char *name;
    const char *purpose;    /* one line, for the list of commands */
    const char *help;
    const struct option *options;   /* null if it has none */
    int (*run)(int count, char **arguments);    /* without the command's name and its options; answers an ending */
};

extern const struct command list_command;
extern const struct command outcome_command;
extern const struct command frame_command;
extern const struct command card_command;
extern const struct command soak_command;

#endif
