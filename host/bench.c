/* The bench host: finds the command, and sees that all it printed was written. */
#include "commands.h"
#include "ending.h"
#include "omh.h"

#include <stdio.h>
#include <string.h>

static const struct command *const commands[] = {
    &list_command, &outcome_command, &frame_command, &card_command, &soak_command,
};

enum { COMMANDS = sizeof commands / sizeof commands[0] };

static void print_help(void)
{
    puts("usage: bench COMMAND [ARGUMENT..]\n"
         "       bench COMMAND --help\n"
         "       bench --version\n"
         "\n"
         "The bench host of Domewhistle: gives files and frames to the library, and\n"
         "tries the library with random exchanges.\n"
         "\n"
         "Commands:");
    for (size_t i = 0; i < COMMANDS; i++)
        printf("  %-7s %s\n", commands[i]->name, commands[i]->purpose);
    puts("\n"
         "Options begin with --, and -- alone ends them.\n"
         "\n"
         "What the library refuses is printed as a line that begins with `refused K`, K\n"
         "being the number in docs/FORMATS.md, and says which field is wrong; of a\n"
         "listing file standard error says it.\n"
         "\n"
         "Exit status: 0 if all was done; 1 for a refusal, a garbled line, files of two\n"
         "racks or a failed soak; 2 for wrong usage, or where a file cannot be read or\n"
         "written.");
}

static int run_command(const struct command *command, int count, char **arguments)
{
    if (has_option("--help", count, arguments)) {
        fputs(command->help, stdout);
        return DONE;
    }
    int left = take_options(command->name, command->options, count, arguments);
    int ending = left < 0 ? WRONG_USAGE : command->run(left, arguments);
    if (ending != WRONG_USAGE)
        return ending;
    fprintf(stderr, "bench: try 'bench %s --help'\n", command->name);
    return NOT_DONE;
}

static int no_command(const char *name)
{
    if (name == NULL)
        fputs("bench: no command is given\n", stderr);
    else
        fprintf(stderr, "bench: there is no command '%s'\n", name);
    fputs("bench: try 'bench --help'\n", stderr);
    return NOT_DONE;
}

static int dispatch(int count, char **arguments)
{
    if (count == 0)
        return no_command(NULL);
    for (size_t i = 0; i < COMMANDS; i++)
        if (strcmp(arguments[0], commands[i]->name) == 0)
            return run_command(commands[i], count - 1, arguments + 1);
    if (strcmp(arguments[0], "--version") == 0)
        puts("bench " OMH_VERSION);
    else if (strcmp(arguments[0], "--help") == 0)
        print_help();
    else
        return no_command(arguments[0]);
    return DONE;
}

int main(int argc, char **argv)
{
    int status = dispatch(argc - 1, argv + 1);
    if (fflush(stdout) != 0 || ferror(stdout))
        return wrong_file("standard output");
    return status;
}
