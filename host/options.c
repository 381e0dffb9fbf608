/* Options as people write them. */
#include "options.h"

#include "number.h"

#include <stdio.h>
#include <string.h>

static bool is_option(const char *argument)
{
    return strncmp(argument, "--", 2) == 0;
}

static bool ends_options(const char *argument)
{
    return strcmp(argument, "--") == 0;
}

bool has_option(const char *name, int count, char **arguments)
{
    for (int i = 0; i < count && !ends_options(arguments[i]); i++)
        if (strcmp(arguments[i], name) == 0)
            return true;
    return false;
}

/* The option that the argument names, with or without a value; null if there is none. */
static const struct option *option_named(const struct option *options, const char *argument)
{
    size_t length = strcspn(argument, "=");
    for (; options != NULL && options->name != NULL; options++)
        if (strlen(options->name) == length && strncmp(options->name, argument, length) == 0)
            return options;
    return NULL;
}

/* Takes an option; `next` is the argument after it, or null. Answers how many arguments it took, 0 after a message. */
static int take_option(const char *command, const struct option *options, const char *argument, const char *next)
{
    const struct option *option = option_named(options, argument);
    const char *equals = strchr(argument, '=');
    if (option == NULL) {
        fprintf(stderr, "bench: %s has no option '%s'\n", command, argument);
        return 0;
    }
    if (option->given != NULL)
        *option->given = true;
    if (option->number == NULL && equals != NULL) {
        fprintf(stderr, "bench: %s takes no number\n", option->name);
        return 0;
    }
    if (option->number == NULL)
        return 1;
    const char *value = equals != NULL ? equals + 1 : next;
    if (value == NULL) {
        fprintf(stderr, "bench: %s takes a number\n", option->name);
        return 0;
    }
    if (!take_natural(option->name, value, option->least, UINT64_MAX, option->number))
        return 0;
    return equals != NULL ? 1 : 2;
}

int take_options(const char *command, const struct option *options, int count, char **arguments)
{
    int left = 0, at = 0;
    while (at < count && !ends_options(arguments[at])) {
        if (!is_option(arguments[at])) {
            arguments[left++] = arguments[at++];
            continue;
        }
        int took = take_option(command, options, arguments[at], at + 1 < count ? arguments[at + 1] : NULL);
        if (took == 0)
            return -1;
        at += took;
    }
    for (at++; at < count; at++)
        arguments[left++] = arguments[at];
    return left;
}
