/* How a command ends. */
#include "ending.h"

#include <errno.h>
#include <stdio.h>
#include <string.h>

void begin_message(const char *name)
{
    fputs("bench: ", stderr);
    if (name != NULL)
        fprintf(stderr, "%s: ", name);
}

int wrong_usage(const char *message)
{
    fprintf(stderr, "bench: %s\n", message);
    return WRONG_USAGE;
}

int wrong_file(const char *name)
{
    fprintf(stderr, "bench: %s: %s\n", name, strerror(errno));
    return NOT_DONE;
}
