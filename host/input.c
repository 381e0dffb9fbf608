/* A file that an argument names, - for standard input. */
#include "input.h"

#include "ending.h"

#include <string.h>

static bool is_standard(const char *argument)
{
    return strcmp(argument, "-") == 0;
}

const char *input_name(const char *argument)
{
    return is_standard(argument) ? "standard input" : argument;
}

bool input_read(const char *argument, struct bytes *bytes)
{
    FILE *file = is_standard(argument) ? stdin : fopen(argument, "rb");
    *bytes = (struct bytes){{0}, 0};
    bool good = file != NULL && bytes_read_all(bytes, file);
    if (!good)
        wrong_file(input_name(argument));
    if (file != NULL && file != stdin)
        fclose(file);
    return good;
}
