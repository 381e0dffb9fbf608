/* bench list: a listing file, listed by the library. */
#include "commands.h"
#include "ending.h"
#include "file_refusals.h"
#include "input.h"
#include "listing.h"
#include "notes.h"

static const char help[] =
    "usage: bench list FILE\n"
    "\n"
    "Lists the outcome of the exchange in a listing file, - for standard input:\n"
    "a line for each card with its number, status and answer (- for none), then\n"
    "`bound held` or `bound not held`. A file that is not in order gives the line\n"
    "`refused K`, and standard error says which field is wrong. The file is read to\n"
    "its end, however long, and only what can be accepted of it is kept.\n"
    "\n"
    "Exceptions whose word no card receives have no effect; a note on standard error\n"
    "tells of each, counted from 1, and why.\n"
    "\n"
    "Exit status: 0 if listed, 1 if refused, 2 if the file cannot be read.\n";

static int run(int count, char **arguments)
{
    if (count != 1)
        return wrong_usage("list takes one argument: FILE");
    struct bytes file;
    if (!input_read(arguments[0], &file))
        return NOT_DONE;
    char text[OMH_TEXT + 1];
    uint8_t refused = text_of(&file, text);
    fputs(text, stdout);
    fflush(stdout);
    if (refused != 0) {
        explain_refused_file(refused, &file, NULL);
        return REFUSED;
    }
    print_notes(&file, NULL);
    return DONE;
}

const struct command list_command = {"list", "lists the answers of the cards in a listing file", help, NULL, run};
