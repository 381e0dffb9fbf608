/* bench frame: a frame made of its fields, or frames shown as their fields. */
#include "commands.h"
#include "ending.h"
#include "fields.h"
#include "frame_refusals.h"
#include "lines.h"
#include "number.h"
#include "path.h"

#include <inttypes.h>
#include <string.h>

static const char help[] =
    "usage: bench frame make EXCHANGE SENDER LEVEL Q1 Q2 Q3 RECEIVER WORD\n"
    "       bench frame show [HEX..]\n"
    "\n"
    "make prints the 17 bytes of the frame with these fields, in hex. Q1, Q2 and Q3\n"
    "are the relays, - where the level has none. WORD is - for E.\n"
    "\n"
    "show prints the fields of the frame with these bytes, a line each. HEX is pairs\n"
    "of hex digits, with or without blanks between the pairs. Without HEX it shows\n"
    "the frames of standard input, one to a line, and an empty line between them;\n"
    "blank lines and lines that begin with # are passed over.\n"
    "\n"
    "A frame that is refused gives a line `refused K`, with its line, its path and\n"
    "what is wrong; a line that is not hex gives `garbled line L column C` and what\n"
    "is wrong.\n"
    "\n"
    "Exit status: 0 if made or shown, 1 if a frame was refused or a line garbled,\n"
    "2 for wrong usage or input that cannot be read.\n";

static bool is_relay(size_t field)
{
    return field == OMH_Q1 || field == OMH_Q2 || field == OMH_Q3;
}

/* Whether - stands for a value: an unused relay, or the word E. */
static bool is_none(size_t field, int32_t value)
{
    return is_relay(field) ? value == OMH_NO_RELAY : field == OMH_WORD && value == OMH_E;
}

static bool take_field(size_t field, const char *text, int32_t *value)
{
    if (field == OMH_WORD)
        return take_word(field_names[field], text, value);
    if (is_relay(field) && strcmp(text, "-") == 0) {
        *value = OMH_NO_RELAY;
        return true;
    }
    uint64_t number;
    if (!take_natural(field_names[field], text, 0, field == OMH_EXCHANGE ? UINT16_MAX : UINT8_MAX, &number))
        return false;
    *value = (int32_t)number;
    return true;
}

static int make(int count, char **arguments)
{
    if (count != OMH_FIELDS)
        return wrong_usage("frame make takes eight arguments: EXCHANGE SENDER LEVEL Q1 Q2 Q3 RECEIVER WORD");
    int32_t fields[OMH_FIELDS];
    for (size_t i = 0; i < OMH_FIELDS; i++)
        if (!take_field(i, arguments[i], &fields[i]))
            return WRONG_USAGE;
    uint8_t frame[OMH_FRAME];
    uint8_t refused = fields_write(fields, frame, OMH_FRAME);
    if (refused != 0) {
        print_not_made(refused, fields);
        return REFUSED;
    }
    hex_print(frame, OMH_FRAME);
    return DONE;
}

/* Prints a line to a field, as make takes them, or the refusal. Answers whether it was shown. */
static bool show_frame(const struct bytes *frame, uint64_t line)
{
    int32_t fields[OMH_FIELDS];
    uint8_t refused = omh_read_frame(frame->at, bytes_kept(frame), fields);
    if (refused != 0) {
        print_not_read(refused, line, frame);
        return false;
    }
    for (size_t i = 0; i < OMH_FIELDS; i++) {
        if (is_none(i, fields[i]))
            printf("%-8s  -\n", field_names[i]);
        else
            printf("%-8s  %" PRId32 "\n", field_names[i], fields[i]);
    }
    return true;
}

/* Shows a line's frame; `with` is whether one was shown before. */
static bool show_line(void *with, const struct line *line)
{
    bool *before = with;
    if (*before)
        putchar('\n');
    *before = true;
    if (!line->garbled)
        return show_frame(&line->hex.bytes, line->number);
    print_garbled(line);
    return false;
}

static int show(int count, char **arguments)
{
    bool before = false;
    if (count == 0)
        return each_line(show_line, &before);
    struct hex hex = {0};
    for (int i = 0; i < count; i++) {
        bool good = true;
        for (const char *c = arguments[i]; good && *c != '\0'; c++)
            good = hex_take(&hex, *c);
        if (good && hex_end(&hex))
            continue;
        fprintf(stderr, "bench: HEX, column %" PRIu64 ": ", hex.column);
        hex_print_wrong(&hex, stderr);
        return WRONG_USAGE;
    }
    return show_frame(&hex.bytes, 0) ? DONE : REFUSED;
}

static int run(int count, char **arguments)
{
    if (count > 0 && strcmp(arguments[0], "make") == 0)
        return make(count - 1, arguments + 1);
    if (count > 0 && strcmp(arguments[0], "show") == 0)
        return show(count - 1, arguments + 1);
    return wrong_usage("frame is followed by make or show");
}

const struct command frame_command = {
    "frame", "makes a frame of its fields, or shows a frame's fields", help, NULL, run,
};
