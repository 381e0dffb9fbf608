/* Frames from standard input, one to a line in hex. */
#include "lines.h"

#include "ending.h"

#include <inttypes.h>

enum kind { BLANK, REMARK, BYTES, GARBLED };

/* Reads a line of any length, to its LF or the input's end. */
static enum kind read_line(struct line *line)
{
    enum kind kind = BLANK;
    line->hex = (struct hex){0};
    line->number++;
    for (int c = getchar(); c != EOF && c != '\n'; c = getchar()) {
        if (kind == BLANK && c == '#')
            kind = REMARK;
        if (kind == REMARK || kind == GARBLED)
            continue;
        if (!hex_take(&line->hex, (char)c))
            kind = GARBLED;
        else if (!is_blank((char)c))
            kind = BYTES;
    }
    return kind == BYTES && !hex_end(&line->hex) ? GARBLED : kind;
}

int each_line(bool (*take)(void *with, const struct line *line), void *with)
{
    struct line line = {0};
    int status = DONE;
    while (!feof(stdin)) {
        enum kind kind = read_line(&line);
        if (ferror(stdin))
            return wrong_file("standard input");
        if (kind != BYTES && kind != GARBLED)
            continue;
        line.garbled = kind == GARBLED;
        if (!take(with, &line))
            status = REFUSED;
        if (fflush(stdout) != 0)
            return NOT_DONE;
    }
    return status;
}

void print_garbled(const struct line *line)
{
    printf("garbled line %" PRIu64 " column %" PRIu64 ": ", line->number, line->hex.column);
    hex_print_wrong(&line->hex, stdout);
}
