/* A listing file: its text, its fields and its exchange. */
#include "listing.h"

#include <stdlib.h>
#include <string.h>

uint8_t text_of(const struct bytes *file, char text[OMH_TEXT + 1])
{
    static const char mark[] = "refused ";
    size_t length = omh_list(file->at, bytes_kept(file), (uint8_t *)text);
    text[length] = '\0';
    if (strncmp(text, mark, sizeof mark - 1) != 0)
        return 0;
    return (uint8_t)strtoul(text + sizeof mark - 1, NULL, 10);
}

struct settings settings_in(const struct bytes *file, size_t p)
{
    return (struct settings){file->at[5], file->at[6], file->at[7], p};
}

uint8_t status_in(const struct bytes *file, size_t card)
{
    return file->at[8 + card];
}

int32_t value_in(const struct bytes *file)
{
    return (int32_t)bytes_number(file, 18, 4);
}

size_t exceptions_in(const struct bytes *file)
{
    return bytes_number(file, 22, 2);
}

struct exception exception_in(const struct bytes *file, size_t i)
{
    size_t start = HEAD + EXCEPTION * i;
    return (struct exception){bytes_number(file, start, 2), file->at[start + 2],
                              (int32_t)bytes_number(file, start + 3, 4)};
}

/* Of two exceptions for one place the later counts. */
void exchange_in(const struct bytes *file, struct exchange *e)
{
    struct settings s = settings_in(file, 0);
    e->n = s.n;
    e->m = s.m;
    e->t = s.t;
    e->x = value_in(file);
    for (size_t card = 0; card < OMH_CARDS; card++)
        e->statuses[card] = status_in(file, card);
    for (size_t i = 0; i < OMH_TABLE; i++)
        e->table[i] = OMH_E;
    for (size_t i = 0; i < exceptions_in(file); i++) {
        struct exception other = exception_in(file, i);
        e->table[OMH_CARDS * other.slot + other.receiver] = other.word;
    }
}
