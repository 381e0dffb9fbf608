/* Bytes that come: the first are kept, all are counted. */
#include "bytes.h"

void bytes_add(struct bytes *bytes, uint8_t byte)
{
    if (bytes->count < MOST_KEPT)
        bytes->at[bytes->count] = byte;
    bytes->count++;
}

bool bytes_read_all(struct bytes *bytes, FILE *file)
{
    uint8_t piece[4096];
    size_t got;
    while ((got = fread(piece, 1, sizeof piece, file)) > 0)
        for (size_t i = 0; i < got; i++)
            bytes_add(bytes, piece[i]);
    return !ferror(file);
}

size_t bytes_kept(const struct bytes *bytes)
{
    return bytes->count < MOST_KEPT ? (size_t)bytes->count : MOST_KEPT;
}

uint32_t bytes_number(const struct bytes *bytes, size_t place, size_t size)
{
    uint32_t number = 0;
    for (size_t i = 0; i < size; i++)
        number = number << 8 | bytes->at[place + i];
    return number;
}
