/* Bytes as pairs of hex digits. */
#include "hex.h"

#include <ctype.h>

enum { NO_DIGIT = 16 };

static unsigned digit_of(char c)
{
    if (c >= '0' && c <= '9')
        return (unsigned)(c - '0');
    if (c >= 'A' && c <= 'F')
        return (unsigned)(c - 'A') + 10;
    if (c >= 'a' && c <= 'f')
        return (unsigned)(c - 'a') + 10;
    return NO_DIGIT;
}

bool is_blank(char c)
{
    return c == ' ' || c == '\t' || c == '\r';
}

/* Whether no byte is half read; where one is, its digit is what is wrong. */
static bool is_between_bytes(struct hex *hex)
{
    hex->wrong = hex->half;
    return hex->half == '\0';
}

bool hex_take(struct hex *hex, char c)
{
    if (is_blank(c) && !is_between_bytes(hex))
        return false;
    hex->column++;
    if (is_blank(c))
        return true;
    if (digit_of(c) == NO_DIGIT) {
        hex->wrong = c;
        return false;
    }
    if (hex->half == '\0') {
        hex->half = c;
        return true;
    }
    bytes_add(&hex->bytes, (uint8_t)(digit_of(hex->half) << 4 | digit_of(c)));
    hex->half = '\0';
    return true;
}

bool hex_end(struct hex *hex)
{
    if (!is_between_bytes(hex))
        return false;
    hex->column = 0;
    return true;
}

void hex_print_wrong(const struct hex *hex, FILE *file)
{
    unsigned byte = (unsigned char)hex->wrong;
    if (digit_of(hex->wrong) != NO_DIGIT)
        fputs("a byte has two hex digits, here is one\n", file);
    else if (isprint((int)byte))
        fprintf(file, "'%c' is no hex digit\n", hex->wrong);
    else
        fprintf(file, "the byte %02X is no hex digit\n", byte);
}

void hex_print(const uint8_t *bytes, size_t count)
{
    for (size_t i = 0; i < count; i++)
        printf("%02X", (unsigned)bytes[i]);
    putchar('\n');
}
