/* Bytes as pairs of hex digits, with or without blanks between the pairs. */
#ifndef HEX_H
#define HEX_H

#include "bytes.h"

/* A text that is read, and the bytes that it writes. Starts as {0}. */
struct hex {
    struct bytes bytes;
    uint64_t column;        /* of the last character, from 1 */
    char half;              /* the first digit of a byte whose second has not come; else NUL */
    char wrong;             /* what is wrong: a character that is no digit, or a digit without its second */
};

/* Takes the text's next character. False if it is wrong; the column is then its own. */
bool hex_take(struct hex *hex, char c);

/* Ends the text. False if half a byte is left over. Another text may follow, whose columns count from 1. */
bool hex_end(struct hex *hex);

/* Prints what is wrong, after hex_take or hex_end has answered false. */
void hex_print_wrong(const struct hex *hex, FILE *file);

/* Blank, tab, and the carriage return of a file with CR LF. */
bool is_blank(char c);

/* Prints the bytes as one line on standard output. */
void hex_print(const uint8_t *bytes, size_t count);

#endif
