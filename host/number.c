/* Numbers as arguments, and words as text. */
#include "number.h"

#include "omh.h"

#include <inttypes.h>
#include <stdio.h>
#include <string.h>

/* Reads decimal digits to the text's end; false if the number is over `most`. */
static bool read_digits(const char *text, uint64_t most, uint64_t *number)
{
    if (text[0] == '\0')
        return false;
    uint64_t sum = 0;
    for (const char *at = text; *at != '\0'; at++) {
        if (*at < '0' || *at > '9')
            return false;
        uint64_t digit = (uint64_t)(*at - '0');
        if (digit > most || sum > (most - digit) / 10)
            return false;
        sum = sum * 10 + digit;
    }
    *number = sum;
    return true;
}

bool take_natural(const char *name, const char *text, uint64_t least, uint64_t most, uint64_t *number)
{
    if (read_digits(text, most, number) && *number >= least)
        return true;
    fprintf(stderr, "bench: %s is a number from %" PRIu64 " to %" PRIu64 ", not '%s'\n", name, least, most, text);
    return false;
}

bool take_word(const char *name, const char *text, int32_t *word)
{
    uint64_t size;
    bool minus = text[0] == '-';
    if (strcmp(text, "-") == 0)
        *word = OMH_E;
    else if (read_digits(text + minus, minus ? UINT64_C(1) << 31 : INT32_MAX, &size))
        *word = (int32_t)(minus ? -(int64_t)size : (int64_t)size);
    else {
        fprintf(stderr, "bench: %s is a number from %" PRId32 " to %" PRId32 " or - for E, not '%s'\n",
                name, INT32_MIN, INT32_MAX, text);
        return false;
    }
    return true;
}

const char *word_text(int32_t word, char text[WORD_TEXT])
{
    if (word == OMH_E)
        return strcpy(text, "-");
    snprintf(text, WORD_TEXT, "%" PRId32, word);
    return text;
}
