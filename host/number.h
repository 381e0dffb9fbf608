/* Numbers as arguments: decimal, with leading zeros or not, a minus where a
   number may be negative; no plus, no blank. And words as text. */
#ifndef NUMBER_H
#define NUMBER_H

#include <stdbool.h>
#include <stdint.h>

/* A word's text has at most 11 characters, and a NUL. */
enum { WORD_TEXT = 12 };

/* Takes the argument called `name`. Where it is no such number, or not between
   `least` and `most`, says so on standard error and answers false. */
bool take_natural(const char *name, const char *text, uint64_t least, uint64_t most, uint64_t *number);
/* A word; - is E. */
bool take_word(const char *name, const char *text, int32_t *word);

/* Puts a word's text in the places, - for E, and answers it. */
const char *word_text(int32_t word, char text[WORD_TEXT]);

#endif
