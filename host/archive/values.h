/* Arguments for calls, drawn at random: right ones, and some that are spoiled. */
#ifndef VALUES_H
#define VALUES_H

#include "../book.h"
#include "../path.h"

#include <stdbool.h>

/* From here on the seed's numbers are drawn. */
void values_start(uint64_t seed);

/* From here on one value in so many is spoiled; none if 0. */
void values_spoil(uint64_t times);

/* Whether the next value is a spoiled one. */
bool spoils(void);

uint64_t any(void);
size_t below(size_t end);

/* From `end` up: also numbers that fewer bits make small, and those near the greatest. */
size_t beyond(size_t end);

/* Below `end`, or spoiled. */
size_t mostly_below(size_t end);

/* The right byte, or spoiled. */
uint8_t mostly(size_t right);

/* A word of any kind, mostly at the ends of a kind's range; an ordinary one, or spoiled. */
int32_t any_word(void);
int32_t ordinary(void);

/* Settings in range, half of them those with the dearest votes. */
struct settings settings_draw(void);

/* A path that is live for p where there are cards enough; its slot, or spoiled. */
struct path path_draw(const struct settings *s);
size_t slot_draw(const struct settings *s);

#endif
