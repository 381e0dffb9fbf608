/* Why the library refuses, in words: the field that is wrong and its value.
   Each prints its reason and nothing else. */
#ifndef REASONS_H
#define REASONS_H

#include "path.h"

#include <stdio.h>

/* Why settings are refused with a number from 1 to 4. */
void print_settings_reason(uint8_t number, const struct settings *s, FILE *file);

/* Why a path is not live for p. */
void print_path_reason(const struct settings *s, const struct path *path, FILE *file);

/* For a number that is not among those that a call can give. */
void print_unknown_reason(FILE *file);

#endif
