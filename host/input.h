/* A file that an argument names, - for standard input. */
#ifndef INPUT_H
#define INPUT_H

#include "bytes.h"

/* What the file is called in messages. */
const char *input_name(const char *argument);

/* Reads the file to its end. Where that fails, says so on standard error and answers false. */
bool input_read(const char *argument, struct bytes *bytes);

#endif
