/* Why a listing file is refused. */
#ifndef FILE_REFUSALS_H
#define FILE_REFUSALS_H

#include "bytes.h"

/* Says on standard error which field of the file is wrong, and its value; `name` is null where there is one file. */
void explain_refused_file(uint8_t number, const struct bytes *file, const char *name);

#endif
