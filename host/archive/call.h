/* The call that a request asks for. */
#ifndef CALL_H
#define CALL_H

#include "request.h"

/* Makes the call, on the blocks in their rooms; answers what the function answers. */
uint64_t call(const struct request *request);

const char *function_name(enum function function);

#endif
