/* A request for one call of a function of omh.h, with the memory that it lends. draw writes a stream of them, each
   followed by its blocks. */
#ifndef REQUEST_H
#define REQUEST_H

#include <stdint.h>

/* The functions by their order in functions.h. */
enum function {
#define FUNCTION(name, answer, parameters) CALL_##name,
#include "../tests/functions.h"
#undef FUNCTION
    FUNCTIONS
};

enum { LISTS = 4, NUMBERS = 8 };    /* as many as a call has */

/* Memory that holds one lent list, with guard bytes on one side of it and a page that nobody may touch on the other. */
struct block {
    uint64_t size;
    uint64_t list;      /* where in the block the list begins */
    uint64_t length;    /* the length that the call is told, in elements */
    uint64_t high;      /* 1 if the page comes behind the list, 0 if before it */
    uint64_t kept;      /* 1 if the block is as the last call left it, and does not follow the request */
};

struct request {
    uint64_t function;
    uint64_t numbers[NUMBERS];      /* the arguments that are no pointers and no lengths, in their order */
    uint64_t blocks;
    struct block block[LISTS];      /* the first `blocks` of them */
};

#endif
