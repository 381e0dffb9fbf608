/* The memory that requests lend: a room to each list of a call, between pages that nobody may touch. */
#ifndef ROOM_H
#define ROOM_H

#include "request.h"

#include <stdbool.h>

/* Makes the rooms; once, before all else. */
void rooms_make(void);

/* Where a request's block lies. */
uint8_t *room_block(const struct request *request, uint64_t list);

/* Reads the next request of standard input, and its blocks into their rooms; false if there is none. */
bool request_read(struct request *request);

#endif
