/* The memory that requests lend. */
#define _DEFAULT_SOURCE     /* MAP_ANONYMOUS, MAP_NORESERVE */
#include "room.h"

#include <stdio.h>
#include <stdlib.h>
#include <sys/mman.h>

/* A call may be told 2^32 words more than a list has: the room has them, and untouched memory costs nothing. */
static const size_t ROOM = (UINT64_C(1) << 34) + (1 << 18);
static const size_t FENCE = 1 << 16;

static uint8_t *rooms[LISTS];

void rooms_make(void)
{
    for (size_t i = 0; i < LISTS; i++) {
        uint8_t *fence = mmap(NULL, FENCE + ROOM + FENCE, PROT_NONE,
                              MAP_PRIVATE | MAP_ANONYMOUS | MAP_NORESERVE, -1, 0);
        if (fence == MAP_FAILED || mprotect(fence + FENCE, ROOM, PROT_READ | PROT_WRITE) != 0) {
            perror("memory to lend");
            exit(2);
        }
        rooms[i] = fence + FENCE;
    }
}

uint8_t *room_block(const struct request *request, uint64_t list)
{
    const struct block *block = &request->block[list];
    return block->high ? rooms[list] + ROOM - block->size : rooms[list];
}

static void read_all(void *bytes, size_t count)
{
    if (fread(bytes, 1, count, stdin) != count) {
        fputs("a request ends early\n", stderr);
        exit(2);
    }
}

static void check(const struct request *request)
{
    bool good = request->function < FUNCTIONS && request->blocks <= LISTS;
    for (uint64_t i = 0; good && i < request->blocks; i++)
        good = request->block[i].size <= ROOM;
    if (!good) {
        fputs("standard input has no request\n", stderr);
        exit(2);
    }
}

bool request_read(struct request *request)
{
    int first = getchar();
    if (first == EOF)
        return false;
    ungetc(first, stdin);
    read_all(request, sizeof *request);
    check(request);
    for (uint64_t i = 0; i < request->blocks; i++)
        if (!request->block[i].kept)
            read_all(room_block(request, i), request->block[i].size);
    return true;
}
