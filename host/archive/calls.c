/*
 * calls: makes the calls that standard input asks for, and writes for each what it answered and how it left its blocks.
 * calls tally: writes how often each function was called, and which refusals it gave.
 */
#include "call.h"
#include "room.h"

#include <inttypes.h>
#include <stdio.h>
#include <stdlib.h>
#include <string.h>

enum { NO_REFUSAL = 17 };   /* document 01's numbers are below */

struct tally {
    uint64_t calls;
    uint64_t refused[NO_REFUSAL];
};

/* The refusal's number, 0 for none and for a function that refuses nothing. */
static uint64_t refusal(const struct request *request, uint64_t answer)
{
    static const size_t answers[] = {
#define FUNCTION(name, answer, parameters) sizeof(answer),
#include "../tests/functions.h"
#undef FUNCTION
    };
    static const char mark[] = "refused ";
    if (request->function == CALL_omh_list) {
        const char *text = (const char *)room_block(request, 1) + request->block[1].list;
        return memcmp(text, mark, sizeof mark - 1) == 0 ? strtoull(text + sizeof mark - 1, NULL, 10) : 0;
    }
    return answers[request->function] == sizeof(uint8_t) ? answer : 0;
}

static void tally_add(struct tally *tally, const struct request *request, uint64_t answer)
{
    uint64_t number = refusal(request, answer);
    tally->calls++;
    if (number < NO_REFUSAL)
        tally->refused[number]++;
}

static void tally_print(const struct tally *tally, const char *name)
{
    printf("%s %" PRIu64 " calls", name, tally->calls);
    for (int number = 1; number < NO_REFUSAL; number++)
        if (tally->refused[number] > 0)
            printf(" %d", number);
    putchar('\n');
}

static void reply(const struct request *request, uint64_t answer)
{
    fwrite(&answer, sizeof answer, 1, stdout);
    for (uint64_t i = 0; i < request->blocks; i++)
        fwrite(room_block(request, i), 1, request->block[i].size, stdout);
}

int main(int count, char **arguments)
{
    static struct tally tallies[FUNCTIONS];
    bool tallied = count == 2 && strcmp(arguments[1], "tally") == 0;
    if (count != 1 && !tallied) {
        fputs("usage: calls [tally]\n", stderr);
        return 2;
    }
    rooms_make();
    for (struct request request; request_read(&request);) {
        uint64_t answer = call(&request);
        if (tallied)
            tally_add(&tallies[request.function], &request, answer);
        else
            reply(&request, answer);
    }
    for (int i = 0; tallied && i < FUNCTIONS; i++)
        tally_print(&tallies[i], function_name((enum function)i));
    return fflush(stdout) == 0 && !ferror(stdin) ? 0 : 2;
}
