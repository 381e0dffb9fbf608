/* The calls that a case makes, one after the other and again from the first. */
#ifndef INPUTS_H
#define INPUTS_H

#include <stdbool.h>

#include "../omh.h"

enum { INPUTS = 16, EXCEPTIONS = 64 };

/* What is called: entering is of a frame or of a word, in two lists or in the long list. */
enum kind {
    MAJORITY, VOTE, OPEN, WORD, ENTER, REFILL, LONG_WORD, LONG_ENTER, LONG_REFILL,
    DEALT, FILL, ANSWER, ANSWERS, ROW, LIST, KINDS
};

struct input {
    size_t n, m, t, p;
    int32_t words[OMH_SLOTS], votes[OMH_SLOTS];
    int32_t books[OMH_BOOKS];           /* of every sender the same book */
    uint16_t current;
    uint8_t frame[OMH_FRAME];
    size_t slot;                        /* of the frame's path, */
    int32_t told;                       /* and its word */
    int32_t x;
    uint8_t statuses[OMH_CARDS];
    int32_t table[OMH_TABLE];
    uint8_t file[24 + 7 * EXCEPTIONS];
    int32_t word, answers[OMH_CARDS], outcome[OMH_OUTCOME];
    uint8_t text[OMH_TEXT];
};

/* Makes the inputs of the case of this name; false if there is none. */
bool make_inputs(const char *name, enum kind *kind, struct input inputs[INPUTS]);

#endif
