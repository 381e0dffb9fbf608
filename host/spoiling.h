/* Enterings that are spoiled in one way or more, for a soak. */
#ifndef SPOILING_H
#define SPOILING_H

#include "book.h"
#include "random.h"

/* An entering, by its slot or as a frame. */
struct attempt {
    struct settings settings;
    size_t words_length, votes_length;
    uint16_t current;                   /* exchange number */
    bool framed;
    size_t slot;                        /* unless framed */
    uint8_t frame[OMH_FRAME + 1];       /* if framed, the first `length` bytes */
    size_t length;
    uint8_t entering_due;               /* the refusal number due when it is entered, */
    uint8_t reading_due;                /* and when its frame is only read, 0 for none */
};

/* Spoils an attempt that is right. The number due is the first in document
   01's order of those that apply. */
void attempt_spoil(struct attempt *a, struct random *random);

#endif
