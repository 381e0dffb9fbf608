/* A listing file, document 01's 'Listing program': its text, its fields and its exchange. */
#ifndef LISTING_H
#define LISTING_H

#include "book.h"
#include "bytes.h"
#include "exchange.h"

enum { HEAD = 24, EXCEPTION = 7, MOST_EXCEPTIONS = 64 };

struct exception {
    size_t slot, receiver;
    int32_t word;
};

/* Puts the file's text, by the library, and a NUL in the places; answers 0 or the refusal's number. */
uint8_t text_of(const struct bytes *file, char text[OMH_TEXT + 1]);

/* Its n, m and t; the own card is `p`. */
struct settings settings_in(const struct bytes *file, size_t p);

uint8_t status_in(const struct bytes *file, size_t card);

/* The sender's value. */
int32_t value_in(const struct bytes *file);

size_t exceptions_in(const struct bytes *file);

/* Exception i, from 0. */
struct exception exception_in(const struct bytes *file, size_t i);

/* The exchange of a file that is accepted. */
void exchange_in(const struct bytes *file, struct exchange *e);

#endif
