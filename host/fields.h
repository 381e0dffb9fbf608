/* A frame's fields as a list, each at its place in what omh_read_frame fills. */
#ifndef FIELDS_H
#define FIELDS_H

#include "book.h"

/* Their names, as `bench frame` takes and shows them. */
extern const char *const field_names[OMH_FIELDS];

/* The fields of the frame that brings p a word on the path of a slot. */
void fields_of(const struct settings *s, uint16_t exchange, size_t slot, int32_t word, int32_t fields[OMH_FIELDS]);

/* Prints their path on standard output, a blank before each of its cards: the sender, then the used relays. */
void fields_print_path(const int32_t fields[OMH_FIELDS]);

/* Writes their frame; answers 0 or the refusal's number. */
uint8_t fields_write(const int32_t fields[OMH_FIELDS], uint8_t *buffer, size_t length);

#endif
