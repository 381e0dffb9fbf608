/* A frame's fields as a list. */
#include "fields.h"

#include "path.h"

#include <inttypes.h>
#include <stdio.h>

const char *const field_names[OMH_FIELDS] = {
    [OMH_EXCHANGE] = "EXCHANGE", [OMH_SENDER] = "SENDER", [OMH_LEVEL] = "LEVEL",
    [OMH_Q1] = "Q1", [OMH_Q2] = "Q2", [OMH_Q3] = "Q3",
    [OMH_RECEIVER] = "RECEIVER", [OMH_WORD] = "WORD",
};

void fields_of(const struct settings *s, uint16_t exchange, size_t slot, int32_t word, int32_t fields[OMH_FIELDS])
{
    struct path path = path_of(slot);
    fields[OMH_EXCHANGE] = exchange;
    fields[OMH_SENDER] = (int32_t)s->t;
    fields[OMH_LEVEL] = path.level;
    fields[OMH_Q1] = path.relays[0];
    fields[OMH_Q2] = path.relays[1];
    fields[OMH_Q3] = path.relays[2];
    fields[OMH_RECEIVER] = (int32_t)s->p;
    fields[OMH_WORD] = word;
}

void fields_print_path(const int32_t fields[OMH_FIELDS])
{
    printf(" %" PRId32, fields[OMH_SENDER]);
    for (int32_t i = 0; i < fields[OMH_LEVEL] && i < OMH_ROUNDS; i++)
        printf(" %" PRId32, fields[OMH_Q1 + i]);
}

uint8_t fields_write(const int32_t fields[OMH_FIELDS], uint8_t *buffer, size_t length)
{
    return omh_write_frame((uint16_t)fields[OMH_EXCHANGE], (uint8_t)fields[OMH_SENDER], (uint8_t)fields[OMH_LEVEL],
                           (uint8_t)fields[OMH_Q1], (uint8_t)fields[OMH_Q2], (uint8_t)fields[OMH_Q3],
                           (uint8_t)fields[OMH_RECEIVER], fields[OMH_WORD], buffer, length);
}
