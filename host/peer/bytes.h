/* Numbers big-endian, words in two's complement. */
#ifndef PEER_BYTES_H
#define PEER_BYTES_H

#include <stdint.h>

static inline uint16_t get16(const uint8_t *bytes)
{
    return (uint16_t)(bytes[0] << 8 | bytes[1]);
}

static inline int32_t get32(const uint8_t *bytes)
{
    return (int32_t)((uint32_t)get16(bytes) << 16 | get16(bytes + 2));
}

#endif
