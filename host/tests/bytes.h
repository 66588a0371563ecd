/* 16-bit numbers in bytes, low byte first. */
#ifndef FOLDHARBOR_BYTES_H
#define FOLDHARBOR_BYTES_H

#include <stdint.h>

static inline uint32_t read_half(const uint8_t *place)
{
    return place[0] | (uint32_t)place[1] << 8;
}

static inline void write_half(uint8_t *place, uint32_t value)
{
    place[0] = value & 255;
    place[1] = value >> 8 & 255;
}

#endif
