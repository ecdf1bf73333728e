/* The numbers of a sheet in its bytes: the lowest byte comes first. */
#ifndef BYTES_H
#define BYTES_H

#include "check.h"

/* Writes a number, which so many bytes must hold, and returns the place behind it. */
static inline uint8_t *put_number(uint8_t *out, uint64_t number, int bytes)
{
    for (; bytes > 0; --bytes, number /= 256) *out++ = (uint8_t)(number % 256);
    if (number != 0) same("what its bytes do not hold of a number", number, 0);
    return out;
}

/* The number in so many bytes. */
static inline uint64_t number_at(const uint8_t *place, int bytes)
{
    uint64_t number = 0;
    while (bytes > 0) number = 256 * number + place[--bytes];
    return number;
}

#endif
