/* Numbers of 32 bits, little-endian, as the C programs of the tests read and tell them. */
#include <stdint.h>
#include <stdio.h>

static inline uint32_t number(const uint8_t *bytes)
{
    return bytes[0] | bytes[1] << 8 | bytes[2] << 16 | (uint32_t)bytes[3] << 24;
}

static inline void tell_number(uint32_t n)
{
    for (int i = 0; i < 4; i++)
        putchar((int)(n >> (8 * i) & 255));
}
