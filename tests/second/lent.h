/* Buffers that the C programs of the tests lend: so many bytes of a space, each between two guards. */
#include <stddef.h>
#include <stdint.h>
#include <string.h>

enum { GUARD = 64, ALIGNMENT = 16, GUARD_BYTE = 0xA5, BESIDE = 2 * (GUARD + ALIGNMENT) };

struct lent {
    uint8_t *bytes;
    size_t length;
};

/* They begin so far past a multiple of 16; the space has BESIDE bytes more than are lent. */
static inline struct lent between_guards(uint8_t *space, size_t length, uint32_t past)
{
    uint8_t *first = space + GUARD;
    first += (ALIGNMENT - (uintptr_t)first % ALIGNMENT) % ALIGNMENT;
    first += past % ALIGNMENT;
    memset(first - GUARD, GUARD_BYTE, GUARD);
    memset(first + length, GUARD_BYTE, GUARD);
    return (struct lent){first, length};
}

static inline int is_guard(const uint8_t *bytes)
{
    int is_kept = 1;
    for (int i = 0; i < GUARD; i++)
        is_kept &= bytes[i] == GUARD_BYTE;
    return is_kept;
}
