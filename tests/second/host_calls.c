/* A C host that makes the calls it reads. A call comes as six numbers of 32 bits, little-endian
 * (frame number, whether a buffer of no bytes is passed as NULL, and the lengths of image, tables,
 * pictures and output), and those buffers' bytes; it is told as the answer, 1 or 0 for whether a byte
 * beside a buffer or of an input was touched, and the output. */
#include <stdio.h>
#include <stdlib.h>
#include <string.h>

#include "numbers.h"
#include "spoonwing.h"

enum { GUARD = 64, BUFFERS = 4, OUTPUT = 3, NUMBERS = 2 + BUFFERS };

struct buffer {
    uint8_t *room; /* guard, bytes, guard */
    uint8_t *kept; /* the whole room as it was before the call */
    size_t length;
};

static struct buffer read_buffer(size_t length)
{
    struct buffer b = {malloc(length + 2 * GUARD), malloc(length + 2 * GUARD), length};
    if (!b.room || !b.kept)
        exit(2);
    memset(b.room, 0xA5, length + 2 * GUARD);
    if (fread(b.room + GUARD, 1, length, stdin) != length)
        exit(2);
    memcpy(b.kept, b.room, length + 2 * GUARD);
    return b;
}

/* What the entry is given. */
static uint8_t *pointer(const struct buffer *b, int null_where_empty)
{
    return null_where_empty && b->length == 0 ? NULL : b->room + GUARD;
}

/* Whether a byte that no call may touch was touched: the guards, and of an input all. */
static int touched(const struct buffer *b, int is_output)
{
    size_t end = GUARD + b->length;
    if (!is_output)
        return memcmp(b->room, b->kept, end + GUARD) != 0;
    return memcmp(b->room, b->kept, GUARD) != 0 || memcmp(b->room + end, b->kept + end, GUARD) != 0;
}

int main(void)
{
    uint8_t head[4 * NUMBERS];
    while (fread(head, 1, sizeof head, stdin) == sizeof head) {
        struct buffer b[BUFFERS];
        for (int i = 0; i < BUFFERS; i++)
            b[i] = read_buffer(number(head + 8 + 4 * i));
        int null = number(head + 4) != 0;
        uint32_t answer = spoonwing_frame(pointer(&b[0], null), b[0].length, number(head),
                                          pointer(&b[1], null), b[1].length,
                                          pointer(&b[2], null), b[2].length,
                                          pointer(&b[3], null), b[3].length);
        uint32_t spoilt = 0;
        for (int i = 0; i < BUFFERS; i++)
            spoilt |= (uint32_t)touched(&b[i], i == OUTPUT);
        tell_number(answer);
        tell_number(spoilt);
        fwrite(b[OUTPUT].room + GUARD, 1, b[OUTPUT].length, stdout);
        fflush(stdout);
        for (int i = 0; i < BUFFERS; i++) {
            free(b[i].room);
            free(b[i].kept);
        }
    }
    return 0;
}
