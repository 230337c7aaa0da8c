/* A C program that makes the calls of spoonwing_mend that it reads. A call comes as five numbers of
 * 32 bits, little-endian (the image's length, whether an image of no bytes is passed as NULL, and
 * how far past a multiple of 16 image, list and count begin, the list by a multiple of 4 and the
 * count by 0 or 8), and then the bytes of the three. It is told as the answer, 1 or 0 for whether a
 * byte beside a buffer was touched, and the bytes of the three. */
#include <stdio.h>
#include <stdlib.h>
#include <string.h>

#include "lent.h"
#include "numbers.h"
#include "spoonwing.h"

enum { ROOM = 1 << 10 };
enum { IMAGE, LIST, COUNT, BUFFERS };
enum { LENGTH, NULL_IF_EMPTY, PAST, NUMBERS = PAST + BUFFERS };

enum { LIST_LENGTH = SPOONWING_CHANGES_LENGTH * sizeof(uint32_t) };

static uint8_t space[BUFFERS][ROOM + BESIDE];

/* Bytes that come next in the input, between guards. */
static struct lent lend(int buffer, size_t length, uint32_t past)
{
    if (length > ROOM)
        exit(2);
    struct lent lent = between_guards(space[buffer], length, past);
    if (fread(lent.bytes, 1, length, stdin) != length)
        exit(2);
    return lent;
}

static uint32_t is_touched(const struct lent *lent)
{
    return !is_guard(lent->bytes - GUARD) || !is_guard(lent->bytes + lent->length);
}

static void tell_bytes(const struct lent *lent)
{
    fwrite(lent->bytes, 1, lent->length, stdout);
}

static void do_call(const uint8_t *head)
{
    const uint8_t *past = head + 4 * PAST;
    struct lent image = lend(IMAGE, number(head + 4 * LENGTH), number(past + 4 * IMAGE));
    struct lent list = lend(LIST, LIST_LENGTH, number(past + 4 * LIST));
    struct lent count = lend(COUNT, sizeof(size_t), number(past + 4 * COUNT));
    int is_null = number(head + 4 * NULL_IF_EMPTY) && image.length == 0;
    tell_number(spoonwing_mend(is_null ? NULL : image.bytes, image.length,
                               (uint32_t *)list.bytes, (size_t *)count.bytes));
    tell_number(is_touched(&image) | is_touched(&list) | is_touched(&count));
    tell_bytes(&image);
    tell_bytes(&list);
    tell_bytes(&count);
    fflush(stdout);
}

int main(void)
{
    uint8_t head[4 * NUMBERS];
    while (fread(head, 1, sizeof head, stdin) == sizeof head)
        do_call(head);
    return 0;
}
