/* Written from document 01's "Registers" and from K4 and K7, step by step. */
#include <string.h>

#include "plain_mend.h"
#include "plain_words.h"
#include "spoonwing.h"

enum { ENABLED = 1, FLOAT = 4, DEPTH_AT = 8, Y_AT = 16, FIELD = 4095 };

/* ---- the steps on single words and layers */

static void clear_reserved(uint32_t *words)
{
    for (int i = 0; i < FIRST_LAYER; i++)
        words[i] &= FIRST_BITS[i];
    for (int i = FIRST_LAYER; i < REGISTERS; i++)
        words[i] &= LAYER_BITS[(i - FIRST_LAYER) % LAYER_WORDS];
    for (int n = 0; n < LAYERS; n++)
        if (is_both(words + layer_at(n)))
            words[layer_at(n)] &= ~(uint32_t)FLOAT;
}

static int is_larger(uint32_t size, uint32_t screen)
{
    return low_half(size) > low_half(screen) || high_half(size) > high_half(screen);
}

static uint32_t with_field(uint32_t word, int at, uint32_t value)
{
    return (word & ~((uint32_t)FIELD << at)) | value << at;
}

/* One axis, whose fields stand from a bit on. A layer that was cut is as large as the screen, so
 * that it sticks out wherever it is not at 0. */
static void fit(uint32_t *layer, uint32_t screen, int at)
{
    uint32_t place = layer[2] >> at & FIELD, size = layer[3] >> at & FIELD;
    uint32_t whole = screen >> at & FIELD;
    if (size > whole)
        size = whole;
    if (place + size > whole)
        place = whole - size;
    layer[2] = with_field(layer[2], at, place);
    layer[3] = with_field(layer[3], at, size);
}

static void mend_layer(uint32_t *layer, uint32_t screen)
{
    if (!is_enabled(layer))
        return;
    if (is_empty(layer[3]) || (!is_graphics(layer) && is_larger(layer[3], screen))) {
        layer[0] &= ~(uint32_t)ENABLED;
        return;
    }
    fit(layer, screen, 0);
    fit(layer, screen, Y_AT);
}

/* ---- depths, as sets of bits */

static uint32_t depths_of(const uint32_t *words)
{
    uint32_t depths = 0;
    for (int n = 0; n < LAYERS; n++) {
        const uint32_t *layer = words + layer_at(n);
        depths |= is_enabled(layer) ? UINT32_C(1) << depth_of(layer) : 0;
    }
    return depths;
}

/* With eight depths for eight layers there is one as long as two layers share theirs. */
static uint32_t smallest_outside(uint32_t depths)
{
    uint32_t depth = 0;
    while (depths >> depth & 1)
        depth++;
    return depth;
}

static void part_depths(uint32_t *words)
{
    uint32_t taken = depths_of(words), below = 0;
    for (int n = 0; n < LAYERS; n++) {
        uint32_t *layer = words + layer_at(n);
        if (!is_enabled(layer))
            continue;
        if (below >> depth_of(layer) & 1) {
            uint32_t given = smallest_outside(taken);
            layer[0] ^= (depth_of(layer) ^ given) << DEPTH_AT;
            taken |= UINT32_C(1) << given;
        }
        below |= UINT32_C(1) << depth_of(layer);
    }
}

/* ---- the whole */

static size_t put_changes(uint32_t *list, const uint32_t *before, const uint32_t *after)
{
    uint32_t *at = list;
    for (uint32_t i = 0; i < REGISTERS; i++) {
        if (before[i] == after[i])
            continue;
        *at++ = i;
        *at++ = before[i];
        *at++ = after[i];
    }
    return (size_t)(at - list) / 3;
}

/* The image's bytes stand as words do, lowest first. */
uint32_t plain_mend(uint8_t *image, size_t image_length, uint32_t *list, size_t *count)
{
    uint32_t before[REGISTERS], words[REGISTERS];
    *count = 0;
    if (image_length != sizeof words)
        return SPOONWING_BAD_IMAGE_LENGTH;
    memcpy(before, image, sizeof before);
    if (is_empty(before[1]))
        return SPOONWING_EMPTY_SCREEN;
    memcpy(words, before, sizeof words);
    clear_reserved(words);
    for (int n = 0; n < LAYERS; n++)
        mend_layer(words + layer_at(n), words[1]);
    part_depths(words);
    memcpy(image, words, sizeof words);
    *count = put_changes(list, before, words);
    return SPOONWING_DONE;
}
