/* Where words stand in a register image, and how their fields are packed. */
#include <string.h>

#include "registers.h"
#include "tables.h"

enum { WORD_LENGTH = 4, FIRST_LAYER = 4, LAYER_WORDS = 6 };
enum { DISPLAY_ON = 1, UPDATE = 4 };

void put_screen(uint8_t *image, uint32_t width, uint32_t height, const uint8_t ground[3])
{
    put_word(image, DISPLAY_ON);
    put_word(image + WORD_LENGTH, height << 16 | width);
    put_word(image + 2 * WORD_LENGTH,
             (uint32_t)ground[2] << 16 | (uint32_t)ground[1] << 8 | ground[0]);
}

void put_update(uint8_t *image)
{
    put_word(image, DISPLAY_ON | UPDATE);
}

void put_layer(uint8_t *image, int n, const struct layer *layer)
{
    uint8_t *words = image + WORD_LENGTH * (FIRST_LAYER + LAYER_WORDS * n);
    put_word(words, 1 | layer->is_graphics << 1 | layer->is_float << 2 | layer->depth << 8);
    put_word(words + 4, layer->has_global_alpha << 31 | layer->alpha);
    put_word(words + 8, layer->y << 16 | layer->x);
    put_word(words + 12, layer->height << 16 | layer->width);
    put_word(words + 16, layer->fade_start);
    put_word(words + 20, layer->fade_target << 16 | layer->fade_length);
}

void put_writes(uint8_t *run, const uint8_t *image)
{
    for (int i = 0; i < REGISTERS; i++) {
        run[WRITE_LENGTH * i] = (uint8_t)i;
        memcpy(run + WRITE_LENGTH * i + 1, image + WORD_LENGTH * i, WORD_LENGTH);
    }
}
