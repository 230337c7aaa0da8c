/* Writes the words of a register image, the screen and an enabled layer, and an image as a run. */
#ifndef REGISTERS_H
#define REGISTERS_H

#include <stdint.h>

struct layer {
    uint32_t is_graphics, is_float, depth; /* neither: its picture comes as bytes */
    uint32_t x, y, width, height;
    uint32_t has_global_alpha, alpha;
    uint32_t fade_start, fade_length, fade_target;
};

/* The display on, its size and the background's red, green and blue. The image is all zero at
 * first, so bank 0 of every table is active. */
void put_screen(uint8_t *image, uint32_t width, uint32_t height, const uint8_t ground[3]);

/* The display on and the update bit set: a start takes up what was written. */
void put_update(uint8_t *image);

/* Layer n, enabled; a layer that is not put stays off. */
void put_layer(uint8_t *image, int n, const struct layer *layer);

/* The image as a run of writes, each word's bytes behind its register's number. */
enum { REGISTERS = 52, WRITE_LENGTH = 5 };
void put_writes(uint8_t *run, const uint8_t *image);

#endif
