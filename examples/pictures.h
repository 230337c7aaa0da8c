/* The example's three pictures, made by integer arithmetic so that every machine makes the same
 * bytes: four a pixel, red, green, blue and alpha, in raster order. */
#ifndef PICTURES_H
#define PICTURES_H

#include <stdint.h>

enum {
    PIXEL = 4,
    SKY_WIDTH = 640,
    SKY_HEIGHT = 172,
    WATER_WIDTH = 640,
    WATER_HEIGHT = 190,
    BIRD_WIDTH = 270,
    BIRD_HEIGHT = 320
};

/* A low sun and its glow, clear where the background shall show, and the far bank. */
void paint_sky(uint8_t *pixels);

/* The river, opaque. */
void paint_water(uint8_t *pixels);

/* A spoonbill with its reflection, and reeds; clear around them, with soft edges. */
void paint_bird(uint8_t *pixels);

#endif
