/* Document 01's formula for some lines of a screen, a layer at a time. */
#ifndef PLAIN_H
#define PLAIN_H

#include "scene.h"

/* The lines that are painted, `lines` of them from `top` on, and room for a layer's indexes. */
struct canvas {
    uint8_t *output;
    uint32_t width, top, lines;
    uint8_t *indexes;
};

/* A layer with what is painted of it, a picture as bytes or as floats, or a bank of so many bits a
 * glyph pixel. */
struct laid {
    struct layer layer;
    uint8_t alpha;
    const uint8_t *pixels;
    const float *floats;
    const uint8_t *bank;
    int bits;
};

void fill_canvas(const struct canvas *canvas, const uint8_t ground[3]);
void lay(const struct canvas *canvas, const struct laid *laid);

#endif
