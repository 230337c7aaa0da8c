/* The traffic that no painter gets around: line by line, each layer's bytes are read and joined to
 * the frame's by one operation. A list has no bytes to read, but its part of the frame changes. */
#include "painter.h"

static void join(uint8_t *restrict under, const uint8_t *restrict over, size_t length)
{
    for (size_t i = 0; i < length; i++)
        under[i] ^= over[i];
}

static void turn(uint8_t *under, size_t length)
{
    for (size_t i = 0; i < length; i++)
        under[i] ^= 255;
}

static void fill(uint8_t *line, size_t length, uint8_t ground)
{
    for (size_t i = 0; i < length; i++)
        line[i] = ground;
}

/* Line y of layer n, where it has one. */
static void join_layer(const struct scene *scene, int n, uint32_t y, uint8_t *line)
{
    const struct layer *layer = &scene->layer[n];
    size_t length = (size_t)PIXEL * layer->width;
    uint8_t *under = line + PIXEL * layer->x;
    if (y < layer->y || layer->y + layer->height <= y)
        return;
    if (layer->is_graphics)
        turn(under, length);
    else
        join(under, scene->pixels[n] + length * (y - layer->y), length);
}

static void join_line(const struct scene *scene, uint32_t y, uint8_t *line)
{
    fill(line, (size_t)PIXEL * scene->width, scene->ground[0]);
    for (int n = 0; n < scene->layers; n++)
        join_layer(scene, n, y, line);
}

static void paint(const struct scene *scene, uint8_t *output, void *prepared)
{
    (void)prepared;
    for (uint32_t y = 0; y < scene->height; y++)
        join_line(scene, y, output + (size_t)PIXEL * y * scene->width);
}

const struct painter FLOOR = {.name = "floor", .paint = paint};
