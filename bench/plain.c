/* Document 01's formula and K7's in plain C, pixel by pixel and layer by layer: what the others'
 * bytes are compared with. */
#include <stdlib.h>
#include <string.h>

#include "list.h"
#include "painter.h"
#include "plain.h"

enum { CHANNELS = 3, MOST_WIDTH = 4095 };

static uint8_t blend(uint32_t a, uint32_t over, uint32_t under)
{
    return (uint8_t)((a * over + (255 - a) * under + 127) / 255);
}

static void blend_pixel(uint8_t *restrict under, const uint8_t *restrict over, uint32_t a)
{
    for (int c = 0; c < CHANNELS; c++)
        under[c] = blend(a, over[c], under[c]);
}

/* ---- rows of a layer */

static void own_row(uint8_t *restrict under, const uint8_t *restrict over, size_t count)
{
    for (size_t i = 0; i < count; i++)
        blend_pixel(under + PIXEL * i, over + PIXEL * i, over[PIXEL * i + CHANNELS]);
}

static void flat_row(uint8_t *restrict under, const uint8_t *restrict over, size_t count,
                     uint32_t a)
{
    for (size_t i = 0; i < count; i++)
        blend_pixel(under + PIXEL * i, over + PIXEL * i, a);
}

static void own_indexes(uint8_t *restrict under, const uint8_t *restrict indexes,
                        const uint8_t *restrict colours, size_t count)
{
    for (size_t i = 0; i < count; i++) {
        const uint8_t *over = colours + PIXEL * indexes[i];
        blend_pixel(under + PIXEL * i, over, over[CHANNELS]);
    }
}

static void flat_indexes(uint8_t *restrict under, const uint8_t *restrict indexes,
                         const uint8_t *restrict colours, size_t count, uint32_t a)
{
    for (size_t i = 0; i < count; i++)
        blend_pixel(under + PIXEL * i, colours + PIXEL * indexes[i], a);
}

/* ---- floats */

/* A float has 24 bits, so 255 times it is exact in a double; so is that and a half, unless it is
 * below 1 anyway. What is not a number is not above 0. */
static uint8_t byte_of(float number)
{
    if (!(number > 0))
        return 0;
    return number >= 1 ? 255 : (uint8_t)(255.0 * number + 0.5);
}

static void convert_row(uint8_t *restrict bytes, const float *restrict numbers, size_t count)
{
    for (size_t i = 0; i < PIXEL * count; i++)
        bytes[i] = byte_of(numbers[i]);
}

/* ---- layers */

/* The lines of the layer that are on the canvas, counted from its first one. */
static uint32_t first_line(const struct canvas *canvas, const struct layer *layer)
{
    return canvas->top > layer->y ? canvas->top - layer->y : 0;
}

static uint32_t lines_end(const struct canvas *canvas, const struct layer *layer)
{
    uint32_t end = canvas->top + canvas->lines;
    if (end <= layer->y)
        return 0;
    return end - layer->y < layer->height ? end - layer->y : layer->height;
}

static uint8_t *row_of(const struct canvas *canvas, const struct layer *layer, uint32_t v)
{
    uint32_t y = layer->y + v - canvas->top;
    return canvas->output + PIXEL * ((size_t)y * canvas->width + layer->x);
}

/* A line of the picture, in the room where it has to be made of floats. */
static const uint8_t *picture_row(const struct laid *laid, uint32_t v, uint8_t *bytes)
{
    size_t at = (size_t)PIXEL * v * laid->layer.width;
    if (!laid->layer.is_float)
        return laid->pixels + at;
    convert_row(bytes, laid->floats + at, laid->layer.width);
    return bytes;
}

static void lay_picture(const struct canvas *canvas, const struct laid *laid)
{
    const struct layer *layer = &laid->layer;
    uint32_t end = lines_end(canvas, layer);
    uint8_t bytes[PIXEL * MOST_WIDTH];
    for (uint32_t v = first_line(canvas, layer); v < end; v++) {
        uint8_t *under = row_of(canvas, layer, v);
        const uint8_t *over = picture_row(laid, v, bytes);
        if (layer->has_global_alpha)
            flat_row(under, over, layer->width, laid->alpha);
        else
            own_row(under, over, layer->width);
    }
}

/* The list is drawn whole, also for one line. */
static void lay_list(const struct canvas *canvas, const struct laid *laid)
{
    const struct layer *layer = &laid->layer;
    const uint8_t *colours = laid->bank + COLOURS_AT;
    uint32_t first = first_line(canvas, layer), end = lines_end(canvas, layer);
    if (first < end)
        draw_list(laid->bank, laid->bits, layer->width, layer->height, canvas->indexes);
    for (uint32_t v = first; v < end; v++) {
        uint8_t *under = row_of(canvas, layer, v);
        const uint8_t *row = canvas->indexes + (size_t)v * layer->width;
        if (layer->has_global_alpha)
            flat_indexes(under, row, colours, layer->width, laid->alpha);
        else
            own_indexes(under, row, colours, layer->width);
    }
}

void lay(const struct canvas *canvas, const struct laid *laid)
{
    if (laid->layer.is_graphics)
        lay_list(canvas, laid);
    else
        lay_picture(canvas, laid);
}

/* ---- the frame */

void fill_canvas(const struct canvas *canvas, const uint8_t ground[3])
{
    uint8_t pixel[PIXEL] = {ground[0], ground[1], ground[2], 255};
    size_t length = (size_t)PIXEL * canvas->width * canvas->lines;
    for (size_t i = 0; i < length; i += PIXEL)
        memcpy(canvas->output + i, pixel, PIXEL);
}

static void paint(const struct scene *scene, uint8_t *output, void *indexes)
{
    struct canvas canvas = {output, scene->width, 0, scene->height, indexes};
    fill_canvas(&canvas, scene->ground);
    for (int n = 0; n < scene->layers; n++) {
        struct laid laid = {scene->layer[n],     scene->alpha[n],   scene->pixels[n],
                            floats_of(scene, n), bank_of(scene, n), scene->bits};
        lay(&canvas, &laid);
    }
}

/* Room for the indexes of the largest layer. */
static void *prepare(const struct scene *scene, uint8_t *output)
{
    (void)output;
    return room((size_t)scene->width * scene->height);
}

const struct painter PLAIN_C = {
    .name = "plain C", .prepare = prepare, .paint = paint, .drop = free};
