/* pixman's OVER, two ways. Straight: a layer's channels as they are, through a mask that holds its
 * alphas. Premultiplied: channels that were multiplied by their alphas outside the clock, no mask.
 * A layer with global alpha goes through a mask of that one alpha in both. */
#include <pixman.h>
#include <stdio.h>
#include <stdlib.h>
#include <string.h>

#include "painter.h"

struct images {
    pixman_image_t *screen, *layer[MOST_LAYERS], *mask[MOST_LAYERS];
    uint8_t *bytes[MOST_LAYERS]; /* masks, or premultiplied pixels */
    int layers;
    pixman_color_t ground;
};

static pixman_image_t *must(pixman_image_t *image)
{
    if (!image) {
        fprintf(stderr, "bench: pixman made no image\n");
        exit(1);
    }
    return image;
}

/* Bytes in the order red, green, blue, alpha. */
static pixman_image_t *image_of(pixman_format_code_t format, const uint8_t *pixels, uint32_t width,
                                uint32_t height)
{
    return must(pixman_image_create_bits(format, (int)width, (int)height, (uint32_t *)pixels,
                                         (int)(PIXEL * width)));
}

/* ---- layers */

static void put_flat(struct images *all, const struct scene *scene, int n)
{
    const struct layer *layer = &scene->layer[n];
    pixman_color_t alpha = {.alpha = (uint16_t)(257 * scene->alpha[n])};
    all->layer[n] = image_of(PIXMAN_x8b8g8r8, scene->pixels[n], layer->width, layer->height);
    all->mask[n] = must(pixman_image_create_solid_fill(&alpha));
}

static void put_straight(struct images *all, const struct scene *scene, int n)
{
    const struct layer *layer = &scene->layer[n];
    uint32_t stride = (layer->width + 3) / 4 * 4;
    uint8_t *mask = all->bytes[n] = room((size_t)stride * layer->height);
    for (size_t i = 0; i < (size_t)layer->width * layer->height; i++)
        mask[i / layer->width * stride + i % layer->width] = scene->pixels[n][PIXEL * i + 3];
    all->layer[n] = image_of(PIXMAN_x8b8g8r8, scene->pixels[n], layer->width, layer->height);
    all->mask[n] = must(pixman_image_create_bits(PIXMAN_a8, (int)layer->width, (int)layer->height,
                                                 (uint32_t *)mask, (int)stride));
}

static void put_premultiplied(struct images *all, const struct scene *scene, int n)
{
    const struct layer *layer = &scene->layer[n];
    const uint8_t *from = scene->pixels[n];
    size_t length = (size_t)PIXEL * layer->width * layer->height;
    uint8_t *to = all->bytes[n] = room(length);
    for (size_t i = 0; i < length; i++) {
        uint32_t alpha = from[i | 3];
        to[i] = i % PIXEL == 3 ? (uint8_t)alpha : (uint8_t)((from[i] * alpha + 127) / 255);
    }
    all->layer[n] = image_of(PIXMAN_a8b8g8r8, to, layer->width, layer->height);
}

/* ---- the painters */

typedef void put_layer_image(struct images *all, const struct scene *scene, int n);

static void *prepare(const struct scene *scene, uint8_t *output, put_layer_image *put)
{
    struct images *all = room(sizeof *all);
    memset(all, 0, sizeof *all);
    all->screen = image_of(PIXMAN_a8b8g8r8, output, scene->width, scene->height);
    all->layers = scene->layers;
    all->ground = (pixman_color_t){(uint16_t)(257 * scene->ground[0]),
                                   (uint16_t)(257 * scene->ground[1]),
                                   (uint16_t)(257 * scene->ground[2]), 0xffff};
    for (int n = 0; n < scene->layers; n++)
        (scene->layer[n].has_global_alpha ? put_flat : put)(all, scene, n);
    return all;
}

static void *prepare_straight(const struct scene *scene, uint8_t *output)
{
    return prepare(scene, output, put_straight);
}

static void *prepare_premultiplied(const struct scene *scene, uint8_t *output)
{
    return prepare(scene, output, put_premultiplied);
}

static void paint(const struct scene *scene, uint8_t *output, void *prepared)
{
    struct images *all = prepared;
    pixman_box32_t whole = {0, 0, (int)scene->width, (int)scene->height};
    (void)output;
    pixman_image_fill_boxes(PIXMAN_OP_SRC, all->screen, &all->ground, 1, &whole);
    for (int n = 0; n < all->layers; n++) {
        const struct layer *layer = &scene->layer[n];
        pixman_image_composite32(PIXMAN_OP_OVER, all->layer[n], all->mask[n], all->screen, 0, 0, 0,
                                 0, (int)layer->x, (int)layer->y, (int)layer->width,
                                 (int)layer->height);
    }
}

static void drop(void *prepared)
{
    struct images *all = prepared;
    for (int n = 0; n < all->layers; n++) {
        pixman_image_unref(all->layer[n]);
        if (all->mask[n])
            pixman_image_unref(all->mask[n]);
        free(all->bytes[n]);
    }
    pixman_image_unref(all->screen);
    free(all);
}

const struct painter PIXMAN_STRAIGHT = {.name = "pixman straight",
                                        .tolerance = 1,
                                        .prepare = prepare_straight,
                                        .paint = paint,
                                        .drop = drop};

const struct painter PIXMAN_PREMULTIPLIED = {.name = "pixman premultiplied",
                                             .tolerance = 1,
                                             .prepare = prepare_premultiplied,
                                             .paint = paint,
                                             .drop = drop};
