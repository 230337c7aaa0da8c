/* A scene's buffers, put together layer by layer. */
#define _XOPEN_SOURCE 700
#include <stdio.h>
#include <stdlib.h>

#include "list.h"
#include "scene.h"

enum { PAGE = 4096, ALPHA = 153, FRAME = 1045 };

void *room(size_t length)
{
    void *bytes = NULL;
    if (posix_memalign(&bytes, PAGE, length > 0 ? length : 1) != 0) {
        fprintf(stderr, "bench: no room for %zu bytes\n", length);
        exit(1);
    }
    return bytes;
}

size_t frame_length(const struct scene *scene)
{
    return (size_t)PIXEL * scene->width * scene->height;
}

size_t tables_length(const struct scene *scene)
{
    return (size_t)TABLES_LENGTH(scene->bits);
}

const uint8_t *bank_of(const struct scene *scene, int layer)
{
    return scene->tables + CONTROLLER_LENGTH(scene->bits) * layer;
}

/* A pixel has as many floats as bytes. */
const float *floats_of(const struct scene *scene, int layer)
{
    if (!scene->layer[layer].is_float)
        return NULL;
    return scene->floats + (scene->pixels[layer] - scene->pictures);
}

/* ---- pictures */

/* Marsaglia's steps of three shifts. */
static uint32_t next_random(uint32_t *state)
{
    *state ^= *state << 13;
    *state ^= *state >> 17;
    *state ^= *state << 5;
    return *state;
}

/* A stretch: its look, and how many more pixels of it are to come. */
struct stretch {
    enum look look;
    uint32_t left;
};

static struct stretch next_stretch(uint32_t *state)
{
    static const enum look LOOKS[] = {CLEAR, OPAQUE, RANDOM_ALPHA};
    uint32_t random = next_random(state);
    return (struct stretch){LOOKS[(random >> 8) % 3], random % 255};
}

/* A picture of one look is one stretch, whose count never comes to its end. */
static void make_picture(uint8_t *pixels, size_t length, uint32_t seed, enum look look)
{
    struct stretch stretch = {look, look == STRETCHES ? 0 : UINT32_MAX};
    for (size_t i = 0; i < length; i += PIXEL) {
        if (stretch.left-- == 0)
            stretch = next_stretch(&seed);
        put_word(pixels + i, next_random(&seed));
        if (stretch.look == OPAQUE || stretch.look == CLEAR)
            pixels[i + PIXEL - 1] = stretch.look == OPAQUE ? 255 : 0;
    }
}

struct scene *new_scene(uint32_t width, uint32_t height, int pictures, enum look look)
{
    struct scene *scene = room(sizeof *scene);
    *scene = (struct scene){.width = width, .height = height, .frame = FRAME,
                            .ground = {30, 62, 88}, .bits = 1, .layers = pictures};
    size_t length = frame_length(scene);
    scene->pictures_length = length * (size_t)pictures;
    scene->pictures = room(scene->pictures_length);
    for (int n = 0; n < pictures; n++) {
        scene->layer[n] = (struct layer){.depth = (uint32_t)n, .width = width, .height = height,
                                         .has_global_alpha = look == ONE_ALPHA, .alpha = ALPHA};
        scene->pixels[n] = scene->pictures + length * (size_t)n;
        make_picture(scene->pixels[n], length, (uint32_t)n + 1, look);
    }
    return scene;
}

/* A number of those that become the byte: less than half a step above or below it. */
static float near_byte(uint8_t byte, uint32_t random)
{
    int is_end = byte == 0 || byte == 255;
    float part = is_end ? 0 : (float)(random % 999) / 1000 - 0.499f;
    return ((float)byte + part) / 255;
}

struct scene *in_floats(struct scene *scene)
{
    uint32_t seed = 1;
    scene->floats_length = scene->pictures_length;
    scene->floats = room(scene->floats_length * sizeof scene->floats[0]);
    scene->pictures_length = 0;
    for (size_t i = 0; i < scene->floats_length; i++)
        scene->floats[i] = near_byte(scene->pictures[i], next_random(&seed));
    for (int n = 0; n < scene->layers; n++)
        scene->layer[n].is_float = 1;
    return scene;
}

/* ---- lists */

struct bank add_list(struct scene *scene, struct layer layer)
{
    int n = scene->layers++;
    layer.is_graphics = 1;
    layer.depth = (uint32_t)n;
    scene->layer[n] = layer;
    return first_bank(scene->tables, n, scene->bits);
}

/* What a layer's list draws, each index through the layer's colours. */
static uint8_t *list_pixels(const struct scene *scene, int n)
{
    const struct layer *layer = &scene->layer[n];
    const uint8_t *bank = bank_of(scene, n);
    size_t count = (size_t)layer->width * layer->height;
    uint8_t *pixels = room(PIXEL * count), *indexes = room(count);
    draw_list(bank, scene->bits, layer->width, layer->height, indexes);
    for (size_t i = 0; i < PIXEL * count; i++)
        pixels[i] = bank[COLOURS_AT + PIXEL * indexes[i / PIXEL] + i % PIXEL];
    free(indexes);
    return pixels;
}

/* ---- the whole */

uint8_t faded(const struct layer *layer, uint32_t frame)
{
    uint32_t length = layer->fade_length, gone = frame - layer->fade_start;
    if (length == 0 || gone >= UINT32_C(1) << 31)
        return (uint8_t)layer->alpha;
    if (gone >= length)
        return (uint8_t)layer->fade_target;
    uint32_t sum = layer->alpha * (length - gone) + layer->fade_target * gone + length / 2;
    return (uint8_t)(sum / length);
}

struct scene *sealed(struct scene *scene)
{
    put_screen(scene->image, scene->width, scene->height, scene->ground);
    for (int n = 0; n < scene->layers; n++) {
        put_layer(scene->image, n, &scene->layer[n]);
        scene->alpha[n] = faded(&scene->layer[n], scene->frame);
        if (scene->layer[n].is_graphics)
            scene->pixels[n] = list_pixels(scene, n);
    }
    return scene;
}

void drop_scene(struct scene *scene)
{
    for (int n = 0; n < scene->layers; n++)
        if (scene->layer[n].is_graphics)
            free(scene->pixels[n]);
    free(scene->pictures);
    free(scene->floats);
    free(scene);
}
