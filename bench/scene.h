/* What a painter is given: a screen and its layers in rising depth, the same as buffers of the C
 * entry, and each layer as pixels for painters that know pictures only. */
#ifndef SCENE_H
#define SCENE_H

#include <stddef.h>
#include <stdint.h>

#include "registers.h"
#include "spoonwing.h"
#include "tables.h"

enum { PIXEL = 4, MOST_LAYERS = 8 };

struct scene {
    uint32_t width, height, frame;
    uint8_t ground[3];
    int bits; /* of a glyph pixel */
    int layers;
    struct layer layer[MOST_LAYERS];
    uint8_t alpha[MOST_LAYERS];   /* with global alpha: what the fade gives at the frame */
    uint8_t *pixels[MOST_LAYERS]; /* its picture as bytes, or what its list draws */
    uint8_t *pictures;
    size_t pictures_length;
    float *floats; /* for kept displays: the pictures, where they are lent so */
    size_t floats_length;
    uint8_t image[SPOONWING_IMAGE_LENGTH];
    uint8_t tables[SPOONWING_SOFT_TABLES_LENGTH]; /* as many as the bits ask for are lent */
};

/* The alphas of a picture's pixels. With one for the layer the pixels' own are random and do not
 * count. Stretches are of any length up to 255 pixels, each clear, opaque or of random alphas. */
enum look { RANDOM_ALPHA, OPAQUE, CLEAR, ONE_ALPHA, STRETCHES };

/* A screen covered by pictures of random channels, the same bytes in every run. Lists may be added,
 * of one bit a glyph pixel unless `bits` is set before, and then it is to be sealed. */
struct scene *new_scene(uint32_t width, uint32_t height, int pictures, enum look look);

/* Has the pictures lent as floats: random numbers that become the same bytes, but 0 and 1 for those
 * of 0 and 255, as a shader has what is clear and what is opaque. */
struct scene *in_floats(struct scene *scene);

/* A graphics layer on top of the others, all but its depth given, and its bank. */
struct bank add_list(struct scene *scene, struct layer layer);

/* Works out what follows from the layers: the register image, the alphas, the lists as pixels. */
struct scene *sealed(struct scene *scene);

void drop_scene(struct scene *scene);

/* A layer's alpha at a frame number. */
uint8_t faded(const struct layer *layer, uint32_t frame);

/* The bank of a graphics layer. */
const uint8_t *bank_of(const struct scene *scene, int layer);

/* The floats of a layer, or NULL where it has none. */
const float *floats_of(const struct scene *scene, int layer);

size_t frame_length(const struct scene *scene);
size_t tables_length(const struct scene *scene);

/* Memory that begins a page, so that no painter is favoured by where its buffers lie; the program
 * ends where there is none. */
void *room(size_t length);

#endif
