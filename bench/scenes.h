/* The scenes that are painted, each for a screen of any size. */
#ifndef SCENES_H
#define SCENES_H

#include "scene.h"

/* One picture over the whole screen. */
struct scene *random_picture(uint32_t width, uint32_t height);
struct scene *one_alpha_picture(uint32_t width, uint32_t height);
struct scene *opaque_picture(uint32_t width, uint32_t height);

/* An opaque picture under three captions of boxes and text, one half way through its fade. */
struct scene *museum(uint32_t width, uint32_t height);

/* So many pictures of random alpha, each over the whole screen. */
struct scene *stack_of(uint32_t width, uint32_t height, int pictures);
struct scene *eight_layers(uint32_t width, uint32_t height);

/* Eight opaque pictures, and four of stretches that are clear, opaque or mixed. */
struct scene *eight_opaque(uint32_t width, uint32_t height);
struct scene *stretches(uint32_t width, uint32_t height);

/* The same as floats, for kept displays. */
struct scene *float_stack_of(uint32_t width, uint32_t height, int pictures);

/* A graphics layer over the whole screen with so many instructions, each of which draws: boxes,
 * outlines, text, and boxes with text, at every scale. */
struct scene *list_of(uint32_t width, uint32_t height, int instructions);
struct scene *full_list(uint32_t width, uint32_t height);

/* 16 by 16 with eight layers, four pictures and four lists. Their depths do not rise with their
 * numbers, so it is for kept displays and not for painters. */
struct scene *small_frame(void);

#endif
