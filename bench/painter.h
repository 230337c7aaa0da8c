/* Those that paint a scene's frame. Each is given the same layers and writes the same layout. */
#ifndef PAINTER_H
#define PAINTER_H

#include "scene.h"

struct painter {
    const char *name;
    uint32_t tolerance; /* how far from the formula a byte may be, for each layer */
    /* What is prepared outside the clock, if anything is. */
    void *(*prepare)(const struct scene *scene, uint8_t *output);
    void (*paint)(const struct scene *scene, uint8_t *output, void *prepared);
    void (*drop)(void *prepared);
};

/* The proved entry, and the formula in plain C. */
extern const struct painter SPOONWING, PLAIN_C;

/* Libraries. Graphics layers come to them as pictures, drawn outside the clock. */
extern const struct painter SDL2, PIXMAN_STRAIGHT, PIXMAN_PREMULTIPLIED;

/* Not a frame: reads each layer and joins it to the frame, and that is all. */
extern const struct painter FLOOR;

#endif
