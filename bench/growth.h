/* Scenes that grow: each step has twice the pixels, layers or instructions of the one before. */
#ifndef GROWTH_H
#define GROWTH_H

#include "painter.h"

enum { GROWTHS = 5, MOST_STEPS = 4 };

struct growth {
    const char *what, *sizes;
    const struct painter *painter;
    int steps;
    /* A step, on a screen of which each side is divided. */
    struct scene *(*make)(int step, uint32_t divisor);
};

extern const struct growth GROWTH[GROWTHS];

#endif
