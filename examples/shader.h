/* A river as a shader leaves it: four numbers a pixel, red, green, blue and alpha, in raster order.
 * They are not held between 0 and 1, and every machine computes the same bits. */
#ifndef SHADER_H
#define SHADER_H

#include "pictures.h"

enum { FLOW_WIDTH = 112, FLOW_HEIGHT = 48 };

/* The waves are back where they were after so many steps of time. */
enum { FLOW_STEPS = 12 };

/* The river at a time. Its alpha falls through the shores, to below 0 on land. */
void shade_river(float *pixels, uint32_t time);

#endif
