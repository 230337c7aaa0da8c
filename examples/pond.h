/* A duckling and its pond, for the hall: the one is a small picture, the other a list of boxes. */
#ifndef POND_H
#define POND_H

#include "pictures.h"
#include "tables.h"

/* The duckling is drawn in dots, each so many pixels wide and high. */
enum { DOT = 5, DOTS_ACROSS = 32, DOT_LINES = 29 };
enum { DUCKLING_WIDTH = DOT * DOTS_ACROSS, DUCKLING_HEIGHT = DOT * DOT_LINES };

/* Four bytes a pixel in raster order: clear around the duckling, and half clear where the water
 * gives it back. */
void paint_duckling(uint8_t *pixels);

/* The pond on a layer of 640 by 360, with its colours; clear where the sky is. */
void draw_pond(struct bank *bank);

#endif
