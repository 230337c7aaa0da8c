/* A whole frame of a kept display by its parts: line by line into one line of memory, or a fill and
 * then a band for each depth; or at once. */
#ifndef PARTS_H
#define PARTS_H

#include "painter.h"

/* By spoonwing_display_line for each line, which leaves the output alone, by spoonwing_display_fill
 * and spoonwing_display_paint for each depth, and by spoonwing_display_frame. All begin with the
 * same state, the scene's image active. */
extern const struct painter BY_LINES, BY_BANDS, BY_FRAME;

/* Compares the frame, the frame by bands and each line of it with a frame's bytes, and ends the
 * program where they are others. */
void check_kept(const struct scene *scene, const uint8_t *wanted);

#endif
