/* An instruction list drawn in plain C: boxes and glyphs by runs, into one colour index a pixel. A
 * glyph pixel of the bank has so many bits, 1 or 2. */
#ifndef LIST_H
#define LIST_H

#include <stdint.h>

void draw_list(const uint8_t *bank, int bits, uint32_t width, uint32_t height, uint8_t *indexes);

#endif
