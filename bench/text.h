/* The same lines of text with one bit a glyph pixel and with two, at every scale, on a layer over
 * the whole screen; and that layer without them. */
#ifndef TEXT_H
#define TEXT_H

#include "subjects.h"

enum { SCALES = 4 };

/* What is held beside each other: all of it by spoonwing_frame first, then the text by plain C. */
enum {
    ONE_BIT,
    TWO_BITS,
    NO_TEXT,
    NO_SOFT_TEXT,
    PROVED_RUNS,
    PLAIN_ONE_BIT = PROVED_RUNS,
    PLAIN_TWO_BITS,
    TEXT_RUNS
};

struct text_run {
    const struct painter *painter;
    int bits, has_text; /* without text the list is END alone */
};

extern const struct text_run TEXT_RUN[TEXT_RUNS];

struct scene *text_scene(const struct text_run *run, enum scale scale, const struct size *size);

/* The most that text of two bits may cost, as a multiple of text of one. */
extern const double TEXT_WANTED;

#endif
