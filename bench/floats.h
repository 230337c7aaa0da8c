/* A picture over the whole screen that is lent as floats, and the same one in bytes. */
#ifndef FLOATS_H
#define FLOATS_H

#include "subjects.h"

enum { FLOAT_LOOKS = 3 };

struct float_look {
    const char *name;
    enum look look;
};

extern const struct float_look FLOAT_LOOK[FLOAT_LOOKS];

/* What is held beside each other: floats by a kept display, by plain C that makes bytes of them and
 * blends those, and the same bytes by a kept display. */
enum { FLOATS, PLAIN_FLOATS, BYTES, FLOAT_RUNS };

struct float_run {
    const struct painter *painter;
    int is_float;
};

extern const struct float_run FLOAT_RUN[FLOAT_RUNS];

struct scene *float_scene(const struct float_run *run, enum look look, const struct size *size);

#endif
