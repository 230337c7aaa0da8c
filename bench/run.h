/* Painters at work: whether their bytes are right, and the least time that each takes. */
#ifndef RUN_H
#define RUN_H

#include "painter.h"

struct run {
    const struct painter *painter;
    const struct scene *scene;
    uint8_t *output;
    void *prepared;
    double least; /* seconds */
};

struct run new_run(const struct painter *painter, const struct scene *scene, uint8_t *output);
void drop_run(struct run *run);

/* Paints once, and answers how far the farthest byte is from the one wanted. A painter that is
 * farther off than it may be ends the program: a wrong result is no time. */
uint32_t checked(const struct run *run, const uint8_t *wanted);

/* Lets the runs take turns for so many seconds, each round from another one on, and keeps the least
 * time of each. */
void take_turns(struct run *runs, int count, double seconds);

/* The same of runs that have a scene and an output each, which are dropped after it. */
void take_own_turns(struct run *runs, struct scene *const *scenes, int count, double seconds);

#endif
