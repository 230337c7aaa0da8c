/* The proved archive's entry as a painter. */
#include <stdio.h>
#include <stdlib.h>

#include "painter.h"

static void paint(const struct scene *scene, uint8_t *output, void *prepared)
{
    (void)prepared;
    uint32_t answer = spoonwing_frame(scene->image, sizeof scene->image, scene->frame,
                                      scene->tables, tables_length(scene),
                                      scene->pictures, scene->pictures_length,
                                      output, frame_length(scene));
    if (answer != SPOONWING_DONE) {
        fprintf(stderr, "bench: spoonwing_frame refused with %u\n", (unsigned)answer);
        exit(1);
    }
}

const struct painter SPOONWING = {.name = "spoonwing_frame", .paint = paint};
