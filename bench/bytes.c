/* The table of bytes: spoonwing_frame's are the formula's, and the libraries' are near them. */
#include <stdio.h>
#include <stdlib.h>

#include "report.h"
#include "run.h"
#include "subjects.h"

/* How far a painter is from the formula, as a cell. */
static void print_off(const struct painter *painter, const struct scene *scene, uint8_t *output,
                      const uint8_t *wanted)
{
    struct run run = new_run(painter, scene, output);
    uint32_t off = checked(&run, wanted);
    drop_run(&run);
    if (off == 0)
        printf(" equal |");
    else
        printf(" %u |", (unsigned)off);
    fflush(stdout);
}

static void print_row(const struct subject *subject, const struct size *size)
{
    struct scene *scene = subject->make(size->width, size->height);
    uint8_t *output = room(frame_length(scene)), *wanted = room(frame_length(scene));
    struct run formula = new_run(&PLAIN_C, scene, wanted);
    PLAIN_C.paint(scene, wanted, formula.prepared);
    drop_run(&formula);
    printf("| %s, %u x %u |", subject->name, (unsigned)size->width, (unsigned)size->height);
    for (int i = 0; i < PAINTERS; i++)
        if (PAINTER[i] != &PLAIN_C && PAINTER[i] != &FLOOR)
            print_off(PAINTER[i], scene, output, wanted);
    printf("\n");
    free(output);
    free(wanted);
    drop_scene(scene);
}

void print_bytes(void)
{
    printf("How far each painter's farthest byte is from document 01's formula. spoonwing_frame\n"
           "has to be equal. The libraries round in ways of their own, each layer anew: for each\n"
           "layer SDL2 may be %u off, and pixman %u.\n\n",
           (unsigned)SDL2.tolerance, (unsigned)PIXMAN_STRAIGHT.tolerance);
    printf("| Scene | spoonwing_frame | SDL2 | pixman straight | pixman premultiplied |\n"
           "|---|---|---|---|---|\n");
    each_subject(print_row);
    printf("\n");
}
