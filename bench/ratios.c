/* The table of ratios: all painters of a scene take turns, so that whatever slows the machine slows
 * them all. */
#include <stdio.h>
#include <stdlib.h>

#include "report.h"
#include "run.h"
#include "scenes.h"
#include "subjects.h"

static const double SECONDS = 4;

static void print_row(const struct subject *subject, const struct size *size)
{
    struct scene *scene = subject->make(size->width, size->height);
    uint8_t *output = room(frame_length(scene));
    struct run runs[PAINTERS];
    for (int i = 0; i < PAINTERS; i++)
        runs[i] = new_run(PAINTER[i], scene, output);
    take_turns(runs, PAINTERS, SECONDS);
    printf("| %s, %u x %u |", subject->name, (unsigned)size->width, (unsigned)size->height);
    for (int i = 1; i < PAINTERS; i++)
        print_cell(runs[0].least / runs[i].least, subject->wanted[size - SIZE][i]);
    print_time(runs[0].least, size == &SIZE[0] ? subject->ms_wanted : 0);
    for (int i = 0; i < PAINTERS; i++)
        drop_run(&runs[i]);
    free(output);
    drop_scene(scene);
}

/* A scene, which is dropped, beside one opaque picture. */
static void print_to_opaque(const char *name, struct scene *scene, const struct size *size,
                            double wanted)
{
    struct scene *picture = opaque_picture(size->width, size->height);
    uint8_t *output = room(frame_length(picture));
    struct run runs[] = {new_run(&SPOONWING, scene, output), new_run(&SPOONWING, picture, output)};
    take_turns(runs, 2, SECONDS);
    printf("| %s, %u x %u |", name, (unsigned)size->width, (unsigned)size->height);
    print_cell(runs[0].least / runs[1].least, wanted);
    printf("\n");
    free(output);
    drop_scene(scene);
    drop_scene(picture);
}

void print_ratios(void)
{
    printf("The time of spoonwing_frame as a part of the others', the least of many turns each;\n"
           "in brackets the most that is wanted.\n\n"
           "| Scene | to plain C -O3 | to SDL2 | to pixman straight | to pixman premultiplied "
           "| to the floor | ms |\n|---|---|---|---|---|---|---|\n");
    each_subject(print_row);
    printf("\n| Scene | to one opaque picture |\n|---|---|\n");
    const struct size *size = &SIZE[0];
    print_to_opaque("48 live instructions", full_list(size->width, size->height), size, 3);
    print_to_opaque("eight opaque", eight_opaque(size->width, size->height), size, 1.5);
    printf("\n");
}
