/* The table of floats: what a float picture costs beside plain C, and beside the same in bytes. */
#include <stdio.h>
#include <stdlib.h>

#include "floats.h"
#include "parts.h"
#include "report.h"
#include "run.h"
#include "scenes.h"

static const double SECONDS = 2;

const struct float_look FLOAT_LOOK[FLOAT_LOOKS] = {
    {"random alpha", RANDOM_ALPHA}, {"opaque", OPAQUE}, {"clear", CLEAR}};

const struct float_run FLOAT_RUN[FLOAT_RUNS] = {
    [FLOATS] = {&BY_FRAME, 1}, [PLAIN_FLOATS] = {&PLAIN_C, 1}, [BYTES] = {&BY_FRAME, 0}};

struct scene *float_scene(const struct float_run *run, enum look look, const struct size *size)
{
    struct scene *scene = new_scene(size->width, size->height, 1, look);
    return sealed(run->is_float ? in_floats(scene) : scene);
}

/* ---- bytes */

static void check_run(const struct float_run *float_run, enum look look, const struct size *size,
                      const uint8_t *wanted)
{
    struct scene *scene = float_scene(float_run, look, size);
    struct run run = new_run(float_run->painter, scene, room(frame_length(scene)));
    checked(&run, wanted);
    if (float_run->painter == &BY_FRAME)
        check_kept(scene, wanted);
    drop_run(&run);
    free(run.output);
    drop_scene(scene);
}

/* The formula's frame of a scene in bytes, which is dropped. */
static uint8_t *formula_of(struct scene *scene)
{
    struct run formula = new_run(&PLAIN_C, scene, room(frame_length(scene)));
    PLAIN_C.paint(scene, formula.output, formula.prepared);
    drop_run(&formula);
    drop_scene(scene);
    return formula.output;
}

static void check_look(enum look look, const struct size *size)
{
    uint8_t *wanted = formula_of(float_scene(&FLOAT_RUN[BYTES], look, size));
    for (int i = 0; i < FLOAT_RUNS; i++)
        check_run(&FLOAT_RUN[i], look, size, wanted);
    free(wanted);
}

/* Eight at once, for the table of growth. */
static void check_stack(const struct size *size)
{
    struct scene *scene = float_stack_of(size->width, size->height, MOST_LAYERS);
    uint8_t *wanted = formula_of(eight_layers(size->width, size->height));
    check_kept(scene, wanted);
    free(wanted);
    drop_scene(scene);
}

void check_floats(void)
{
    for (int i = 0; i < SIZES * FLOAT_LOOKS; i++)
        check_look(FLOAT_LOOK[i % FLOAT_LOOKS].look, &SIZE[i / FLOAT_LOOKS]);
    check_stack(&SIZE[SIZES - 1]);
    printf("A float picture is painted as the bytes that its numbers become, by lines too.\n\n");
}

/* ---- times */

static void time_runs(enum look look, const struct size *size, struct run *runs)
{
    struct scene *scenes[FLOAT_RUNS];
    for (int i = 0; i < FLOAT_RUNS; i++) {
        scenes[i] = float_scene(&FLOAT_RUN[i], look, size);
        runs[i] = new_run(FLOAT_RUN[i].painter, scenes[i], room(frame_length(scenes[i])));
    }
    take_own_turns(runs, scenes, FLOAT_RUNS, SECONDS);
}

static void print_row(const struct float_look *look, const struct size *size)
{
    struct run runs[FLOAT_RUNS];
    time_runs(look->look, size, runs);
    printf("| %s, %u x %u |", look->name, (unsigned)size->width, (unsigned)size->height);
    for (int i = FLOATS + 1; i < FLOAT_RUNS; i++)
        print_cell(runs[FLOATS].least / runs[i].least, 0);
    print_time(runs[FLOATS].least, 0);
}

void print_floats(void)
{
    printf("The time of spoonwing_display_frame on a float picture over the whole screen, as a\n"
           "part of plain C's, which makes bytes of it and blends them, and as a multiple of that\n"
           "on the same picture in bytes.\n\n"
           "| Float picture | to plain C | to the same in bytes | ms |\n|---|---|---|---|\n");
    for (int i = 0; i < SIZES * FLOAT_LOOKS; i++)
        print_row(&FLOAT_LOOK[i % FLOAT_LOOKS], &SIZE[i / FLOAT_LOOKS]);
    printf("\n");
}
