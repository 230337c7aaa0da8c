/* Paintings for an emulator that logs what is executed: the subjects at the smaller size, each step
 * of growth at a quarter of its width and height, text, float pictures and frames by lines and by
 * bands at the smaller size; and a kept display's calls and loads, and mending. */
#define _XOPEN_SOURCE 700
#include <stdio.h>
#include <stdlib.h>
#include <string.h>
#include <unistd.h>

#include "floats.h"
#include "growth.h"
#include "kept.h"
#include "loads.h"
#include "mending.h"
#include "parts.h"
#include "report.h"
#include "run.h"
#include "subjects.h"
#include "text.h"

enum { DIVISOR = 4 };

/* Written at once, so that it stands in the log where it is called, and with little ado: the marks'
 * own instructions, about ten, are counted with the painting's. */
static void mark(const char *line)
{
    if (write(STDOUT_FILENO, line, strlen(line)) < 0)
        exit(1);
}

/* Marks the second painting of two: in the first a library still finds and chooses its code. */
static void paint_marked(const struct painter *painter, const struct scene *scene)
{
    struct run run = new_run(painter, scene, room(frame_length(scene)));
    painter->paint(scene, run.output, run.prepared);
    mark("begin\n");
    painter->paint(scene, run.output, run.prepared);
    mark("end\n");
    drop_run(&run);
    free(run.output);
}

static void paint_subject(const struct subject *subject, const struct size *size)
{
    struct scene *scene = subject->make(size->width, size->height);
    dprintf(STDOUT_FILENO, "ratios\t%s, %u x %u\t%u\n", subject->name, (unsigned)size->width,
            (unsigned)size->height, (unsigned)(size->width * size->height));
    for (int i = 0; i < PAINTERS; i++)
        if (PAINTER[i] != &FLOOR)
            paint_marked(PAINTER[i], scene);
    drop_scene(scene);
}

static void paint_growth(const struct growth *growth)
{
    dprintf(STDOUT_FILENO, "growth\t%s: %s\n", growth->what, growth->sizes);
    for (int step = 0; step < growth->steps; step++) {
        struct scene *scene = growth->make(step, DIVISOR);
        paint_marked(growth->painter, scene);
        drop_scene(scene);
    }
}

static void paint_text(enum scale scale, const struct size *size)
{
    dprintf(STDOUT_FILENO, "text\tscale %d, %u x %u\t%g\n", 1 << scale, (unsigned)size->width,
            (unsigned)size->height, TEXT_WANTED);
    for (int i = 0; i < TEXT_RUNS; i++) {
        struct scene *scene = text_scene(&TEXT_RUN[i], scale, size);
        paint_marked(TEXT_RUN[i].painter, scene);
        drop_scene(scene);
    }
}

static void paint_floats(const struct float_look *look, const struct size *size)
{
    dprintf(STDOUT_FILENO, "floats\t%s, %u x %u\t%u\n", look->name, (unsigned)size->width,
            (unsigned)size->height, (unsigned)(size->width * size->height));
    for (int i = 0; i < FLOAT_RUNS; i++) {
        struct scene *scene = float_scene(&FLOAT_RUN[i], look->look, size);
        paint_marked(FLOAT_RUN[i].painter, scene);
        drop_scene(scene);
    }
}

/* A table's row of a frame by parts, of which there are so many. */
static void paint_parts(const char *table, const struct painter *painter, uint32_t parts,
                        const struct subject *subject, const struct size *size)
{
    struct scene *scene = subject->make(size->width, size->height);
    dprintf(STDOUT_FILENO, "%s\t%s, %u x %u\t%u\n", table, subject->name, (unsigned)size->width,
            (unsigned)size->height, (unsigned)parts);
    paint_marked(painter, scene);
    paint_marked(&BY_FRAME, scene);
    drop_scene(scene);
}

/* Marks the second doing of two, as with paintings. */
static void do_marked(doing *doing, struct kept *kept, int what, int ways)
{
    for (int how = 0; how < ways; how++) {
        doing(kept, what, how);
        mark("begin\n");
        doing(kept, what, how);
        mark("end\n");
    }
    drop_kept(kept);
}

static void work_marked(int work)
{
    dprintf(STDOUT_FILENO, "calls\t%s\t%d\n", WORK_NAME[work], CALLS);
    do_marked(do_work, new_kept(work), work, SIDES);
}

static void load_marked(int load)
{
    dprintf(STDOUT_FILENO, "loads\t%s\t%d\n", LOAD_NAME[load], TIMES);
    do_marked(do_load, new_kept(PUT), load, WAYS);
}

/* Marks the second turn of two, as with paintings. */
static void mend_marked(int image)
{
    dprintf(STDOUT_FILENO, "mending\t%s\t%d\n", IMAGE_NAME[image], MENDINGS);
    for (int side = 0; side < SIDES; side++) {
        struct mending mending = new_mending(image, side);
        do_mending(&mending);
        mark("begin\n");
        do_mending(&mending);
        mark("end\n");
    }
}

void paint_counted(void)
{
    const struct size *size = &SIZE[SIZES - 1];
    for (int i = 0; i < SUBJECTS; i++)
        paint_subject(&SUBJECT[i], size);
    for (int i = 0; i < GROWTHS; i++)
        paint_growth(&GROWTH[i]);
    for (int i = 0; i < SCALES; i++)
        paint_text(i, size);
    for (int i = 0; i < FLOAT_LOOKS; i++)
        paint_floats(&FLOAT_LOOK[i], size);
    for (int i = 0; i < SUBJECTS; i++)
        paint_parts("lines", &BY_LINES, size->height, &SUBJECT[i], size);
    for (int i = 0; i < SUBJECTS; i++)
        paint_parts("bands", &BY_BANDS, size->width * size->height, &SUBJECT[i], size);
    for (int i = 0; i < WORKS; i++)
        work_marked(i);
    for (int i = 0; i < LOADS; i++)
        load_marked(i);
    for (int i = 0; i < IMAGES; i++)
        mend_marked(i);
}
