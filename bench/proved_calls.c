/* The archive's side: its calls on the state's bytes. */
#include "kept.h"

static void write(struct kept *kept)
{
    for (uint32_t i = 0; i < CALLS; i++)
        spoonwing_display_write(kept->state, sizeof kept->state, i % REGISTERS, i);
}

static void select(struct kept *kept)
{
    for (uint32_t i = 0; i < CALLS; i++)
        spoonwing_display_select(kept->state, sizeof kept->state, i % SELECTIONS);
}

static void toggle(struct kept *kept)
{
    for (uint32_t i = 0; i < CALLS; i++)
        spoonwing_display_toggle(kept->state, sizeof kept->state, i);
}

static void read(struct kept *kept)
{
    for (int i = 0; i < CALLS; i++)
        kept->read += spoonwing_display_error_word(kept->state, sizeof kept->state);
}

static void start(struct kept *kept)
{
    for (int i = 0; i < CALLS; i++)
        spoonwing_display_start(kept->state, sizeof kept->state);
}

static void put(struct kept *kept)
{
    struct scene *scene = kept->scene;
    spoonwing_display_select(kept->state, sizeof kept->state, kept->plain.selection);
    for (int i = 0; i < CALLS; i++)
        spoonwing_display_put(kept->state, sizeof kept->state, scene->tables,
                              tables_length(scene), (uint8_t)i);
}

static void paint_nothing(struct kept *kept)
{
    struct scene *scene = kept->scene;
    for (int i = 0; i < CALLS; i++)
        spoonwing_display_paint(kept->state, sizeof kept->state, 4, 4, scene->tables,
                                tables_length(scene), scene->pictures, scene->pictures_length,
                                NULL, 0, kept->output, frame_length(scene));
}

static void paint_frame(struct kept *kept)
{
    struct scene *scene = kept->scene;
    for (int i = 0; i < CALLS; i++)
        spoonwing_display_frame(kept->state, sizeof kept->state, scene->tables,
                                tables_length(scene), scene->pictures, scene->pictures_length,
                                NULL, 0, kept->output, frame_length(scene));
}

static void paint_line(struct kept *kept)
{
    struct scene *scene = kept->scene;
    size_t length = (size_t)PIXEL * scene->width;
    for (uint32_t i = 0; i < CALLS; i++) {
        uint32_t y = i % scene->height;
        spoonwing_display_line(kept->state, sizeof kept->state, y, scene->tables,
                               tables_length(scene), scene->pictures, scene->pictures_length,
                               NULL, 0, kept->output + length * y, length);
    }
}

work *const PROVED_WORK[WORKS] = WORK_FUNCTIONS;
