/* The tables of lines and of bands: what a frame costs line by line, and depth by depth, beside the
 * whole frame. */
#include <stdio.h>
#include <stdlib.h>
#include <string.h>

#include "parts.h"
#include "report.h"
#include "run.h"
#include "subjects.h"

static const double SECONDS = 2;

/* Where a state's active registers, frame number and bits a glyph pixel stand. */
enum { ACTIVE_AT = 208, FRAME_AT = 416, PROFILE_AT = 436 };

/* ---- the painters */

/* A kept display without a buffer for its frame. */
struct panel {
    uint8_t state[SPOONWING_STATE_LEN], *line;
};

static size_t line_length(const struct scene *scene)
{
    return (size_t)PIXEL * scene->width;
}

static void *prepare(const struct scene *scene, uint8_t *output)
{
    struct panel *panel = room(sizeof *panel);
    (void)output;
    memset(panel->state, 0, sizeof panel->state);
    memcpy(panel->state + ACTIVE_AT, scene->image, sizeof scene->image);
    put_word(panel->state + FRAME_AT, scene->frame);
    put_word(panel->state + PROFILE_AT, scene->bits == 2);
    panel->line = room(line_length(scene));
    return panel;
}

static void drop(void *prepared)
{
    struct panel *panel = prepared;
    free(panel->line);
    free(panel);
}

static void done(uint32_t answer)
{
    if (answer == SPOONWING_DONE)
        return;
    fprintf(stderr, "bench: a kept display refused with %u\n", (unsigned)answer);
    exit(1);
}

static void paint_line(const struct scene *scene, struct panel *panel, uint32_t y)
{
    done(spoonwing_display_line(panel->state, sizeof panel->state, y, scene->tables,
                                tables_length(scene), scene->pictures, scene->pictures_length,
                                scene->floats, scene->floats_length, panel->line,
                                line_length(scene)));
}

static void paint_lines(const struct scene *scene, uint8_t *output, void *panel)
{
    (void)output;
    for (uint32_t y = 0; y < scene->height; y++)
        paint_line(scene, panel, y);
}

static void paint_band(const struct scene *scene, uint8_t *output, struct panel *panel,
                       uint32_t depth)
{
    done(spoonwing_display_paint(panel->state, sizeof panel->state, depth, depth + 1,
                                 scene->tables, tables_length(scene), scene->pictures,
                                 scene->pictures_length, scene->floats, scene->floats_length,
                                 output, frame_length(scene)));
}

static void paint_bands(const struct scene *scene, uint8_t *output, void *prepared)
{
    struct panel *panel = prepared;
    done(spoonwing_display_fill(panel->state, sizeof panel->state, output, frame_length(scene)));
    for (uint32_t depth = 0; depth < MOST_LAYERS; depth++)
        paint_band(scene, output, panel, depth);
}

static void paint_frame(const struct scene *scene, uint8_t *output, void *prepared)
{
    struct panel *panel = prepared;
    done(spoonwing_display_frame(panel->state, sizeof panel->state, scene->tables,
                                 tables_length(scene), scene->pictures, scene->pictures_length,
                                 scene->floats, scene->floats_length, output, frame_length(scene)));
}

const struct painter BY_LINES = {
    .name = "spoonwing_display_line", .prepare = prepare, .paint = paint_lines, .drop = drop};
const struct painter BY_BANDS = {
    .name = "spoonwing_display_paint", .prepare = prepare, .paint = paint_bands, .drop = drop};
const struct painter BY_FRAME = {
    .name = "spoonwing_display_frame", .prepare = prepare, .paint = paint_frame, .drop = drop};

/* ---- bytes */

static void check_line(const struct scene *scene, struct panel *panel, uint32_t y,
                       const uint8_t *wanted)
{
    size_t length = line_length(scene);
    memset(panel->line, 0xA5, length);
    paint_line(scene, panel, y);
    if (memcmp(panel->line, wanted + length * y, length) == 0)
        return;
    fprintf(stderr, "bench: line %u is not the frame's at %u x %u with %d layers\n", (unsigned)y,
            (unsigned)scene->width, (unsigned)scene->height, scene->layers);
    exit(1);
}

void check_kept(const struct scene *scene, const uint8_t *wanted)
{
    struct run whole = new_run(&BY_FRAME, scene, room(frame_length(scene)));
    struct run banded = new_run(&BY_BANDS, scene, whole.output);
    checked(&whole, wanted);
    checked(&banded, wanted);
    for (uint32_t y = 0; y < scene->height; y++)
        check_line(scene, whole.prepared, y, wanted);
    drop_run(&whole);
    drop_run(&banded);
    free(whole.output);
}

/* spoonwing_frame's bytes are held to the formula elsewhere; here the frame, its bands and its lines
 * are held to them. */
static void check_subject(const struct subject *subject, const struct size *size)
{
    struct scene *scene = subject->make(size->width, size->height);
    uint8_t *wanted = room(frame_length(scene));
    SPOONWING.paint(scene, wanted, NULL);
    check_kept(scene, wanted);
    free(wanted);
    drop_scene(scene);
}

void check_parts(void)
{
    each_subject(check_subject);
    printf("Every line of a kept display is that of its frame, and its bands make the frame.\n\n");
}

/* ---- times */

/* Times a frame by parts beside the whole frame, begins a row with the ratio, and answers the time
 * by parts. */
static double print_beside(const struct painter *painter, const struct subject *subject,
                           const struct size *size, double wanted)
{
    struct scene *scene = subject->make(size->width, size->height);
    uint8_t *output = room(frame_length(scene));
    struct run runs[] = {new_run(painter, scene, output), new_run(&BY_FRAME, scene, output)};
    take_turns(runs, 2, SECONDS);
    printf("| %s, %u x %u |", subject->name, (unsigned)size->width, (unsigned)size->height);
    print_cell(runs[0].least / runs[1].least, wanted);
    drop_run(&runs[0]);
    drop_run(&runs[1]);
    free(output);
    drop_scene(scene);
    return runs[0].least;
}

static void print_lines_row(const struct subject *subject, const struct size *size)
{
    double wanted = size == &SIZE[0] ? subject->lines_wanted : 0;
    double took = print_beside(&BY_LINES, subject, size, wanted);
    printf(" %.0f |\n", 1e9 * took / size->height);
    fflush(stdout);
}

static void print_bands_row(const struct subject *subject, const struct size *size)
{
    print_time(print_beside(&BY_BANDS, subject, size, 0), 0);
}

void print_parts(void)
{
    printf("A frame by lines: the time of spoonwing_display_line on all lines of a frame, as a\n"
           "multiple of spoonwing_display_frame's on the same state; in brackets the most that\n"
           "is wanted.\n\n"
           "| Scene | by lines to the whole frame | ns a line |\n|---|---|---|\n");
    each_subject(print_lines_row);
    printf("\nA frame by bands: the time of spoonwing_display_fill and then of\n"
           "spoonwing_display_paint for each of eight depths, likewise.\n\n"
           "| Scene | by bands to the whole frame | ms |\n|---|---|---|\n");
    each_subject(print_bands_row);
    printf("\n");
}
