/* The table of text: what two bits a glyph pixel cost beside one. The layer is opaque throughout,
 * so that what text adds to it is drawing, and hardly any blending. */
#include <stdio.h>
#include <stdlib.h>

#include "report.h"
#include "run.h"
#include "text.h"

static const double SECONDS = 2;
const double TEXT_WANTED = 3;

const struct text_run TEXT_RUN[TEXT_RUNS] = {
    [ONE_BIT] = {&SPOONWING, 1, 1},     [TWO_BITS] = {&SPOONWING, 2, 1},
    [NO_TEXT] = {&SPOONWING, 1, 0},     [NO_SOFT_TEXT] = {&SPOONWING, 2, 0},
    [PLAIN_ONE_BIT] = {&PLAIN_C, 1, 1}, [PLAIN_TWO_BITS] = {&PLAIN_C, 2, 1},
};

/* ---- the scenes */

/* Text of two bits goes through three shades from INK on, text of one bit has the full one. */
enum { WATER, INK, FULL_INK = INK + 2 };

static void set_colours(struct bank *bank)
{
    static const uint8_t water[] = {10, 48, 60, 255}, faint[] = {91, 113, 114, 255},
                         half[] = {173, 178, 168, 255}, full[] = {255, 244, 222, 255};
    set_colour(bank, WATER, water);
    set_colour(bank, INK, faint);
    set_colour(bank, INK + 1, half);
    set_colour(bank, FULL_INK, full);
}

/* Each line has all 32 characters, and is cut where the screen ends. */
static void draw_lines(struct bank *bank, uint32_t height, enum scale scale, uint32_t colour)
{
    enum { LINES = 5 };
    static const char *const line[LINES] = {
        "The river rises with the evening", "Spoonbills wade where it is slow",
        "Next: otters at 6:40, after dusk", "Water level 1.42 m, rising still",
        "Please do not lean on the glass!"};
    for (uint32_t i = 0; i < LINES; i++)
        draw_text(bank, 0, i * height / LINES, scale, colour, line[i]);
}

struct scene *text_scene(const struct text_run *run, enum scale scale, const struct size *size)
{
    struct scene *scene = new_scene(size->width, size->height, 0, OPAQUE);
    scene->bits = run->bits;
    struct bank bank =
        add_list(scene, (struct layer){.width = size->width, .height = size->height});
    set_colours(&bank);
    if (run->has_text)
        draw_lines(&bank, size->height, scale, run->bits == 1 ? FULL_INK : INK);
    return sealed(scene);
}

/* ---- bytes */

static void check_scene(const struct text_run *text, enum scale scale, const struct size *size)
{
    struct scene *scene = text_scene(text, scale, size);
    uint8_t *output = room(frame_length(scene)), *wanted = room(frame_length(scene));
    struct run formula = new_run(&PLAIN_C, scene, wanted);
    struct run run = new_run(text->painter, scene, output);
    PLAIN_C.paint(scene, wanted, formula.prepared);
    checked(&run, wanted);
    drop_run(&formula);
    drop_run(&run);
    free(output);
    free(wanted);
    drop_scene(scene);
}

void check_text(void)
{
    for (int i = 0; i < SIZES * SCALES * PROVED_RUNS; i++)
        check_scene(&TEXT_RUN[i % PROVED_RUNS], i / PROVED_RUNS % SCALES,
                    &SIZE[i / PROVED_RUNS / SCALES]);
    printf("Text of one bit a glyph pixel and of two is the formula's at every scale.\n\n");
}

/* ---- times */

static void time_runs(enum scale scale, const struct size *size, struct run *runs)
{
    struct scene *scenes[TEXT_RUNS];
    for (int i = 0; i < TEXT_RUNS; i++) {
        scenes[i] = text_scene(&TEXT_RUN[i], scale, size);
        runs[i] = new_run(TEXT_RUN[i].painter, scenes[i], room(frame_length(scenes[i])));
    }
    take_own_turns(runs, scenes, TEXT_RUNS, SECONDS);
}

/* What text of two bits adds to its layer, as a multiple of what text of one does. Where that is less
 * than a tenth of the frame it is lost in what the clock is off, and the cell stays empty. */
static void print_added(const struct run *runs)
{
    double one = runs[ONE_BIT].least - runs[NO_TEXT].least;
    double two = runs[TWO_BITS].least - runs[NO_SOFT_TEXT].least;
    if (one < runs[ONE_BIT].least / 10)
        printf(" |");
    else
        print_cell(two / one, TEXT_WANTED);
}

static void print_row(enum scale scale, const struct size *size)
{
    struct run runs[TEXT_RUNS];
    time_runs(scale, size, runs);
    double one = runs[ONE_BIT].least, two = runs[TWO_BITS].least;
    printf("| scale %d, %u x %u |", 1 << scale, (unsigned)size->width, (unsigned)size->height);
    print_cell(two / one, TEXT_WANTED);
    print_added(runs);
    print_cell(one / runs[PLAIN_ONE_BIT].least, 0);
    print_cell(two / runs[PLAIN_TWO_BITS].least, 0);
    print_time(one, 0);
}

void print_text(void)
{
    printf("The time of spoonwing_frame on five lines of text with two bits a glyph pixel, as a\n"
           "multiple of that on the same lines with one: of the frame, and of what the text adds\n"
           "to its layer; in brackets the most that is wanted. Then each as a part of plain C's.\n"
           "\n"
           "| Text | two bits to one, the frame | the text alone | one bit to plain C "
           "| two bits to plain C | one bit, ms |\n|---|---|---|---|---|---|\n");
    for (int i = 0; i < SIZES * SCALES; i++)
        print_row(i % SCALES, &SIZE[i / SCALES]);
    printf("\n");
}
