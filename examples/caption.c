/* A C host that keeps a display: it loads a caption into banks that are not shown, has a start turn
 * them over, and paints the frame in two bands, the water and then the caption over it.
 *
 *     caption                  writes the frame to standard output, as a PPM
 *     caption --inputs DIR     also writes into DIR what the calls were given and what they left */
#include <stdio.h>
#include <stdlib.h>

#include "files.h"
#include "pictures.h"
#include "registers.h"
#include "spoonwing.h"
#include "tables.h"

enum { WIDTH = WATER_WIDTH, HEIGHT = WATER_HEIGHT, BITS = 1 };

/* Layers by number; the controller of a graphics layer has its number. */
enum { CAPTION, WATER, LAYERS };

static const struct layer SCENE[LAYERS] = {
    [WATER] = {.depth = 1, .width = WATER_WIDTH, .height = WATER_HEIGHT},
    [CAPTION] = {.is_graphics = 1, .depth = 6, .x = 140, .y = 70, .width = 360, .height = 52},
};

/* The display, and what is lent to its calls. */
static uint8_t state[SPOONWING_STATE_LEN], tables[SPOONWING_TABLES_LENGTH];
static uint8_t pictures[PIXEL * WATER_WIDTH * WATER_HEIGHT], output[PIXEL * WIDTH * HEIGHT];
static uint8_t image[SPOONWING_IMAGE_LENGTH]; /* the registers as they are written */
static size_t item;                           /* where the last run stopped */

/* Ends the program where a call is refused. */
static void done(uint32_t answer)
{
    if (answer == SPOONWING_DONE)
        return;
    fprintf(stderr, "caption: %u: %s\ncaption: the last run stopped at item %zu\n",
            (unsigned)answer, spoonwing_refusal(answer), item);
    exit(1);
}

/* Puts a table of the caption in one run into bank 1: a fresh display shows bank 0. */
static void load(uint32_t kind, const uint8_t *bank)
{
    uint32_t begin = table_at(kind, BITS), length = table_at(kind + 1, BITS) - begin;
    done(spoonwing_display_select(state, sizeof state, CAPTION << 3 | kind << 1 | 1));
    done(spoonwing_display_put_run(state, sizeof state, tables, sizeof tables, bank + begin, length,
                                   &item));
}

static void load_caption(void)
{
    enum { PANE, FRAME, WORDS };
    static const uint8_t glass[] = {6, 34, 46, 190}, foam[] = {160, 214, 210, 255},
                         cream[] = {255, 244, 222, 255};
    static uint8_t drawn[BANK_LENGTH(BITS)];
    struct bank bank = first_bank(drawn, 0, BITS);
    set_colour(&bank, PANE, glass);
    set_colour(&bank, FRAME, foam);
    set_colour(&bank, WORDS, cream);
    draw_box(&bank, 0, 0, SCENE[CAPTION].width, SCENE[CAPTION].height, 2, FRAME);
    draw_text(&bank, 14, 10, SCALE_2, WORDS, "The river at dusk");
    draw_text(&bank, 14, 34, SCALE_1, FRAME, "one state, two banks, two bands");
    for (uint32_t kind = 0; kind < KINDS; kind++)
        load(kind, drawn);
}

/* One byte more than the font has: it is refused and sets a bit of the error word. */
static void put_too_many(void)
{
    uint32_t answer = spoonwing_display_put(state, sizeof state, tables, sizeof tables, 0);
    uint32_t errors = spoonwing_display_error_word(state, sizeof state);
    fprintf(stderr, "caption: %u: %s\n", (unsigned)answer, spoonwing_refusal(answer));
    fprintf(stderr, "caption: the error word is %X, and is cleared\n", (unsigned)errors);
    done(spoonwing_display_toggle(state, sizeof state, errors));
}

static void write_registers(void)
{
    static const uint8_t ground[] = {30, 62, 88};
    uint8_t run[WRITE_LENGTH * REGISTERS];
    put_screen(image, WIDTH, HEIGHT, ground);
    for (int n = 0; n < LAYERS; n++)
        put_layer(image, n, &SCENE[n]);
    put_update(image);
    put_word(image + 4 * 3, UINT32_C(0x01010101) << CAPTION); /* bank 1 of all four kinds */
    put_writes(run, image);
    done(spoonwing_display_write_run(state, sizeof state, run, sizeof run, &item));
}

static void paint(uint32_t low, uint32_t high)
{
    done(spoonwing_display_paint(state, sizeof state, low, high, tables, sizeof tables, pictures,
                                 sizeof pictures, NULL, 0, output, sizeof output));
}

static int write_inputs(const char *folder)
{
    return write_file(folder, "image.bin", image, sizeof image) &&
           write_file(folder, "tables.bin", tables, sizeof tables) &&
           write_file(folder, "pictures.bin", pictures, sizeof pictures) &&
           write_file(folder, "state.bin", state, sizeof state) &&
           write_file(folder, "output.bin", output, sizeof output);
}

int main(int count, char **words)
{
    const char *folder = inputs_folder(count, words);
    paint_water(pictures);
    done(spoonwing_display_new(state, sizeof state, BITS));
    load_caption();
    put_too_many();
    write_registers();
    done(spoonwing_display_start(state, sizeof state));
    done(spoonwing_display_fill(state, sizeof state, output, sizeof output));
    paint(0, 4);
    paint(4, 8);
    int is_written = !folder || write_inputs(folder);
    return is_written && write_picture(output, WIDTH, HEIGHT) ? 0 : 1;
}
