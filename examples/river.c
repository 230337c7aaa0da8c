/* A C host of Spoonwing: makes a register image, tables and pictures, and has a frame painted of a
 * river at dusk, six layers of which one is half way through its fade.
 *
 *     river                  writes the frame to standard output, as a PPM
 *     river --inputs DIR     also writes into DIR what the entry was given and what it painted */
#include <stdio.h>

#include "files.h"
#include "pictures.h"
#include "registers.h"
#include "spoonwing.h"
#include "tables.h"

enum { WIDTH = 640, HEIGHT = 360, FRAME = 1045, BITS = 1 };

/* Layers by number. What lies on top goes by depth, so the numbers may be in any order; pictures
 * follow each other in the order of these numbers. */
enum { TITLE, GAUGE, CAPTION, SKY, WATER, BIRD, LAYERS };

static const struct layer SCENE[LAYERS] = {
    [SKY] = {.depth = 0, .width = SKY_WIDTH, .height = SKY_HEIGHT},
    [WATER] = {.depth = 1, .y = HEIGHT - WATER_HEIGHT,
               .width = WATER_WIDTH, .height = WATER_HEIGHT},
    [BIRD] = {.depth = 2, .x = WIDTH - BIRD_WIDTH, .y = HEIGHT - BIRD_HEIGHT,
              .width = BIRD_WIDTH, .height = BIRD_HEIGHT},
    [TITLE] = {.is_graphics = 1, .depth = 3, .x = 28, .y = 26, .width = 300, .height = 80},
    [GAUGE] = {.is_graphics = 1, .depth = 4, .x = 28, .y = 262, .width = 196, .height = 74},
    /* from clear to opaque in 90 frames, of which 45 are over */
    [CAPTION] = {.is_graphics = 1, .depth = 5, .x = 238, .y = 300, .width = 186, .height = 36,
                 .has_global_alpha = 1, .alpha = 0,
                 .fade_start = FRAME - 45, .fade_length = 90, .fade_target = 255},
};

/* The entry's buffers. */
static uint8_t image[SPOONWING_IMAGE_LENGTH];
static uint8_t tables[SPOONWING_TABLES_LENGTH];
static uint8_t pictures[PIXEL * (SKY_WIDTH * SKY_HEIGHT + WATER_WIDTH * WATER_HEIGHT +
                                 BIRD_WIDTH * BIRD_HEIGHT)];
static uint8_t output[PIXEL * WIDTH * HEIGHT];

/* ---- registers */

/* Layers 6 and 7 stay off. */
static void make_image(void)
{
    static const uint8_t ground[] = {30, 62, 88};
    put_screen(image, WIDTH, HEIGHT, ground);
    for (int n = 0; n < LAYERS; n++)
        put_layer(image, n, &SCENE[n]);
}

/* ---- tables */

static const uint8_t CREAM[] = {255, 244, 222, 255}, AMBER[] = {255, 200, 136, 255},
                     MIST[] = {200, 216, 220, 255}, FOAM[] = {160, 214, 210, 255},
                     RIVER[] = {60, 150, 154, 255}, NIGHT[] = {10, 48, 60, 255},
                     GLASS[] = {6, 34, 46, 190};

/* Colour 0 keeps alpha 0, so the sky shows around the letters. */
static void make_title(void)
{
    enum { NAME = 1, SCENE_NAME, NOTE };
    struct bank bank = first_bank(tables, TITLE, BITS);
    set_colour(&bank, NAME, CREAM);
    set_colour(&bank, SCENE_NAME, AMBER);
    set_colour(&bank, NOTE, MIST);
    draw_text(&bank, 0, 0, SCALE_4, NAME, "Spoonwing");
    draw_text(&bank, 0, 40, SCALE_2, SCENE_NAME, "A river at dusk");
    draw_text(&bank, 0, 64, SCALE_1, NOTE, "Six layers, every byte proved.");
}

/* A pane of dark glass: the level in figures, as bars of the last eight hours and as a meter.
 * Character 127 is a drop in this font. */
static void make_gauge(void)
{
    enum { PANE, LINE, FIGURES, NOW, BEFORE, BARS = 8 };
    static const uint8_t height[BARS] = {8, 10, 13, 17, 20, 24, 27, 30};
    struct bank bank = first_bank(tables, GAUGE, BITS);
    set_colour(&bank, PANE, GLASS);
    set_colour(&bank, LINE, FOAM);
    set_colour(&bank, FIGURES, CREAM);
    set_colour(&bank, NOW, AMBER);
    set_colour(&bank, BEFORE, RIVER);
    draw_box(&bank, 0, 0, SCENE[GAUGE].width, SCENE[GAUGE].height, 1, LINE);
    draw_text(&bank, 12, 10, SCALE_1, LINE, "\177 Water level");
    draw_text(&bank, 12, 24, SCALE_2, FIGURES, "1.42 m");
    draw_box(&bank, 12, 50, 172, 12, 2, LINE);
    draw_box(&bank, 16, 54, 104, 4, 0, NOW);
    for (uint32_t i = 0; i < BARS; i++)
        draw_box(&bank, 122 + 8 * i, 42 - height[i], 5, height[i], 0, i < BARS - 1 ? BEFORE : NOW);
}

/* Global alpha takes the place of every colour's own, so the whole card fades, colour 0 too. */
static void make_caption(void)
{
    enum { CARD, INK };
    struct bank bank = first_bank(tables, CAPTION, BITS);
    set_colour(&bank, CARD, CREAM);
    set_colour(&bank, INK, NIGHT);
    draw_box(&bank, 0, 0, SCENE[CAPTION].width, SCENE[CAPTION].height, 2, INK);
    draw_text(&bank, 13, 8, SCALE_1, INK, "Next: otters at 6:40");
    draw_text(&bank, 13, 20, SCALE_1, INK, "fade: frame 45 of 90");
}

/* ---- the frame */

static void make_inputs(void)
{
    uint8_t *water = pictures + PIXEL * SKY_WIDTH * SKY_HEIGHT;
    make_image();
    make_title();
    make_gauge();
    make_caption();
    paint_sky(pictures);
    paint_water(water);
    paint_bird(water + PIXEL * WATER_WIDTH * WATER_HEIGHT);
}

static int write_inputs(const char *folder)
{
    uint8_t frame[4];
    put_word(frame, FRAME);
    return write_file(folder, "image.bin", image, sizeof image) &&
           write_file(folder, "frame.bin", frame, sizeof frame) &&
           write_file(folder, "tables.bin", tables, sizeof tables) &&
           write_file(folder, "pictures.bin", pictures, sizeof pictures) &&
           write_file(folder, "output.bin", output, sizeof output);
}

int main(int count, char **words)
{
    const char *folder = inputs_folder(count, words);
    make_inputs();
    uint32_t answer = spoonwing_frame(image, sizeof image, FRAME, tables, sizeof tables,
                                      pictures, sizeof pictures, output, sizeof output);
    if (answer != SPOONWING_DONE) {
        fprintf(stderr, "river: refused with %u, %s\n", (unsigned)answer,
                spoonwing_refusal(answer));
        return 1;
    }
    if (folder && !write_inputs(folder))
        return 1;
    return write_picture(output, WIDTH, HEIGHT) ? 0 : 1;
}
