/* The children's hall: a C host without room for a frame. It keeps a display, has each line painted
 * into the same bytes, and sends it on before the next.
 *
 *     hall                  writes the frame to standard output, as a PPM
 *     hall --inputs DIR     also writes into DIR what the calls were given and what they left */
#include <stdio.h>
#include <stdlib.h>

#include "files.h"
#include "pond.h"
#include "registers.h"
#include "spoonwing.h"
#include "tables.h"

enum { WIDTH = 640, HEIGHT = 360, BITS = 2, FRAME = 5 };

/* Layers by number; the controller of a graphics layer has its number. */
enum { POND, WORDS, CARD, DUCKLING, LAYERS };

static const struct layer SCENE[LAYERS] = {
    [POND] = {.is_graphics = 1, .depth = 0, .width = WIDTH, .height = HEIGHT},
    [DUCKLING] = {.depth = 1, .x = 400, .y = 150,
                  .width = DUCKLING_WIDTH, .height = DUCKLING_HEIGHT},
    [WORDS] = {.is_graphics = 1, .depth = 2, .x = 24, .y = 20, .width = 464, .height = 104},
    /* from clear to opaque in eight frames, of which four are over */
    [CARD] = {.is_graphics = 1, .depth = 3, .x = 24, .y = 280, .width = 288, .height = 60,
              .has_global_alpha = 1, .alpha = 0,
              .fade_start = FRAME - 4, .fade_length = 8, .fade_target = 255},
};

/* All that the host has: a state, its tables and a small picture; and of the frame, one line. */
static uint8_t state[SPOONWING_STATE_LEN], tables[SPOONWING_SOFT_TABLES_LENGTH];
static uint8_t pictures[PIXEL * DUCKLING_WIDTH * DUCKLING_HEIGHT], line[PIXEL * WIDTH];
static uint8_t image[SPOONWING_IMAGE_LENGTH]; /* the registers as they are written */

/* Ends the program where a call is refused. */
static void done(uint32_t answer)
{
    if (answer == SPOONWING_DONE)
        return;
    fprintf(stderr, "hall: %u: %s\n", (unsigned)answer, spoonwing_refusal(answer));
    exit(1);
}

/* ---- tables, filled before there is a display, in the banks that a fresh one shows */

/* Text of two bits goes through so many shades of its ink, the full one last. */
enum { SHADES = 3 };

/* The sky shows around the letters, and through the lighter shades at their edges. */
static void make_words(void)
{
    enum { INK = 1, USED = INK + SHADES };
    static const uint8_t palette[USED][COLOUR_LENGTH] = {
        [INK] = {20, 74, 104, 85}, {20, 74, 104, 170}, {20, 74, 104, 255}};
    struct bank bank = first_bank(tables, WORDS, BITS);
    set_palette(&bank, palette, USED);
    draw_text(&bank, 0, 0, SCALE_8, INK, "Splash!");
    draw_text(&bank, 0, 80, SCALE_2, INK, "A duckling swims on day one.");
}

/* Global alpha takes the place of every colour's own, so these shades are mixed with the paper. */
static void make_card(void)
{
    enum { PAPER, EDGE, INK, USED = INK + SHADES };
    static const uint8_t palette[USED][COLOUR_LENGTH] = {
        [PAPER] = {255, 248, 226, 255}, [EDGE] = {250, 136, 36, 255},
        [INK] = {190, 166, 150, 255}, {126, 85, 75, 255}, {62, 4, 0, 255}};
    struct bank bank = first_bank(tables, CARD, BITS);
    set_palette(&bank, palette, USED);
    draw_box(&bank, 0, 0, SCENE[CARD].width, SCENE[CARD].height, 4, EDGE);
    draw_text(&bank, 16, 12, SCALE_2, INK, "Come and feed us");
    draw_text(&bank, 16, 34, SCALE_2, INK, "at 3 o'clock!");
}

/* ---- the display */

static void write_registers(void)
{
    static const uint8_t sky[] = {158, 216, 232};
    uint8_t run[WRITE_LENGTH * REGISTERS];
    size_t item;
    put_screen(image, WIDTH, HEIGHT, sky);
    for (int n = 0; n < LAYERS; n++)
        put_layer(image, n, &SCENE[n]);
    put_update(image);
    put_writes(run, image);
    done(spoonwing_display_write_run(state, sizeof state, run, sizeof run, &item));
}

static void start_frames(void)
{
    for (int i = 0; i < FRAME; i++)
        done(spoonwing_display_start(state, sizeof state));
}

/* ---- what is written */

static int write_inputs(const char *folder)
{
    return write_file(folder, "image.bin", image, sizeof image) &&
           write_file(folder, "tables.bin", tables, sizeof tables) &&
           write_file(folder, "pictures.bin", pictures, sizeof pictures) &&
           write_file(folder, "state.bin", state, sizeof state);
}

/* A PPM has no alpha, so the tests get the line's bytes in a file of their own. */
static int send_line(const char *folder, uint32_t y)
{
    done(spoonwing_display_line(state, sizeof state, y, tables, sizeof tables, pictures,
                                sizeof pictures, NULL, 0, line, sizeof line));
    if (folder && !(y == 0 ? write_file : add_to_file)(folder, "output.bin", line, sizeof line))
        return 0;
    return write_pixels(line, WIDTH);
}

static int send_frame(const char *folder)
{
    uint32_t y = 0;
    write_head(WIDTH, HEIGHT);
    while (y < HEIGHT && send_line(folder, y))
        y++;
    return y == HEIGHT;
}

int main(int count, char **words)
{
    const char *folder = inputs_folder(count, words);
    struct bank pond = first_bank(tables, POND, BITS);
    draw_pond(&pond);
    make_words();
    make_card();
    paint_duckling(pictures);
    done(spoonwing_display_new(state, sizeof state, BITS));
    write_registers();
    start_frames();
    return send_frame(folder) && (!folder || write_inputs(folder)) ? 0 : 1;
}
