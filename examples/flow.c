/* A C host whose river comes from a shader: it keeps a display and lends it the shader's floats as
 * they are, other ones for each frame, under a caption that fades in.
 *
 *     flow                  writes the frames to standard output, side by side as a PPM
 *     flow --inputs DIR     also writes into DIR what the calls were given and what they left */
#include <stdio.h>
#include <stdlib.h>
#include <string.h>

#include "files.h"
#include "registers.h"
#include "shader.h"
#include "spoonwing.h"
#include "tables.h"

enum { WIDTH = FLOW_WIDTH, HEIGHT = FLOW_HEIGHT, BITS = 1, ROW_LENGTH = PIXEL * WIDTH };

/* The waves go round once, and their frames are shown in rows. */
enum { FRAMES = FLOW_STEPS, ACROSS = 4, DOWN = FRAMES / ACROSS };

/* Layers by number; the controller of a graphics layer has its number. */
enum { RIVER, CAPTION, LAYERS };

static const struct layer SCENE[LAYERS] = {
    [RIVER] = {.is_float = 1, .depth = 0, .width = WIDTH, .height = HEIGHT},
    /* from clear to nearly opaque in eight frames */
    [CAPTION] = {.is_graphics = 1, .depth = 1, .x = 8, .y = 28, .width = 80, .height = 14,
                 .has_global_alpha = 1, .alpha = 0,
                 .fade_start = 2, .fade_length = 8, .fade_target = 224},
};

/* The display, and what is lent to its calls. */
static uint8_t state[SPOONWING_STATE_LEN], tables[SPOONWING_TABLES_LENGTH];
static float floats[PIXEL * WIDTH * HEIGHT];
static uint8_t output[ROW_LENGTH * HEIGHT];
static uint8_t image[SPOONWING_IMAGE_LENGTH];       /* the registers as they are written */
static uint8_t strip[FRAMES * ROW_LENGTH * HEIGHT]; /* all frames, as they are shown */

/* Ends the program where a call is refused. */
static void done(uint32_t answer)
{
    if (answer == SPOONWING_DONE)
        return;
    fprintf(stderr, "flow: %u: %s\n", (unsigned)answer, spoonwing_refusal(answer));
    exit(1);
}

/* ---- the display */

/* The tables are filled before there is a display, in the banks that a fresh one shows. */
static void make_caption(void)
{
    enum { PANE, FRAME, WORDS, USED };
    static const uint8_t palette[USED][COLOUR_LENGTH] = {
        [PANE] = {6, 34, 46, 255}, [FRAME] = {160, 214, 210, 255}, [WORDS] = {255, 244, 222, 255}};
    struct bank bank = first_bank(tables, CAPTION, BITS);
    set_palette(&bank, palette, USED);
    draw_box(&bank, 0, 0, SCENE[CAPTION].width, SCENE[CAPTION].height, 1, FRAME);
    draw_text(&bank, 5, 3, SCALE_1, WORDS, "The river");
}

static void write_registers(void)
{
    static const uint8_t sand[] = {214, 190, 150};
    uint8_t run[WRITE_LENGTH * REGISTERS];
    size_t item;
    put_screen(image, WIDTH, HEIGHT, sand);
    for (int n = 0; n < LAYERS; n++)
        put_layer(image, n, &SCENE[n]);
    put_update(image);
    put_writes(run, image);
    done(spoonwing_display_write_run(state, sizeof state, run, sizeof run, &item));
}

/* The shader's time is the frame number. The floats' length counts numbers and no bytes. */
static void paint(void)
{
    done(spoonwing_display_start(state, sizeof state));
    shade_river(floats, spoonwing_display_frame_number(state, sizeof state));
    done(spoonwing_display_frame(state, sizeof state, tables, sizeof tables, NULL, 0, floats,
                                 sizeof floats / sizeof floats[0], output, sizeof output));
}

/* ---- what is written */

static int write_inputs(const char *folder)
{
    return write_file(folder, "image.bin", image, sizeof image) &&
           write_file(folder, "tables.bin", tables, sizeof tables) &&
           write_file(folder, "state.bin", state, sizeof state);
}

/* Whether a part of a frame is written, behind that of the frame before it. */
static int write_part(const char *folder, const char *name, int frame, const void *part,
                      size_t length)
{
    return (frame == 0 ? write_file : add_to_file)(folder, name, part, length);
}

static int write_frame(const char *folder, int frame)
{
    return write_part(folder, "floats.bin", frame, floats, sizeof floats) &&
           write_part(folder, "output.bin", frame, output, sizeof output);
}

/* Puts a frame in its place, from left to right and then down. */
static void show(int frame)
{
    uint8_t *to = strip + (frame / ACROSS * HEIGHT * ACROSS + frame % ACROSS) * ROW_LENGTH;
    for (int y = 0; y < HEIGHT; y++)
        memcpy(to + y * ACROSS * ROW_LENGTH, output + y * ROW_LENGTH, ROW_LENGTH);
}

int main(int count, char **words)
{
    const char *folder = inputs_folder(count, words);
    make_caption();
    done(spoonwing_display_new(state, sizeof state, BITS));
    write_registers();
    for (int frame = 0; frame < FRAMES; frame++) {
        paint();
        show(frame);
        if (folder && !write_frame(folder, frame))
            return 1;
    }
    int is_written = !folder || write_inputs(folder);
    return is_written && write_picture(strip, ACROSS * WIDTH, DOWN * HEIGHT) ? 0 : 1;
}
