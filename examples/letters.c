/* A C host that keeps two displays, one with one bit a glyph pixel and one with two, and has both
 * paint the same caption at scale 4.
 *
 *     letters                  writes both frames, one bit left of two, to standard output as a PPM
 *     letters --inputs DIR     also writes into DIR what the calls were given and what they left */
#include <stdio.h>
#include <stdlib.h>
#include <string.h>

#include "files.h"
#include "pictures.h"
#include "registers.h"
#include "spoonwing.h"
#include "tables.h"

enum { WIDTH = 336, HEIGHT = 132, ROW_LENGTH = PIXEL * WIDTH };

/* The one layer, and its controller. */
enum { CAPTION };
static const struct layer PANE = {
    .is_graphics = 1, .x = 8, .y = 8, .width = WIDTH - 16, .height = HEIGHT - 16};

/* A display, and what is lent to its calls. */
struct display {
    int bits;
    size_t tables_length;
    const char *note;
    uint8_t state[SPOONWING_STATE_LEN];
    uint8_t tables[SPOONWING_SOFT_TABLES_LENGTH], output[ROW_LENGTH * HEIGHT];
    uint8_t image[SPOONWING_IMAGE_LENGTH]; /* the registers as they are written */
};

enum { DISPLAYS = 2 };
static struct display displays[DISPLAYS] = {
    {.bits = 1, .tables_length = SPOONWING_TABLES_LENGTH, .note = "one bit a glyph pixel"},
    {.bits = 2, .tables_length = SPOONWING_SOFT_TABLES_LENGTH, .note = "two bits a glyph pixel"},
};

/* Ends the program where a call is refused. */
static void done(uint32_t answer)
{
    if (answer == SPOONWING_DONE)
        return;
    fprintf(stderr, "letters: %u: %s\n", (unsigned)answer, spoonwing_refusal(answer));
    exit(1);
}

/* ---- tables */

/* From INK on stand three shades of one ink, a third, two thirds and all of it over the water. Text
 * of two bits begins at the first, and text of one bit has the last alone. */
enum { WATER, FOAM, INK, SHADES = 3, FULL_INK = INK + SHADES - 1 };
static const uint8_t DARK[] = {10, 48, 60, 255}, LIGHT[] = {160, 214, 210, 255},
                     CREAM[] = {255, 244, 222, 255};

static void set_shade(struct bank *bank, int thirds)
{
    uint8_t shade[COLOUR_LENGTH];
    for (int i = 0; i < COLOUR_LENGTH; i++)
        shade[i] = (uint8_t)((DARK[i] * (SHADES - thirds) + CREAM[i] * thirds) / SHADES);
    set_colour(bank, INK + thirds - 1, shade);
}

static void draw_caption(struct bank *bank, uint32_t ink, const char *note)
{
    set_colour(bank, WATER, DARK);
    set_colour(bank, FOAM, LIGHT);
    for (int thirds = 1; thirds <= SHADES; thirds++)
        set_shade(bank, thirds);
    draw_box(bank, 0, 0, PANE.width, PANE.height, 0, WATER);
    draw_box(bank, 0, 0, PANE.width, PANE.height, 2, FOAM);
    draw_text(bank, 16, 14, SCALE_4, ink, "Spoonbill");
    draw_text(bank, 16, 54, SCALE_4, ink, "at dusk");
    draw_text(bank, 16, 96, SCALE_1, ink, note);
}

/* Puts a table in one run into bank 1: a fresh display shows bank 0. */
static void load(struct display *display, uint32_t kind, const uint8_t *bank)
{
    uint32_t begin = table_at(kind, display->bits), end = table_at(kind + 1, display->bits);
    size_t item;
    done(spoonwing_display_select(display->state, sizeof display->state,
                                  CAPTION << 3 | kind << 1 | 1));
    done(spoonwing_display_put_run(display->state, sizeof display->state, display->tables,
                                   display->tables_length, bank + begin, end - begin, &item));
}

static void load_caption(struct display *display)
{
    uint8_t drawn[BANK_LENGTH(2)] = {0};
    struct bank bank = first_bank(drawn, 0, display->bits);
    draw_caption(&bank, display->bits == 1 ? FULL_INK : INK, display->note);
    for (uint32_t kind = 0; kind < KINDS; kind++)
        load(display, kind, drawn);
}

/* ---- the frames */

static void write_registers(struct display *display)
{
    static const uint8_t ground[] = {30, 62, 88};
    uint8_t run[WRITE_LENGTH * REGISTERS], *image = display->image;
    size_t item;
    put_screen(image, WIDTH, HEIGHT, ground);
    put_layer(image, CAPTION, &PANE);
    put_update(image);
    put_word(image + 4 * 3, UINT32_C(0x01010101) << CAPTION); /* bank 1 of all four kinds */
    put_writes(run, image);
    done(spoonwing_display_write_run(display->state, sizeof display->state, run, sizeof run,
                                     &item));
}

static void paint(struct display *display)
{
    done(spoonwing_display_new(display->state, sizeof display->state, (uint32_t)display->bits));
    load_caption(display);
    write_registers(display);
    done(spoonwing_display_start(display->state, sizeof display->state));
    done(spoonwing_display_frame(display->state, sizeof display->state, display->tables,
                                 display->tables_length, NULL, 0, NULL, 0, display->output,
                                 sizeof display->output));
}

/* ---- what is written */

/* Whether a part of a display is written, to a file with the number of bits in its name. */
static int write_part(const char *folder, const char *part, int bits, const uint8_t *bytes,
                      size_t length)
{
    char name[32];
    snprintf(name, sizeof name, "%s-%d.bin", part, bits);
    return write_file(folder, name, bytes, length);
}

static int write_inputs(const char *folder, const struct display *display)
{
    int bits = display->bits;
    return write_part(folder, "image", bits, display->image, sizeof display->image) &&
           write_part(folder, "tables", bits, display->tables, display->tables_length) &&
           write_part(folder, "state", bits, display->state, sizeof display->state) &&
           write_part(folder, "output", bits, display->output, sizeof display->output);
}

/* The frames side by side: a line of the one, a line of the other. */
static int write_both(void)
{
    static uint8_t both[DISPLAYS * ROW_LENGTH * HEIGHT];
    for (int i = 0; i < DISPLAYS * HEIGHT; i++) {
        const uint8_t *row = displays[i % DISPLAYS].output + i / DISPLAYS * ROW_LENGTH;
        memcpy(both + i * ROW_LENGTH, row, ROW_LENGTH);
    }
    return write_picture(both, DISPLAYS * WIDTH, HEIGHT);
}

int main(int count, char **words)
{
    const char *folder = inputs_folder(count, words);
    for (int i = 0; i < DISPLAYS; i++) {
        paint(&displays[i]);
        if (folder && !write_inputs(folder, &displays[i]))
            return 1;
    }
    return write_both() ? 0 : 1;
}
