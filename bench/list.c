/* Written from document 01's "Graphics layers" and K2. Ends are included, as those of a box are. */
#include <stddef.h>
#include <string.h>

#include "list.h"
#include "tables.h"

enum { FIRST_GLYPH = 32, LAST_GLYPH = FIRST_GLYPH + GLYPHS - 1 };

struct plane {
    uint8_t *indexes;
    uint32_t width, height;
};

struct box {
    uint32_t x0, x1, y0, y1;
};

/* ---- boxes */

/* As far as the plane goes. */
static void fill_box(const struct plane *plane, struct box box, uint8_t colour)
{
    if (box.x1 >= plane->width)
        box.x1 = plane->width - 1;
    if (box.y1 >= plane->height)
        box.y1 = plane->height - 1;
    if (box.x0 > box.x1)
        return;
    for (uint32_t y = box.y0; y <= box.y1; y++)
        memset(plane->indexes + (size_t)y * plane->width + box.x0, colour, box.x1 - box.x0 + 1);
}

/* The four sides, each as thick as the weight; they meet where the box is thin. */
static void outline(const struct plane *plane, struct box b, uint32_t weight, uint8_t colour)
{
    if (b.x1 - b.x0 < 2 * weight || b.y1 - b.y0 < 2 * weight) {
        fill_box(plane, b, colour);
        return;
    }
    fill_box(plane, (struct box){b.x0, b.x1, b.y0, b.y0 + weight - 1}, colour);
    fill_box(plane, (struct box){b.x0, b.x1, b.y1 - weight + 1, b.y1}, colour);
    fill_box(plane, (struct box){b.x0, b.x0 + weight - 1, b.y0, b.y1}, colour);
    fill_box(plane, (struct box){b.x1 - weight + 1, b.x1, b.y0, b.y1}, colour);
}

static void obey_box(const struct plane *plane, const uint8_t *instruction)
{
    uint32_t across = word_at(instruction), down = word_at(instruction + 8);
    struct box box = {across & 4095, across >> 12 & 4095, down & 4095, down >> 12 & 4095};
    uint32_t weight = down >> 24 & 15;
    uint8_t colour = instruction[12] & 15;
    if (box.x0 > box.x1 || box.y0 > box.y1)
        return;
    if (weight == 0)
        fill_box(plane, box, colour);
    else
        outline(plane, box, weight, colour);
}

/* ---- text */

/* How a text is lettered: so many bits a glyph pixel, each a square of that side, in this colour
 * and, with two bits, in the two after it. */
struct lettering {
    int bits;
    uint32_t side, colour;
};

/* A line of a glyph as a number, its leftmost pixel in the top bits. How many bits is a constant of
 * each call, so that text of one bit costs what it did. */
static void draw_line(const struct plane *plane, struct lettering as, int bits, uint32_t line,
                      uint32_t x, uint32_t y)
{
    for (int i = GLYPH_SIDE - 1; i >= 0; i--, x += as.side) {
        uint32_t value = line >> (i * bits) & ((1u << bits) - 1);
        if (value != 0)
            fill_box(plane, (struct box){x, x + as.side - 1, y, y + as.side - 1},
                     (uint8_t)((as.colour + value - 1) % COLOURS));
    }
}

static void draw_glyph(const struct plane *plane, struct lettering as, const uint8_t *glyph,
                       uint32_t x, uint32_t y)
{
    for (uint32_t row = 0; row < GLYPH_SIDE; row++, y += as.side) {
        if (as.bits == 1)
            draw_line(plane, as, 1, glyph[row], x, y);
        else
            draw_line(plane, as, 2, (uint32_t)glyph[2 * row] << 8 | glyph[2 * row + 1], x, y);
    }
}

static void obey_text(const struct plane *plane, const uint8_t *bank, int bits,
                      const uint8_t *instruction)
{
    uint32_t x = word_at(instruction) & 4095, down = word_at(instruction + 8), y = down & 4095;
    struct lettering as = {bits, UINT32_C(1) << (down >> 30), instruction[13]};
    uint8_t number = instruction[4];
    if (number >= STRINGS)
        return;
    const uint8_t *string = bank + STRINGS_AT + STRING_LENGTH * number;
    for (int i = 0; i < STRING_LENGTH && string[i] != 0; i++, x += GLYPH_SIDE * as.side) {
        const uint8_t *glyph = bank + FONT_AT + GLYPH_LENGTH(bits) * (string[i] - FIRST_GLYPH);
        if (string[i] >= FIRST_GLYPH && string[i] <= LAST_GLYPH)
            draw_glyph(plane, as, glyph, x, y);
    }
}

/* ---- the list */

void draw_list(const uint8_t *bank, int bits, uint32_t width, uint32_t height, uint8_t *indexes)
{
    struct plane plane = {indexes, width, height};
    memset(indexes, 0, (size_t)width * height);
    for (int k = 0; k < INSTRUCTIONS; k++) {
        const uint8_t *instruction = bank + INSTRUCTION_LENGTH * k;
        uint32_t opcode = word_at(instruction) >> 28;
        if (opcode == END)
            return;
        if (opcode == BOX || opcode == BOX_AND_TEXT)
            obey_box(&plane, instruction);
        if (opcode == TEXT || opcode == BOX_AND_TEXT)
            obey_text(&plane, bank, bits, instruction);
    }
}
