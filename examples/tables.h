/* The table buffer: where its parts lie, and how a bank is filled. */
#ifndef TABLES_H
#define TABLES_H

#include <stdint.h>

/* What a bank holds, one table after another: instructions, colours, strings and the font. */
enum {
    INSTRUCTIONS = 48,
    INSTRUCTION_LENGTH = 16,
    COLOURS = 16,
    COLOUR_LENGTH = 4,
    STRINGS = 8,
    STRING_LENGTH = 32,
    GLYPHS = 96,
    GLYPH_SIDE = 8 /* pixels across, and lines */
};

/* Where a table begins in its bank. */
enum {
    COLOURS_AT = INSTRUCTIONS * INSTRUCTION_LENGTH,    /* 768 */
    STRINGS_AT = COLOURS_AT + COLOURS * COLOUR_LENGTH, /* 832 */
    FONT_AT = STRINGS_AT + STRINGS * STRING_LENGTH     /* 1,088 */
};

/* How long a glyph, a font, a bank, a controller with its two banks and the buffer are, by the bits
 * that a glyph pixel has, 1 or 2: a line of a glyph is so many bytes. */
enum { CONTROLLERS = 8 };
#define GLYPH_LENGTH(bits) (GLYPH_SIDE * (bits))                    /* 8 or 16 */
#define FONT_LENGTH(bits) (GLYPHS * GLYPH_LENGTH(bits))             /* 768 or 1,536 */
#define BANK_LENGTH(bits) (FONT_AT + FONT_LENGTH(bits))             /* 1,856 or 2,624 */
#define CONTROLLER_LENGTH(bits) (2 * BANK_LENGTH(bits))             /* 3,712 or 5,248 */
#define TABLES_LENGTH(bits) (CONTROLLERS * CONTROLLER_LENGTH(bits)) /* 29,696 or 41,984 */

enum opcode { END = 0, BOX = 10, TEXT = 12, BOX_AND_TEXT = 14 };

/* A bank, and how many of its instructions and strings are in use. */
struct bank {
    uint8_t *bytes;
    uint32_t instructions, strings;
};

/* The scale as an instruction has it. */
enum scale { SCALE_1, SCALE_2, SCALE_4, SCALE_8 };

/* Stores a word as the display reads it, the lowest byte first; and reads one. */
void put_word(uint8_t *to, uint32_t word);
uint32_t word_at(const uint8_t *from);

/* Where a kind's table begins in its bank; with KINDS, where the bank ends. */
enum { KINDS = 4 };
uint32_t table_at(uint32_t kind, int bits);

/* Bank 0 of a controller, with a font of so many bits in it. The tables are all zero at first, so
 * the list ends after the last instruction put (0 is END) and a string after its last character. */
struct bank first_bank(uint8_t *tables, int controller, int bits);

/* A colour, or so many from the first on. Colour 0 is what every pixel of the layer begins with. */
void set_colour(struct bank *bank, int index, const uint8_t colour[COLOUR_LENGTH]);
void set_palette(struct bank *bank, const uint8_t (*colours)[COLOUR_LENGTH], int count);

/* A box by its corner and size: filled with weight 0, else an outline as thick as the weight. */
void draw_box(struct bank *bank, uint32_t x, uint32_t y, uint32_t width, uint32_t height,
              uint32_t weight, uint32_t colour);

/* A string of at most 32 characters. */
void draw_text(struct bank *bank, uint32_t x, uint32_t y, enum scale scale, uint32_t colour,
               const char *string);

#endif
