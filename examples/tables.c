/* How a bank is filled and an instruction packed. */
#include <assert.h>
#include <string.h>

#include "font.h"
#include "soft_font.h"
#include "spoonwing.h"
#include "tables.h"

/* The buffer is as long as the header says: a size below 0 does not compile. */
typedef char whole_tables[TABLES_LENGTH(1) == SPOONWING_TABLES_LENGTH ? 1 : -1];
typedef char whole_soft_tables[TABLES_LENGTH(2) == SPOONWING_SOFT_TABLES_LENGTH ? 1 : -1];

uint32_t table_at(uint32_t kind, int bits)
{
    const uint32_t at[KINDS + 1] = {0, COLOURS_AT, STRINGS_AT, FONT_AT, BANK_LENGTH(bits)};
    return at[kind];
}

void put_word(uint8_t *to, uint32_t word)
{
    for (int i = 0; i < 4; i++)
        to[i] = (uint8_t)(word >> (8 * i));
}

uint32_t word_at(const uint8_t *from)
{
    return from[0] | from[1] << 8 | from[2] << 16 | (uint32_t)from[3] << 24;
}

/* A line of a glyph as it looks, stored as so many bytes: the leftmost pixel comes to stand in the
 * top bits of the first, since each pixel moves those before it up. */
static void put_line(uint8_t *to, const char *drawn, int bits)
{
    const char *signs = bits == 1 ? ".#" : ".-+#";
    for (int i = 0; i < GLYPH_SIDE; i++) {
        uint8_t *byte = to + i * bits / 8;
        *byte = (uint8_t)(*byte << bits | (strchr(signs, drawn[i]) - signs));
    }
}

struct bank first_bank(uint8_t *tables, int controller, int bits)
{
    const char *const *face = bits == 1 ? FONT : SOFT_FONT;
    struct bank bank = {tables + CONTROLLER_LENGTH(bits) * controller, 0, 0};
    for (int i = 0; i < GLYPHS * GLYPH_SIDE; i++) {
        int glyph = i / GLYPH_SIDE, line = i % GLYPH_SIDE;
        const char *drawn = face[glyph / SIDE_BY_SIDE * GLYPH_SIDE + line];
        put_line(bank.bytes + FONT_AT + bits * i, drawn + glyph % SIDE_BY_SIDE * GLYPH_PITCH, bits);
    }
    return bank;
}

void set_colour(struct bank *bank, int index, const uint8_t colour[COLOUR_LENGTH])
{
    memcpy(bank->bytes + COLOURS_AT + COLOUR_LENGTH * index, colour, COLOUR_LENGTH);
}

void set_palette(struct bank *bank, const uint8_t (*colours)[COLOUR_LENGTH], int count)
{
    for (int i = 0; i < count; i++)
        set_colour(bank, i, colours[i]);
}

static uint8_t *next_instruction(struct bank *bank)
{
    assert(bank->instructions < INSTRUCTIONS);
    return bank->bytes + INSTRUCTION_LENGTH * bank->instructions++;
}

void draw_box(struct bank *bank, uint32_t x, uint32_t y, uint32_t width, uint32_t height,
              uint32_t weight, uint32_t colour)
{
    uint8_t *to = next_instruction(bank);
    uint32_t x_end = x + width - 1, y_end = y + height - 1; /* a box has its ends included */
    put_word(to, (uint32_t)BOX << 28 | x_end << 12 | x);
    put_word(to + 8, weight << 24 | y_end << 12 | y);
    put_word(to + 12, colour);
}

void draw_text(struct bank *bank, uint32_t x, uint32_t y, enum scale scale, uint32_t colour,
               const char *string)
{
    uint8_t *to = next_instruction(bank);
    assert(bank->strings < STRINGS && strlen(string) <= STRING_LENGTH);
    memcpy(bank->bytes + STRINGS_AT + STRING_LENGTH * bank->strings, string, strlen(string));
    put_word(to, (uint32_t)TEXT << 28 | x);
    put_word(to + 4, bank->strings++);
    put_word(to + 8, (uint32_t)scale << 30 | y);
    put_word(to + 12, colour << 8);
}
