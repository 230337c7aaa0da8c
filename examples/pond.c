/* The duckling as it looks, a character for a dot, and the boxes in the order in which they are
 * drawn. */
#include <string.h>

#include "pond.h"

/* ---- the duckling */

static const struct {
    char sign;
    uint8_t pixel[PIXEL];
} PAINT[] = {
    {'.', {0, 0, 0, 0}},         {'y', {255, 214, 64, 255}},  {'l', {255, 236, 138, 255}},
    {'o', {240, 176, 40, 255}},  {'b', {250, 136, 36, 255}},  {'c', {216, 96, 24, 255}},
    {'e', {40, 36, 48, 255}},    {'w', {255, 255, 255, 255}}, {'p', {255, 160, 120, 255}},
    {'r', {232, 250, 248, 170}}, {'m', {250, 206, 70, 110}},
};

static const char *const DUCKLING[DOT_LINES] = {
    "...........y....................",
    ".........yy.y...................",
    "..........lyyyyy................",
    "........lllyyyyyyy..............",
    ".......lllyyyyyyyyy.............",
    "......lllyyyyyyyyyyy............",
    "......llyyyyyyyyyyyy............",
    "......lyywweyyyyyyyyo...........",
    "......yyyweeyyyyyyyyo...........",
    "..bbb.yyyeeeyyyyyyyyo...........",
    ".bbbbbbyyyyyyyyyyyyoo...........",
    "bbbbbbbbyyyppyyyyyyoo...........",
    ".cccbbbbyyppppyyyyoo............",
    "...ccccyyyyppyyyyyoo.........y..",
    ".......oyyyyyyyyyoo.........yy..",
    "........oyyyyyyyyyyyy.....yyyy..",
    "......llyyyyyyyyyyyyyyyyyyyyyo..",
    ".....lllyyyyyyyyyyyyyyyyyyyyyo..",
    "....lllyyyyyyyloooooooyyyyyyoo..",
    "....llyyyyyyyllllllllloyyyyyoo..",
    "....llyyyyyyyllllllllloyyyyyo...",
    "....llyyyyyyyylllllllloyyyyoo...",
    "....yyyyyyyyyyylllllloyyyyyo....",
    ".....yyyyyyyyyyyooooyyyyyyoo....",
    "..r...oyyyyyyyyyyyyyyyyyooo...r.",
    ".rrrrrrrooyyyyyyyyyyooorrrrrrrr.",
    "r..mmmmmmrrrrrrrrrrrrrmmmmmmm..r",
    "....rrrmmmmmmmmmmmmmmmmmmrrr....",
    "........rrr..mmmmmm...rrr.......",
};

static const uint8_t *paint_of(char sign)
{
    size_t i = 0;
    while (PAINT[i].sign != sign)
        i++;
    return PAINT[i].pixel;
}

void paint_duckling(uint8_t *pixels)
{
    for (int i = 0; i < DUCKLING_WIDTH * DUCKLING_HEIGHT; i++) {
        int x = i % DUCKLING_WIDTH / DOT, y = i / DUCKLING_WIDTH / DOT;
        memcpy(pixels + PIXEL * i, paint_of(DUCKLING[y][x]), PIXEL);
    }
}

/* ---- the pond */

/* Colour 0 stays clear, for the sky. */
enum { SUN = 1, HALO, CLOUD, FAR_HILL, HILL, SHORE, WATER, DEEP, GLEAM, STALK, HEAD, LEAF, PETAL };

static const uint8_t PALETTE[COLOURS][COLOUR_LENGTH] = {
    [SUN] = {255, 240, 170, 255},   [HALO] = {255, 255, 240, 110},
    [CLOUD] = {255, 255, 255, 190}, [FAR_HILL] = {122, 188, 150, 255},
    [HILL] = {84, 160, 112, 255},   [SHORE] = {70, 176, 190, 255},
    [WATER] = {48, 150, 172, 255},  [DEEP] = {34, 122, 150, 255},
    [GLEAM] = {190, 236, 236, 150}, [STALK] = {52, 116, 72, 255},
    [HEAD] = {128, 82, 52, 255},    [LEAF] = {70, 158, 84, 255},
    [PETAL] = {255, 170, 196, 255},
};

static const struct {
    uint32_t x, y, width, height, colour;
} BOXES[] = {
    {528, 16, 80, 112, HALO}, {520, 24, 96, 96, HALO}, {512, 32, 112, 80, HALO},
    {544, 32, 48, 80, SUN}, {536, 40, 64, 64, SUN}, {528, 48, 80, 48, SUN},
    {40, 152, 112, 16, CLOUD}, {64, 136, 56, 16, CLOUD},
    {236, 144, 88, 12, CLOUD}, {252, 132, 48, 12, CLOUD},
    {0, 200, 240, 12, FAR_HILL}, {32, 188, 128, 12, FAR_HILL},
    {420, 196, 220, 16, FAR_HILL}, {468, 184, 112, 12, FAR_HILL}, {0, 212, 640, 12, HILL},
    {0, 224, 640, 36, SHORE}, {0, 260, 640, 44, WATER}, {0, 304, 640, 56, DEEP},
    {72, 236, 72, 4, GLEAM}, {204, 248, 48, 4, GLEAM}, {316, 240, 40, 4, GLEAM},
    {576, 252, 48, 4, GLEAM}, {456, 332, 72, 4, GLEAM}, {560, 340, 56, 4, GLEAM},
    {596, 176, 6, 160, STALK}, {592, 150, 14, 40, HEAD},
    {620, 204, 6, 140, STALK}, {616, 182, 14, 34, HEAD},
    {340, 320, 84, 10, LEAF}, {352, 316, 60, 4, LEAF},
    {370, 304, 24, 12, PETAL}, {376, 298, 12, 6, PETAL},
};

void draw_pond(struct bank *bank)
{
    set_palette(bank, PALETTE, COLOURS);
    for (size_t i = 0; i < sizeof BOXES / sizeof BOXES[0]; i++)
        draw_box(bank, BOXES[i].x, BOXES[i].y, BOXES[i].width, BOXES[i].height, 0, BOXES[i].colour);
}
