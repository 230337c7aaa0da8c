/* A C program that turns floats into bytes by having them painted. A request comes as five numbers
 * of 32 bits, little-endian: by which call (0 a band, 1 a frame, 2 lines), what carries the floats
 * (0 the channels of opaque pixels, 1 the alphas of white pixels over black), the bits of the
 * first, how much further on those of each next are, modulo 2^32, and how many there are. It is
 * told as a byte for each. */
#include <stdio.h>
#include <stdlib.h>
#include <string.h>

#include "numbers.h"
#include "spoonwing.h"

enum { WIDTH = 4095, HEIGHT = 256, PIXELS = WIDTH * HEIGHT };
enum { BAND, FRAME, LINES };
enum { CHANNELS, ALPHA };
enum { CALL, PLACE, FIRST, STEP, COUNT, NUMBERS };

/* 1.0 by its bits. */
enum { ONE = 0x3F800000 };

static uint8_t state[SPOONWING_STATE_LEN], tables[SPOONWING_TABLES_LENGTH];
static uint32_t patterns[4 * PIXELS];
static float floats[4 * PIXELS];
static uint8_t output[4 * PIXELS], told[4 * PIXELS];

static void must(uint32_t answer)
{
    if (answer == 0)
        return;
    fprintf(stderr, "float_bytes: %s\n", spoonwing_refusal(answer));
    exit(2);
}

/* A display whose layer 0 shows floats all over the screen. */
static void show(uint32_t width, uint32_t height)
{
    const uint32_t size = width | height << 16;
    const uint32_t words[][2] = {{0, 5}, {1, size}, {4, 5}, {7, size}};
    must(spoonwing_display_new(state, sizeof state, 1));
    for (size_t i = 0; i < sizeof words / sizeof words[0]; i++)
        must(spoonwing_display_write(state, sizeof state, words[i][0], words[i][1]));
    must(spoonwing_display_start(state, sizeof state));
}

/* All numbers of so many pixels: the floats go on behind the last where pixels are left. */
static void set_floats(const uint32_t *request, size_t pixels)
{
    uint32_t next = request[FIRST];
    for (size_t i = 0; i < 4 * pixels; i++) {
        patterns[i] = ONE;
        if ((i % 4 == 3) == (request[PLACE] == ALPHA)) {
            patterns[i] = next;
            next += request[STEP];
        }
    }
    memcpy(floats, patterns, 4 * pixels * sizeof floats[0]);
}

static void paint(uint32_t call, uint32_t width, uint32_t height)
{
    const size_t pixels = (size_t)width * height, line = 4 * (size_t)width;
    if (call == BAND)
        must(spoonwing_display_paint(state, sizeof state, 0, 8, tables, sizeof tables, NULL, 0,
                                     floats, 4 * pixels, output, 4 * pixels));
    if (call == FRAME)
        must(spoonwing_display_frame(state, sizeof state, tables, sizeof tables, NULL, 0, floats,
                                     4 * pixels, output, 4 * pixels));
    for (uint32_t y = 0; call == LINES && y < height; y++)
        must(spoonwing_display_line(state, sizeof state, y, tables, sizeof tables, NULL, 0, floats,
                                    4 * pixels, output + line * y, line));
}

static void do_request(const uint32_t *request)
{
    const size_t a_pixel = request[PLACE] == ALPHA ? 1 : 3, count = request[COUNT];
    const size_t pixels = (count + a_pixel - 1) / a_pixel;
    if (count == 0 || pixels > PIXELS)
        exit(2);
    const uint32_t width = pixels < WIDTH ? (uint32_t)pixels : WIDTH;
    const uint32_t height = (uint32_t)((pixels + width - 1) / width);
    show(width, height);
    set_floats(request, (size_t)width * height);
    /* A band lies over what is there: black for alphas, for channels what an opaque pixel hides. */
    for (size_t i = 0; i < 4 * (size_t)width * height; i++)
        output[i] = request[PLACE] == ALPHA ? 0 : (uint8_t)(i * 7 + 1);
    paint(request[CALL], width, height);
    /* Every channel of a white pixel over black has its alpha. */
    for (size_t i = 0; i < count; i++)
        told[i] = output[i / a_pixel * 4 + i % a_pixel];
    fwrite(told, 1, count, stdout);
    fflush(stdout);
}

int main(void)
{
    uint8_t bytes[4 * NUMBERS];
    while (fread(bytes, 1, sizeof bytes, stdin) == sizeof bytes) {
        uint32_t request[NUMBERS];
        for (int i = 0; i < NUMBERS; i++)
            request[i] = number(bytes + 4 * i);
        do_request(request);
    }
    return 0;
}
