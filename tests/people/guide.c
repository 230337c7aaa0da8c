/* Asks the archive what docs/GUIDE.md says of it, for test_guide.py:
 *
 *     guide reserved                                  the reserved bits of each of the 52 words, a line a word
 *     guide blend ALPHA OVER UNDER                    a channel over another
 *     guide fade VALUE TARGET START LENGTH FRAME      the alpha of a fade
 *     guide place SCREEN X WIDTH                      what a start answers for a layer there
 *     guide float VALUE                               the byte that a float is painted as
 *     guide lent PICTURES FLOATS                      what a frame answers that is lent so many bytes and numbers */
#include <spoonwing.h>
#include <stdio.h>
#include <stdlib.h>
#include <string.h>

static uint8_t state[SPOONWING_STATE_LEN], tables[SPOONWING_TABLES_LENGTH];

static uint32_t set(uint32_t word, uint32_t value)
{
    return spoonwing_display_write(state, sizeof state, word, value);
}

/* What a fresh display of 1 by 1 answers to a start with one more word written. */
static uint32_t start_with(uint32_t word, uint32_t value)
{
    static const uint32_t first[2] = {5, 0x10001};
    spoonwing_display_new(state, sizeof state, 1);
    set(0, first[0]);
    set(1, first[1]);
    set(word, word < 2 ? first[word] | value : value);
    return spoonwing_display_start(state, sizeof state);
}

static void print_reserved(void)
{
    for (uint32_t word = 0; word < 52; word++) {
        uint32_t bits = 0;
        for (int i = 0; i < 32; i++)
            if (start_with(word, UINT32_C(1) << i) == SPOONWING_RESERVED_BIT)
                bits |= UINT32_C(1) << i;
        printf("%08X\n", (unsigned)bits);
    }
}

/* The red of one picture pixel over a background, by the frame entry: words 5, 8 and 9 are the layer's. */
static int red_over(const uint8_t pixel[4], uint32_t under, const uint32_t fade[3], uint32_t frame)
{
    const uint32_t words[52] = {1, 0x10001, under, 0, 1, fade[0], 0, 0x10001, fade[1], fade[2]};
    uint8_t image[SPOONWING_IMAGE_LENGTH], output[4];
    for (size_t i = 0; i < SPOONWING_IMAGE_LENGTH; i++)
        image[i] = (uint8_t)(words[i / 4] >> (8 * (i % 4)));
    if (spoonwing_frame(image, sizeof image, frame, tables, sizeof tables, pixel, 4, output, sizeof output))
        exit(1);
    return output[0];
}

/* What a start answers for a layer of a screen that is one line high. */
static uint32_t start_at(uint32_t screen, uint32_t x, uint32_t width)
{
    start_with(2, 0);
    set(1, 1u << 16 | screen);
    set(4, 1);
    set(6, x);
    set(7, 1u << 16 | width);
    return spoonwing_display_start(state, sizeof state);
}

/* A screen of 3 by 2 with the guide's layers: a list, pictures of 3 by 2 and 1 by 1, one that is off; and a float picture
 * of one pixel on top of all. */
static uint32_t frame_lent(size_t pictures_length, const float *floats, size_t floats_length, uint8_t output[24])
{
    static const uint32_t words[][2] = {{0, 5}, {1, 0x20003}, {4, 0x603}, {7, 0x10001}, {10, 0x501}, {13, 0x20003},
                                        {16, 0x100}, {19, 0x10001}, {28, 0x001}, {31, 0x10001}, {34, 0x705}, {37, 0x10001}};
    static const uint8_t pictures[64];
    spoonwing_display_new(state, sizeof state, 1);
    for (size_t i = 0; i < sizeof words / sizeof *words; i++)
        set(words[i][0], words[i][1]);
    if (spoonwing_display_start(state, sizeof state) != SPOONWING_DONE || pictures_length > sizeof pictures)
        exit(1);
    return spoonwing_display_frame(state, sizeof state, tables, sizeof tables, pictures, pictures_length, floats,
                                   floats_length, output, 24);
}

static int byte_of(float value)
{
    const float pixel[4] = {value, 0, 0, 1};
    uint8_t output[24];
    return frame_lent(28, pixel, 4, output) == SPOONWING_DONE ? output[0] : -1;
}

int main(int count, char **words)
{
    uint32_t n[5] = {0};
    const char *asked = count > 1 ? words[1] : "";
    for (int i = 2; i < count && i < 7; i++)
        n[i - 2] = (uint32_t)strtoul(words[i], NULL, 10);
    if (!strcmp(asked, "reserved"))
        print_reserved();
    else if (!strcmp(asked, "blend"))
        printf("%d\n", red_over((uint8_t[4]){(uint8_t)n[1], 0, 0, (uint8_t)n[0]}, n[2], (uint32_t[3]){0}, 0));
    else if (!strcmp(asked, "fade")) /* white over black shows the alpha itself */
        printf("%d\n", red_over((uint8_t[4]){255, 0, 0, 0}, 0, (uint32_t[3]){1u << 31 | n[0], n[2], n[1] << 16 | n[3]}, n[4]));
    else if (!strcmp(asked, "place"))
        printf("%u\n", (unsigned)start_at(n[0], n[1], n[2]));
    else if (!strcmp(asked, "float"))
        printf("%d\n", byte_of(strtof(words[2], NULL)));
    else if (!strcmp(asked, "lent"))
        printf("%u\n", (unsigned)frame_lent(n[0], (float[8]){0}, n[1], (uint8_t[24]){0}));
    else
        return 2;
    return 0;
}
