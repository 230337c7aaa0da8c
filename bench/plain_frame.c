/* The struct's painting, from its active words as they are. All four tables of a layer are in the
 * bank of its instructions, as in every scene. */
#include "plain.h"
#include "plain_display.h"
#include "plain_words.h"

enum { DISPLAY_ON = 1 };

static struct layer layer_of(const uint32_t *words)
{
    return (struct layer){.is_graphics = (uint32_t)is_graphics(words),
                          .is_float = (uint32_t)is_float(words),
                          .depth = depth_of(words),
                          .x = low_half(words[2]),
                          .y = high_half(words[2]),
                          .width = low_half(words[3]),
                          .height = high_half(words[3]),
                          .has_global_alpha = words[1] >> 31,
                          .alpha = words[1] & 255,
                          .fade_start = words[4],
                          .fade_length = words[5] & 65535,
                          .fade_target = words[5] >> 16 & 255};
}

static int has_end(const uint8_t *bank)
{
    for (int k = 0; k < INSTRUCTIONS; k++)
        if (word_at(bank + INSTRUCTION_LENGTH * k) >> 28 == END)
            return 1;
    return 0;
}

/* The enabled layers, each at the place of its depth: a start has seen to it that no two have one.
 * Lists without END set their bits. Answers the depths that there are, a bit for each. */
static uint32_t find_layers(struct plain_display *display, const struct lent *lent,
                            struct laid at[LAYERS])
{
    uint32_t depths = 0;
    int bits = display->profile ? 2 : 1;
    const uint8_t *pixels = lent->pictures;
    const float *floats = lent->floats;
    for (uint32_t n = 0; n < LAYERS; n++) {
        const uint32_t *words = display->active + layer_at((int)n);
        if (!is_enabled(words))
            continue;
        struct layer layer = layer_of(words);
        size_t bank = 2 * n + (display->active[3] >> n & 1);
        at[layer.depth] = (struct laid){layer, faded(&layer, display->frame), pixels, floats,
                                        lent->tables + BANK_LENGTH(bits) * bank, bits};
        depths |= UINT32_C(1) << layer.depth;
        if (layer.is_float)
            floats += (size_t)PIXEL * layer.width * layer.height;
        else if (!layer.is_graphics)
            pixels += (size_t)PIXEL * layer.width * layer.height;
        else if (!has_end(at[layer.depth].bank))
            display->errors |= UINT32_C(1) << 4 * n;
    }
    return depths;
}

static void paint(struct plain_display *display, const struct lent *lent, struct canvas canvas)
{
    struct laid at[LAYERS];
    uint32_t ground = display->active[2];
    const uint8_t channels[] = {(uint8_t)ground, (uint8_t)(ground >> 8), (uint8_t)(ground >> 16)};
    fill_canvas(&canvas, channels);
    if (!(display->active[0] & DISPLAY_ON))
        return;
    uint32_t depths = find_layers(display, lent, at);
    for (int depth = 0; depth < LAYERS; depth++)
        if (depths >> depth & 1)
            lay(&canvas, &at[depth]);
}

uint32_t plain_frame(struct plain_display *display, const struct lent *lent, uint8_t *output,
                     size_t output_length)
{
    uint32_t answer = plain_refusal(display, 0, LAYERS, lent, output_length);
    uint32_t screen = display->active[1];
    struct canvas canvas = {output, low_half(screen), 0, high_half(screen), lent->indexes};
    if (answer == SPOONWING_DONE)
        paint(display, lent, canvas);
    return answer;
}

uint32_t plain_line(struct plain_display *display, uint32_t y, const struct lent *lent,
                    uint8_t *output, size_t output_length)
{
    uint32_t answer = plain_line_refusal(display, y, lent, output_length);
    struct canvas canvas = {output, low_half(display->active[1]), y, 1, lent->indexes};
    if (answer == SPOONWING_DONE)
        paint(display, lent, canvas);
    return answer;
}
