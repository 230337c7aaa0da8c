/* The captions are laid out for 640 by 360 and grow with the screen. */
#include "scenes.h"

static const uint8_t CREAM[] = {255, 244, 222, 255}, AMBER[] = {255, 200, 136, 255},
                     FOAM[] = {160, 214, 210, 255}, NIGHT[] = {10, 48, 60, 255},
                     GLASS[] = {6, 34, 46, 190};

/* ---- pictures */

struct scene *random_picture(uint32_t width, uint32_t height)
{
    return sealed(new_scene(width, height, 1, RANDOM_ALPHA));
}

struct scene *one_alpha_picture(uint32_t width, uint32_t height)
{
    return sealed(new_scene(width, height, 1, ONE_ALPHA));
}

struct scene *opaque_picture(uint32_t width, uint32_t height)
{
    return sealed(new_scene(width, height, 1, OPAQUE));
}

struct scene *stack_of(uint32_t width, uint32_t height, int pictures)
{
    return sealed(new_scene(width, height, pictures, RANDOM_ALPHA));
}

struct scene *eight_layers(uint32_t width, uint32_t height)
{
    return stack_of(width, height, MOST_LAYERS);
}

struct scene *eight_opaque(uint32_t width, uint32_t height)
{
    return sealed(new_scene(width, height, MOST_LAYERS, OPAQUE));
}

struct scene *stretches(uint32_t width, uint32_t height)
{
    enum { PICTURES = 4 };
    return sealed(new_scene(width, height, PICTURES, STRETCHES));
}

struct scene *float_stack_of(uint32_t width, uint32_t height, int pictures)
{
    return sealed(in_floats(new_scene(width, height, pictures, RANDOM_ALPHA)));
}

/* ---- the museum */

/* How many pixels wide one of 640 by 360 is, and the scale of a text that has scale 1 there. */
static uint32_t unit_of(const struct scene *scene)
{
    return scene->height < 720 ? 1 : scene->height / 360;
}

static enum scale scale_of(uint32_t unit)
{
    return unit < 2 ? SCALE_1 : unit < 4 ? SCALE_2 : SCALE_4;
}

/* Words on a clear layer. */
static void add_title(struct scene *scene)
{
    enum { NAME = 1, NOTE };
    uint32_t u = unit_of(scene);
    struct bank bank = add_list(
        scene, (struct layer){.x = 28 * u, .y = 26 * u, .width = 300 * u, .height = 64 * u});
    set_colour(&bank, NAME, CREAM);
    set_colour(&bank, NOTE, AMBER);
    draw_text(&bank, 0, 0, scale_of(u) + 1, NAME, "A river at dusk");
    draw_text(&bank, 0, 40 * u, scale_of(u), NOTE, "Spoonbills, wading");
}

/* A pane of dark glass with a meter. */
static void add_gauge(struct scene *scene)
{
    enum { PANE, LINE, FIGURES, NOW };
    uint32_t u = unit_of(scene);
    struct bank bank = add_list(
        scene, (struct layer){.x = 28 * u, .y = 262 * u, .width = 196 * u, .height = 74 * u});
    set_colour(&bank, PANE, GLASS);
    set_colour(&bank, LINE, FOAM);
    set_colour(&bank, FIGURES, CREAM);
    set_colour(&bank, NOW, AMBER);
    draw_box(&bank, 0, 0, 196 * u, 74 * u, u, LINE);
    draw_text(&bank, 12 * u, 10 * u, scale_of(u), LINE, "Water level");
    draw_text(&bank, 12 * u, 24 * u, scale_of(u) + 1, FIGURES, "1.42 m");
    draw_box(&bank, 12 * u, 50 * u, 172 * u, 12 * u, 2 * u, LINE);
    draw_box(&bank, 16 * u, 54 * u, 104 * u, 4 * u, 0, NOW);
}

/* A card of its own alpha, from clear to opaque in 90 frames, of which 45 are over. */
static void add_card(struct scene *scene)
{
    enum { CARD, INK };
    uint32_t u = unit_of(scene);
    struct bank bank = add_list(
        scene, (struct layer){.x = 238 * u, .y = 300 * u, .width = 186 * u, .height = 36 * u,
                              .has_global_alpha = 1, .fade_start = scene->frame - 45,
                              .fade_length = 90, .fade_target = 255});
    set_colour(&bank, CARD, CREAM);
    set_colour(&bank, INK, NIGHT);
    draw_box(&bank, 0, 0, 186 * u, 36 * u, 2 * u, INK);
    draw_text(&bank, 13 * u, 8 * u, scale_of(u), INK, "Next: otters");
    draw_text(&bank, 13 * u, 20 * u, scale_of(u), INK, "at 6:40");
}

struct scene *museum(uint32_t width, uint32_t height)
{
    struct scene *scene = new_scene(width, height, 1, OPAQUE);
    add_title(scene);
    add_gauge(scene);
    add_card(scene);
    return sealed(scene);
}

/* ---- a full list */

/* A box and over it a string that is there already. */
static void draw_label(struct bank *bank, uint32_t x, uint32_t y, uint32_t width, uint32_t height,
                       uint32_t scale, uint32_t string)
{
    enum { BOX_COLOUR = 3, TEXT_COLOUR = 2 };
    uint8_t *to = bank->bytes + INSTRUCTION_LENGTH * bank->instructions++;
    put_word(to, (uint32_t)BOX_AND_TEXT << 28 | (x + width - 1) << 12 | x);
    put_word(to + 4, string);
    put_word(to + 8, scale << 30 | (y + height - 1) << 12 | y);
    put_word(to + 12, TEXT_COLOUR << 8 | BOX_COLOUR);
}

/* Instruction k in its place of six by eight: of six in a row one is text, two are boxes, the one
 * filled and the other an outline, and three are boxes with text. */
static void draw_live(struct bank *bank, uint32_t k, uint32_t width, uint32_t height)
{
    enum { COLUMNS = 6, ROWS = 8, SCALES = 4, TEXT_COLOUR = 1, BOX_COLOUR = 4 };
    uint32_t column = k % COLUMNS, row = k / COLUMNS;
    uint32_t x = column * width / COLUMNS, y = row * height / ROWS;
    uint32_t wide = width / 8, high = height / 12;
    if (column == 0)
        draw_text(bank, x, y, row % SCALES, TEXT_COLOUR, "The river rises with the evening");
    else if (column % 2 == 0)
        draw_box(bank, x, y, wide, high, 4 - column, BOX_COLOUR);
    else
        draw_label(bank, x, y, wide, high, (row + column / 2) % SCALES, row);
}

struct scene *list_of(uint32_t width, uint32_t height, int instructions)
{
    struct scene *scene = new_scene(width, height, 0, OPAQUE);
    struct bank bank = add_list(scene, (struct layer){.width = width, .height = height});
    set_colour(&bank, 1, CREAM);
    set_colour(&bank, 2, AMBER);
    set_colour(&bank, 3, GLASS);
    set_colour(&bank, 4, FOAM);
    for (int k = 0; k < instructions; k++)
        draw_live(&bank, (uint32_t)k, width, height);
    return sealed(scene);
}

struct scene *full_list(uint32_t width, uint32_t height)
{
    return list_of(width, height, INSTRUCTIONS);
}

/* ---- a small frame */

/* An outline on glass. */
static void add_outline(struct scene *scene)
{
    enum { PANE, LINE };
    struct bank bank = add_list(scene, (struct layer){.width = 8, .height = 4});
    set_colour(&bank, PANE, GLASS);
    set_colour(&bank, LINE, FOAM);
    draw_box(&bank, 0, 0, 8, 4, 1, LINE);
}

/* Its pictures are those of a smaller screen. */
struct scene *small_frame(void)
{
    static const uint32_t depth[MOST_LAYERS] = {5, 2, 7, 0, 4, 1, 6, 3};
    struct scene *scene = new_scene(4, 4, 4, RANDOM_ALPHA);
    scene->width = scene->height = 16;
    while (scene->layers < MOST_LAYERS)
        add_outline(scene);
    for (uint32_t n = 0; n < MOST_LAYERS; n++) {
        struct layer *layer = &scene->layer[n];
        layer->depth = depth[n];
        layer->x = 4 * (n % 3);
        layer->y = 3 * (n % 5);
    }
    return sealed(scene);
}
