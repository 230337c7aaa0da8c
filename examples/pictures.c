/* Waves are parabolas in place of sines, and shapes are thick curves stamped at four times the
 * size and then averaged: both need whole numbers only. */
#include <stdlib.h>

#include "bird.h"
#include "pictures.h"

struct colour {
    int red, green, blue;
};

/* ---- numbers */

/* n, or the nearer of 0 and most where it lies outside. */
static int clamp(int n, int most)
{
    return n < 0 ? 0 : n > most ? most : n;
}

/* From -256 to 256 and back once in every 1024 steps. */
static int wave(int t)
{
    int half = t & 511;
    int height = half * (512 - half) / 256;
    return t & 512 ? -height : height;
}

/* a where part is 0, b where it is 256. */
static int between(int a, int b, int part)
{
    return a + (b - a) * part / 256;
}

static struct colour mixed(struct colour a, struct colour b, int part)
{
    part = clamp(part, 256);
    return (struct colour){between(a.red, b.red, part), between(a.green, b.green, part),
                           between(a.blue, b.blue, part)};
}

static void set_pixel(uint8_t *pixel, struct colour c, int alpha)
{
    pixel[0] = (uint8_t)clamp(c.red, 255);
    pixel[1] = (uint8_t)clamp(c.green, 255);
    pixel[2] = (uint8_t)clamp(c.blue, 255);
    pixel[3] = (uint8_t)clamp(alpha, 255);
}

/* The whole number at or below the root of n, by Newton's steps. */
static int root(int n)
{
    int r = n > 1 ? n / 2 : n;
    while (r > 1 && n / r < r)
        r = (r + n / r) / 2;
    return r;
}

/* ---- the sky */

enum { SUN_X = 330, SUN_Y = 148, SUN_RADIUS = 30, GLOW = 330 };

/* The far bank's upper edge, in sixteenths of a pixel. */
static int bank_top(int x)
{
    int hills = wave(x * 3 + 100) + wave(x * 7 + 640) / 2 + wave(x * 19) / 6;
    return (SKY_HEIGHT - 11) * 16 - hills / 3;
}

static void sky_pixel(uint8_t *pixel, int x, int y)
{
    const struct colour rose = {226, 112, 98}, amber = {255, 190, 118}, white = {255, 240, 206};
    const struct colour far_bank = {34, 62, 80};
    int dx = x - SUN_X, dy = y - SUN_Y;
    int away = root((dx * dx / 3 + dy * dy) * 16) / 4;
    int near = clamp(256 - away * 256 / GLOW, 256);
    int glow = near * near / 256;
    int alpha = clamp(glow + y * y * 90 / (SKY_HEIGHT * SKY_HEIGHT), 255);
    int sun = clamp(SUN_RADIUS * 16 + 8 - root((dx * dx + dy * dy) * 256), 16) * 16;
    int bank = clamp(y * 16 + 16 - bank_top(x), 16) * 16;
    struct colour c = mixed(mixed(rose, amber, glow * 5 / 4), white, sun);
    alpha = between(between(alpha, 255, sun), 255, bank);
    set_pixel(pixel, mixed(c, far_bank, bank), alpha);
}

void paint_sky(uint8_t *pixels)
{
    for (int i = 0; i < SKY_WIDTH * SKY_HEIGHT; i++)
        sky_pixel(pixels + PIXEL * i, i % SKY_WIDTH, i / SKY_WIDTH);
}

/* ---- the water */

/* How far the water tilts at a place, from -256 to 256. Crests lie closer with distance: their
 * places go by the root of y, and what runs across them by 1 / y. */
static int tilt(int x, int y)
{
    int away = root((y + 4) * 4096) * 22;
    int across = (x - SUN_X) * 560 / (y + 40);
    int bend = wave(across * 2 / 3 + away / 10) + wave(across / 4 + 200);
    int slow = wave(away / 3 + bend * 2 / 3 + across / 6);
    int cross = wave(away * 5 / 8 - bend / 2 - across / 5 + 300);
    int quick = wave(away + bend + across * 2);
    return (slow * 3 + cross * 3 + quick * 2) / 8;
}

static void water_pixel(uint8_t *pixel, int x, int y)
{
    const struct colour far = {206, 132, 108}, middle = {44, 132, 142}, deep = {8, 52, 70};
    const struct colour gleam = {255, 212, 146}, light = {104, 196, 190};
    int t = tilt(x, y);
    int wash = t * (y + 6) / (y + 30) * 3 / 8;
    struct colour c = y < 64 ? mixed(far, middle, y * 256 / 64)
                             : mixed(middle, deep, (y - 64) * 256 / (WATER_HEIGHT - 64));
    c = wash > 0 ? mixed(c, light, wash) : mixed(c, deep, -wash);
    int aside = abs(x - SUN_X) * 256 / (36 + y / 3);
    int shine = clamp((t - aside + 110) * 3, 256);
    set_pixel(pixel, mixed(c, gleam, shine * (WATER_HEIGHT + 30 - y) / (WATER_HEIGHT + 30)), 255);
}

void paint_water(uint8_t *pixels)
{
    for (int i = 0; i < WATER_WIDTH * WATER_HEIGHT; i++)
        water_pixel(pixels + PIXEL * i, i % WATER_WIDTH, i / WATER_WIDTH);
}

/* ---- the bird and the reeds */

/* Strokes are stamped at four times the size, in a grid of inks, and then averaged. */
enum { FINE = 4, GRID_WIDTH = FINE * BIRD_WIDTH, GRID_HEIGHT = FINE * BIRD_HEIGHT, STEPS = 200 };

static uint8_t grid[GRID_WIDTH * GRID_HEIGHT];

/* A number on the way from the first of three to the last. */
static int bent(const int p[3], int step)
{
    int rest = STEPS - step;
    return (p[0] * rest * rest + 2 * p[1] * rest * step + p[2] * step * step) / (STEPS * STEPS);
}

static void stamp(int x, int y, int radius, int ink)
{
    int side = 2 * radius + 1;
    for (int i = 0; i < side * side; i++) {
        int u = i % side - radius, v = i / side - radius;
        int is_inside = x + u >= 0 && x + u < GRID_WIDTH && y + v >= 0 && y + v < GRID_HEIGHT;
        if (u * u + v * v <= radius * radius && is_inside)
            grid[(y + v) * GRID_WIDTH + x + u] = (uint8_t)ink;
    }
}

static void draw(const struct stroke *s)
{
    for (int step = 0; step <= STEPS; step++)
        stamp(bent(s->x, step), bent(s->y, step), bent(s->radius, step), s->ink);
}

static void draw_all(void)
{
    for (size_t i = 0; i < sizeof STROKES / sizeof STROKES[0]; i++)
        draw(&STROKES[i]);
}

/* The mean of a pixel's sixteen samples, each counted by its alpha. */
static void average(uint8_t *pixel, int x, int y)
{
    struct colour sum = {0, 0, 0};
    int alpha = 0;
    for (int i = 0; i < FINE * FINE; i++) {
        const uint8_t *ink = INK[grid[(FINE * y + i / FINE) * GRID_WIDTH + FINE * x + i % FINE]];
        sum.red += ink[0] * ink[3];
        sum.green += ink[1] * ink[3];
        sum.blue += ink[2] * ink[3];
        alpha += ink[3];
    }
    if (alpha > 0)
        sum = (struct colour){sum.red / alpha, sum.green / alpha, sum.blue / alpha};
    set_pixel(pixel, sum, alpha / (FINE * FINE));
}

static void average_all(uint8_t *pixels)
{
    for (int i = 0; i < BIRD_WIDTH * BIRD_HEIGHT; i++)
        average(pixels + PIXEL * i, i % BIRD_WIDTH, i / BIRD_WIDTH);
}

/* Below its feet the water gives the bird back, shorter, shaken by the waves and fainter with each
 * row. What is drawn there stays. */
static void reflect(uint8_t *pixels, int x, int y)
{
    const struct colour water = {60, 136, 144};
    int below = y - FEET;
    int shake = wave(below * 90 + wave(below * 23)) * (2 + below / 16) / 256;
    int from_x = clamp(x + shake, REEDS), from_y = clamp(FEET - below * 3 / 2, FEET);
    const uint8_t *from = pixels + PIXEL * (from_y * BIRD_WIDTH + from_x);
    uint8_t *pixel = pixels + PIXEL * (y * BIRD_WIDTH + x);
    struct colour c = {from[0], from[1], from[2]};
    if (pixel[3] == 0 && x < REEDS)
        set_pixel(pixel, mixed(c, water, 90), from[3] * clamp(160 - below * 5 / 4, 255) / 256);
}

static void reflect_all(uint8_t *pixels)
{
    for (int i = (FEET + 1) * BIRD_WIDTH; i < BIRD_WIDTH * BIRD_HEIGHT; i++)
        reflect(pixels, i % BIRD_WIDTH, i / BIRD_WIDTH);
}

void paint_bird(uint8_t *pixels)
{
    draw_all();
    average_all(pixels);
    reflect_all(pixels);
}
