/* The table of mending: what spoonwing_mend costs beside plain C that does the same. */
#include <stdio.h>
#include <stdlib.h>
#include <string.h>

#include "mending.h"
#include "plain_mend.h"
#include "plain_words.h"
#include "report.h"
#include "run.h"

static const double SECONDS = 1;

const char *const IMAGE_NAME[IMAGES] = {
    [PASSING] = "eight layers, nothing to mend",
    [BROKEN] = "eight layers, each mended, 43 words",
};

/* All words of the broken image change but those that have no reserved bit: the banks and the
 * frames at which the fades start. */
static const size_t CHANGES[IMAGES] = {[PASSING] = 0, [BROKEN] = 43};

/* ---- the images */

enum { WIDTH = 640, HEIGHT = 360 };

/* In the order of the steps. All are at depth 0, where one may stay. */
static const struct layer BROKEN_LAYER[LAYERS] = {
    {.is_graphics = 1, .x = 20, .y = 20, .width = 0, .height = 40},          /* switched off */
    {.is_float = 1, .x = 20, .y = 20, .width = 641, .height = 40},           /* switched off */
    {.is_graphics = 1, .x = 1, .y = 20, .width = 641, .height = 40},         /* cut */
    {.is_graphics = 1, .x = 20, .y = 1, .width = 40, .height = 361},         /* cut */
    {.is_graphics = 1, .x = 4095, .y = 4095, .width = 4095, .height = 4095}, /* cut both ways */
    {.x = 601, .y = 20, .width = 40, .height = 40},                          /* moved to the left */
    {.is_graphics = 1, .x = 20, .y = 321, .width = 40, .height = 40},        /* moved up */
    {.x = 4095, .y = 4095, .width = 640, .height = 360},                     /* moved both ways */
};

/* A layer that lies on the screen, at a depth of its own. */
static struct layer passing_layer(uint32_t n)
{
    return (struct layer){.is_graphics = n % 2, .depth = LAYERS - 1 - n, .x = 40 * n, .y = 20 * n,
                          .width = WIDTH / 2, .height = HEIGHT / 2};
}

static uint32_t reserved_bits(int i)
{
    return ~(i < FIRST_LAYER ? FIRST_BITS[i] : LAYER_BITS[(i - FIRST_LAYER) % LAYER_WORDS]);
}

/* With bit 2 of each layer that has bit 1. */
static void set_reserved(uint8_t *image)
{
    for (int i = 0; i < REGISTERS; i++) {
        uint8_t *word = image + 4 * i;
        put_word(word, word_at(word) | reserved_bits(i));
    }
    for (int n = 0; n < LAYERS; n++) {
        uint8_t *word = image + 4 * layer_at(n);
        put_word(word, word_at(word) | BROKEN_LAYER[n].is_graphics << 2);
    }
}

static void put_image(uint8_t *image, int which)
{
    static const uint8_t ground[3] = {30, 62, 88};
    memset(image, 0, SPOONWING_IMAGE_LENGTH);
    put_screen(image, WIDTH, HEIGHT, ground);
    for (int n = 0; n < LAYERS; n++) {
        struct layer layer = which == BROKEN ? BROKEN_LAYER[n] : passing_layer((uint32_t)n);
        put_layer(image, n, &layer);
    }
    if (which == BROKEN)
        set_reserved(image);
}

/* ---- both sides */

struct mending new_mending(int image, int side)
{
    static mend *const sides[SIDES] = {[PROVED] = spoonwing_mend, [PLAIN] = plain_mend};
    struct mending mending = {.mend = sides[side]};
    put_image(mending.came, image);
    memset(mending.list, 0xA5, sizeof mending.list);
    return mending;
}

void do_mending(struct mending *mending)
{
    for (int i = 0; i < MENDINGS; i++) {
        memcpy(mending->image, mending->came, sizeof mending->image);
        mending->answer = mending->mend(mending->image, sizeof mending->image, mending->list,
                                        &mending->count);
    }
}

/* ---- bytes */

static int is_same(const struct mending *a, const struct mending *b)
{
    return a->answer == b->answer && a->count == b->count &&
           memcmp(a->image, b->image, sizeof a->image) == 0 &&
           memcmp(a->list, b->list, sizeof a->list) == 0;
}

/* The list is compared whole, so that what stands past the changes is too. */
static void check_image(int image)
{
    struct mending proved = new_mending(image, PROVED), plain = new_mending(image, PLAIN);
    do_mending(&proved);
    do_mending(&plain);
    if (is_same(&proved, &plain) && proved.answer == SPOONWING_DONE &&
        proved.count == CHANGES[image])
        return;
    fprintf(stderr, "bench: %s: mended otherwise than it should be\n", IMAGE_NAME[image]);
    exit(1);
}

void check_mending(void)
{
    for (int i = 0; i < IMAGES; i++)
        check_image(i);
    printf("A register image is mended to the bytes and the list that plain C has.\n\n");
}

/* ---- times */

static void mend_in_turn(const struct scene *scene, uint8_t *output, void *prepared)
{
    (void)scene, (void)output;
    do_mending(prepared);
}

static const struct painter AT_WORK = {.name = "mending", .paint = mend_in_turn};

static void print_row(int image)
{
    struct mending mendings[SIDES] = {new_mending(image, PROVED), new_mending(image, PLAIN)};
    struct run runs[SIDES] = {{.painter = &AT_WORK, .prepared = &mendings[PROVED]},
                              {.painter = &AT_WORK, .prepared = &mendings[PLAIN]}};
    take_turns(runs, SIDES, SECONDS);
    printf("| %s |", IMAGE_NAME[image]);
    print_cell(runs[PROVED].least / runs[PLAIN].least, 0);
    printf(" %.1f |\n", 1e9 * runs[PROVED].least / MENDINGS);
    fflush(stdout);
}

void print_mending(void)
{
    printf("The time of spoonwing_mend on a register image as a multiple of plain C's, the least\n"
           "of many turns of %d mendings each, with a copy of the image before each.\n\n"
           "| Image | to plain C | ns |\n|---|---|---|\n", MENDINGS);
    for (int i = 0; i < IMAGES; i++)
        print_row(i);
    printf("\n");
}
