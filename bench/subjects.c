/* The ratios wanted stand in the order of the painters; docs/SPEED.md has them as a table. */
#include "scenes.h"
#include "subjects.h"

const struct size SIZE[SIZES] = {{1920, 1080}, {640, 360}};

const struct painter *const PAINTER[PAINTERS] = {
    &SPOONWING, &PLAIN_C, &SDL2, &PIXMAN_STRAIGHT, &PIXMAN_PREMULTIPLIED, &FLOOR};

const struct subject SUBJECT[SUBJECTS] = {
    {"picture, random alpha", random_picture,
     {{0, 0.30, 0.22, 0.60, 0.85, 0}, {0, 0.30, 0.30, 0.60, 1.10, 0}}, 0, 0},
    {"picture, global alpha", one_alpha_picture,
     {{0, 0.25, 0.50, 0, 0.90, 0}, {0, 0.25, 0.50, 0, 0.90, 0}}, 0, 0},
    {"museum scene", museum,
     {{0, 0.12, 0.25, 0.40, 0.30, 0}, {0, 0.30, 0.40, 0.40, 1.00, 0}}, 2.00, 0},
    {"eight layers", eight_layers,
     {{0, 0.35, 0.35, 0.60, 1.00, 0}, {0, 0.35, 0.35, 0.60, 1.10, 0}}, 1.25, 16.6},
    {"stack of stretches", stretches, {{0}}, 0, 0},
    {"eight opaque", eight_opaque, {{0}}, 0, 0},
    {"48 live instructions", full_list, {{0, 0, 0, 0, 0.35, 0}}, 0, 0},
    {"picture, opaque", opaque_picture, {{0}}, 0, 0},
};

void each_subject(subject_work *work)
{
    for (int i = 0; i < SIZES * SUBJECTS; i++)
        work(&SUBJECT[i % SUBJECTS], &SIZE[i / SUBJECTS]);
}
