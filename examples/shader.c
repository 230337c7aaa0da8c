/* Sums, differences, products, quotients and comparisons only, each result a float of its own:
 * IEEE 754 lays their bits down, where a sine would have those of some library. */
#include <float.h>

#include "shader.h"

/* No result is kept wider than a float: a size below 0 does not compile. */
typedef char rounds_to_float[FLT_EVAL_METHOD == 0 ? 1 : -1];

/* A place on the table, from 0 to 1 each way, and how many turns its waves have made. */
struct place {
    float along, across, turns;
};

/* The water there: 1 deep in the middle of the stream, 0 at the shores and less on land; how light
 * and how bright its waves are; and how much mist lies over it. */
struct water {
    float depth, light, glint, mist;
};

/* ---- the waves */

/* From 0 to 1, to -1 and back to 0 in each turn, by two parabolas. The turns are 0 or more. */
static float wave(float turns)
{
    float part = turns - (float)(int)turns;
    float half = part < 0.5f ? part : part - 0.5f;
    float height = 16.0f * half * (0.5f - half);
    return part < 0.5f ? height : -height;
}

static float depth_at(const struct place *at)
{
    float way = 0.75f * at->along;
    float bend = 0.125f * wave(way + 0.125f);
    float away = (at->across - 0.5f - bend) / 0.3125f;
    float squared = away * away;
    return 1.0f - squared;
}

/* How the water tilts, from -1 to 1: long waves bend with the stream, short ones run aslant and
 * twice as fast. */
static float tilt_at(const struct place *at, float depth)
{
    float way = 2.0f * at->along, bend = 0.5f * depth;
    float aslant = 2.0f * at->along + at->across;
    float slow = 0.625f * wave(way + bend + 8.0f - at->turns);
    float quick = 0.375f * wave(2.0f * (aslant + 4.0f - at->turns));
    return slow + quick;
}

static struct water water_at(const struct place *at)
{
    float depth = depth_at(at), tilt = tilt_at(at, depth);
    float crest = tilt - 0.8125f;
    float glint = crest > 0.0f ? 8.0f * crest : 0.0f; /* brighter than white */
    return (struct water){depth, 0.25f * tilt, glint, 0.4375f * at->along};
}

/* ---- the colours */

/* A channel that loses so much from the shore to the middle. Deep in a trough red is below 0. */
static float channel(const struct water *water, float shallow, float loss)
{
    float lost = loss * water->depth;
    float lit = shallow - lost + water->light;
    float seen = (1.0f - water->mist) * lit;
    float grey = 0.75f * water->mist; /* by less than a byte's step from one pixel to the next */
    return seen + grey + water->glint;
}

static void shade(float *pixel, const struct place *at)
{
    struct water water = water_at(at);
    pixel[0] = channel(&water, 0.25f, 0.375f);
    pixel[1] = channel(&water, 0.5f, 0.1875f);
    pixel[2] = channel(&water, 0.5625f, 0.0625f);
    pixel[3] = 5.0f * water.depth;
}

void shade_river(float *pixels, uint32_t time)
{
    float turns = (float)(time % FLOW_STEPS) / (float)FLOW_STEPS;
    for (int i = 0; i < FLOW_WIDTH * FLOW_HEIGHT; i++) {
        float x = (float)(i % FLOW_WIDTH), y = (float)(i / FLOW_WIDTH);
        struct place at = {x / (float)FLOW_WIDTH, y / (float)FLOW_HEIGHT, turns};
        shade(pixels + PIXEL * i, &at);
    }
}
