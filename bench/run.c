/* One clock for all. */
#define _XOPEN_SOURCE 700
#include <stdio.h>
#include <stdlib.h>
#include <string.h>
#include <time.h>

#include "run.h"

enum { FEWEST_ROUNDS = 5 };

struct run new_run(const struct painter *painter, const struct scene *scene, uint8_t *output)
{
    void *prepared = painter->prepare ? painter->prepare(scene, output) : NULL;
    return (struct run){painter, scene, output, prepared, 0};
}

void drop_run(struct run *run)
{
    if (run->painter->drop)
        run->painter->drop(run->prepared);
}

static void paint(const struct run *run)
{
    run->painter->paint(run->scene, run->output, run->prepared);
}

/* ---- bytes */

static uint32_t farthest(const uint8_t *a, const uint8_t *b, size_t length)
{
    uint32_t most = 0;
    for (size_t i = 0; i < length; i++) {
        uint32_t off = (uint32_t)abs(a[i] - b[i]);
        most = off > most ? off : most;
    }
    return most;
}

uint32_t checked(const struct run *run, const uint8_t *wanted)
{
    const struct scene *scene = run->scene;
    size_t length = frame_length(scene);
    memset(run->output, 0xA5, length);
    paint(run);
    uint32_t off = farthest(run->output, wanted, length);
    if (off > run->painter->tolerance * (uint32_t)scene->layers) {
        fprintf(stderr, "bench: %s is %u off the formula at %u x %u with %d layers\n",
                run->painter->name, (unsigned)off, (unsigned)scene->width,
                (unsigned)scene->height, scene->layers);
        exit(1);
    }
    return off;
}

/* ---- times */

static double now(void)
{
    struct timespec t;
    clock_gettime(CLOCK_MONOTONIC, &t);
    return (double)t.tv_sec + (double)t.tv_nsec / 1e9;
}

static void take_turn(struct run *run)
{
    double start = now();
    paint(run);
    double took = now() - start;
    if (run->least == 0 || took < run->least)
        run->least = took;
}

static void take_round(struct run *runs, int count, int first)
{
    for (int i = 0; i < count; i++)
        take_turn(&runs[(first + i) % count]);
}

void take_turns(struct run *runs, int count, double seconds)
{
    double end = now() + seconds;
    for (int round = 0; round < FEWEST_ROUNDS || now() < end; round++)
        take_round(runs, count, round % count);
}

void take_own_turns(struct run *runs, struct scene *const *scenes, int count, double seconds)
{
    take_turns(runs, count, seconds);
    for (int i = 0; i < count; i++) {
        drop_run(&runs[i]);
        free(runs[i].output);
        drop_scene(scenes[i]);
    }
}
