/* The table of growth: what each doubling costs spoonwing_frame, or a kept display where pictures
 * are floats. */
#include <stdio.h>

#include "growth.h"
#include "parts.h"
#include "report.h"
#include "run.h"
#include "scenes.h"

static const double SECONDS = 3, WANTED = 2.2;

static struct scene *more_pixels(int step, uint32_t divisor)
{
    return random_picture((step < 1 ? 640 : 1280) / divisor, (step < 2 ? 360 : 720) / divisor);
}

static struct scene *more_layers(int step, uint32_t divisor)
{
    return stack_of(1280 / divisor, 720 / divisor, 1 << step);
}

static struct scene *more_instructions(int step, uint32_t divisor)
{
    return list_of(1920 / divisor, 1080 / divisor, 12 << step);
}

static struct scene *more_float_pixels(int step, uint32_t divisor)
{
    return float_stack_of((step < 1 ? 640 : 1280) / divisor, (step < 2 ? 360 : 720) / divisor, 1);
}

static struct scene *more_float_layers(int step, uint32_t divisor)
{
    return float_stack_of(1280 / divisor, 720 / divisor, 1 << step);
}

const struct growth GROWTH[GROWTHS] = {
    {"pixels", "640 x 360, 1280 x 360, 1280 x 720", &SPOONWING, 3, more_pixels},
    {"layers", "1, 2, 4, 8 at 1280 x 720", &SPOONWING, 4, more_layers},
    {"instructions", "12, 24, 48 at 1920 x 1080", &SPOONWING, 3, more_instructions},
    {"float pixels", "640 x 360, 1280 x 360, 1280 x 720", &BY_FRAME, 3, more_float_pixels},
    {"float layers", "1, 2, 4, 8 at 1280 x 720", &BY_FRAME, 4, more_float_layers},
};

static void time_steps(const struct growth *growth, struct run *runs)
{
    struct scene *scenes[MOST_STEPS];
    for (int i = 0; i < growth->steps; i++) {
        scenes[i] = growth->make(i, 1);
        runs[i] = new_run(growth->painter, scenes[i], room(frame_length(scenes[i])));
    }
    take_own_turns(runs, scenes, growth->steps, SECONDS);
}

static void print_row(const struct growth *growth)
{
    struct run runs[MOST_STEPS];
    time_steps(growth, runs);
    printf("| %s: %s |", growth->what, growth->sizes);
    for (int i = 1; i < growth->steps; i++)
        print_cell(runs[i].least / runs[i - 1].least, WANTED);
    printf("%s\n", growth->steps < MOST_STEPS ? " |" : "");
    fflush(stdout);
}

void print_growth(void)
{
    printf("What each doubling costs spoonwing_frame, and of float pictures\n"
           "spoonwing_display_frame, as a multiple of the time before it.\n\n"
           "| Doubled | once | twice | three times |\n|---|---|---|---|\n");
    for (int i = 0; i < GROWTHS; i++)
        print_row(&GROWTH[i]);
    printf("\n");
}
