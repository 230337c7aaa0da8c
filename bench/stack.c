/* A painting on a stack of its own, filled with a pattern before: what is left of the pattern below
 * was not reached. */
#define _XOPEN_SOURCE 600
#include <stdio.h>
#include <stdlib.h>
#include <string.h>
#include <ucontext.h>

#include "floats.h"
#include "parts.h"
#include "report.h"
#include "run.h"
#include "subjects.h"
#include "text.h"

enum { STACK_LENGTH = 1 << 20, PATTERN = 0xA5, FRAME_WANTED = 64, LINE_WANTED = 32 };

static ucontext_t painting, back;
static struct run painted;

static void paint(void)
{
    painted.painter->paint(painted.scene, painted.output, painted.prepared);
}

static size_t untouched(const uint8_t *stack)
{
    size_t i = 0;
    while (i < STACK_LENGTH && stack[i] == PATTERN)
        i++;
    return i;
}

/* The bytes of stack that the painting takes. */
static size_t stack_used(uint8_t *stack)
{
    memset(stack, PATTERN, STACK_LENGTH);
    if (getcontext(&painting) != 0)
        return STACK_LENGTH;
    painting.uc_stack.ss_sp = stack;
    painting.uc_stack.ss_size = STACK_LENGTH;
    painting.uc_link = &back;
    makecontext(&painting, paint, 0);
    if (swapcontext(&back, &painting) != 0)
        return STACK_LENGTH;
    return STACK_LENGTH - untouched(stack);
}

/* The greater of two depths: the one so far, and that of painting a scene, which is dropped. */
static size_t deeper(size_t most, const struct painter *painter, struct scene *scene,
                     uint8_t *stack)
{
    painted = new_run(painter, scene, room(frame_length(scene)));
    size_t used = stack_used(stack);
    drop_run(&painted);
    free(painted.output);
    drop_scene(scene);
    return used > most ? used : most;
}

/* How deep a painter reaches at the most, as a cell. spoonwing_frame takes no floats. */
static void print_deepest(const struct painter *painter, double wanted)
{
    uint8_t *stack = room(STACK_LENGTH);
    size_t most = 0;
    for (int i = 0; i < SUBJECTS; i++)
        most = deeper(most, painter, SUBJECT[i].make(SIZE[0].width, SIZE[0].height), stack);
    most = deeper(most, painter, text_scene(&TEXT_RUN[TWO_BITS], SCALE_1, &SIZE[0]), stack);
    for (int i = 0; i < FLOAT_LOOKS && painter != &SPOONWING; i++)
        most = deeper(most, painter, float_scene(&FLOAT_RUN[FLOATS], FLOAT_LOOK[i].look, &SIZE[0]),
                      stack);
    free(stack);
    print_cell((double)most / 1024, wanted);
}

void print_stack(void)
{
    printf("Stack in KiB that the deepest painting takes; in brackets the most that is wanted.\n\n"
           "| spoonwing_frame | spoonwing_display_frame | spoonwing_display_line |\n"
           "|---|---|---|\n|");
    print_deepest(&SPOONWING, FRAME_WANTED);
    print_deepest(&BY_FRAME, FRAME_WANTED);
    print_deepest(&BY_LINES, LINE_WANTED);
    printf("\n\n");
}
