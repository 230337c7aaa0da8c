/* The tables of calls: what a call of a kept display costs beside a plain C struct that does the
 * same, and a load by one run beside the other ways. All take turns, and all have to leave the same
 * bytes. */
#include <stdio.h>
#include <stdlib.h>
#include <string.h>

#include "kept.h"
#include "loads.h"
#include "report.h"
#include "run.h"

static const double SECONDS = 1;

/* A work of one side, or a load in one way, as what takes turns. */
struct job {
    doing *doing;
    struct kept *kept;
    int what, how;
};

static void do_job(const struct scene *scene, uint8_t *output, void *prepared)
{
    const struct job *job = prepared;
    (void)scene, (void)output;
    job->doing(job->kept, job->what, job->how);
}

static const struct painter AT_WORK = {.name = "calls", .paint = do_job};

static struct run run_of(struct job *job)
{
    return (struct run){.painter = &AT_WORK, .prepared = job};
}

/* ---- bytes */

static void check(int is_right, const char *name)
{
    if (is_right)
        return;
    fprintf(stderr, "bench: %s leaves other bytes than it should\n", name);
    exit(1);
}

/* What is refused on both sides would leave the output as it was. */
static void check_work(int work)
{
    struct kept *kept = new_kept(work);
    int paints = work == SMALL_FRAME || work == SMALL_LINE;
    do_work(kept, work, PROVED);
    do_work(kept, work, PLAIN);
    check(is_alike(kept) && paints == (kept->output[PIXEL - 1] == 255), WORK_NAME[work]);
    drop_kept(kept);
}

/* Two ways of a load, one of the archive and one of the struct, on a display of their own. What is
 * refused on both would leave the struct as it was. */
static void check_load(int load, int way, int plain_way)
{
    struct kept *kept = new_kept(PUT);
    struct plain_display before = kept->plain;
    do_load(kept, load, way);
    do_load(kept, load, plain_way);
    check(is_alike(kept) && memcmp(&before, &kept->plain, sizeof before) != 0, LOAD_NAME[load]);
    drop_kept(kept);
}

void check_calls(void)
{
    for (int i = 0; i < WORKS; i++)
        check_work(i);
    for (int i = 0; i < LOADS; i++) {
        check_load(i, BY_RUN, IN_PLACE);
        check_load(i, BY_CALLS, COPIED);
        check_load(i, BY_RUN, BY_MEMCPY);
    }
    printf("A kept display's calls and loads leave the bytes that the plain struct has.\n\n");
}

/* ---- calls */

static void print_call(int work)
{
    struct kept *kept = new_kept(work);
    struct job jobs[SIDES] = {{do_work, kept, work, PROVED}, {do_work, kept, work, PLAIN}};
    struct run runs[SIDES] = {run_of(&jobs[PROVED]), run_of(&jobs[PLAIN])};
    take_turns(runs, SIDES, SECONDS);
    printf("| %s |", WORK_NAME[work]);
    print_cell(runs[PROVED].least / runs[PLAIN].least, 0);
    printf(" %.1f |\n", 1e9 * runs[PROVED].least / CALLS);
    fflush(stdout);
    drop_kept(kept);
}

/* ---- loads */

/* The time of a run to that of each other way, which may be hundreds of times as long. */
static void print_ways(const struct run *runs)
{
    for (int way = BY_RUN + 1; way < WAYS; way++)
        printf(" %.3g |", runs[BY_RUN].least / runs[way].least);
    printf(" %.1f |\n", 1e9 * runs[BY_RUN].least / TIMES);
    fflush(stdout);
}

static void print_load(int load)
{
    struct kept *kept = new_kept(PUT);
    struct job jobs[WAYS];
    struct run runs[WAYS];
    for (int way = 0; way < WAYS; way++) {
        jobs[way] = (struct job){do_load, kept, load, way};
        runs[way] = run_of(&jobs[way]);
    }
    take_turns(runs, WAYS, SECONDS);
    printf("| %s |", LOAD_NAME[load]);
    print_ways(runs);
    drop_kept(kept);
}

/* ---- the tables */

void print_calls(void)
{
    printf("The time of a call of a kept display as a multiple of a plain C struct's, the least\n"
           "of many turns of %d calls each.\n\n"
           "| Call | to a plain struct | ns |\n|---|---|---|\n", CALLS);
    for (int i = 0; i < WORKS; i++)
        print_call(i);
    printf("\n");
}

void print_loads(void)
{
    printf("The time of a load by one run as a multiple of the same load's in other ways, the\n"
           "least of many turns of %d loads each.\n\n"
           "| Load by one run | to single calls | to plain C in place |"
           " to plain C on a copied state | to memcpy alone | ns |\n"
           "|---|---|---|---|---|---|\n", TIMES);
    for (int i = 0; i < LOADS; i++)
        print_load(i);
    printf("\n");
}
