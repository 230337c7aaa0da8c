/* The bench.
 *
 *     bench              everything
 *     bench --bytes      what needs no clock: the bytes and the stack
 *     bench --counted    paintings and calls for an emulator that counts instructions
 *
 * And for a display that a Rattle program keeps, with PAINTING one of frame, line and band:
 *
 *     bench --script PAINTING MORE PAINTINGS    the script that has it painted
 *     bench --told PAINTING                     its name, and what is told of it */
#include <stdio.h>
#include <stdlib.h>
#include <string.h>

#include "report.h"
#include "script.h"

static int is_option(int count, char **words, const char *name, int wanted)
{
    return count == wanted && strcmp(words[1], name) == 0;
}

static int print_usage(void)
{
    fprintf(stderr, "usage: bench [--bytes | --counted | --script PAINTING MORE PAINTINGS |"
                    " --told PAINTING]\n");
    return 2;
}

/* The options that name a painting. */
static int of_painting(int count, char **words)
{
    int work = count > 2 ? script_work(words[2]) : -1;
    if (work >= 0 && is_option(count, words, "--script", 5))
        print_script(work, (unsigned)atoi(words[3]), (unsigned)atoi(words[4]));
    else if (work >= 0 && is_option(count, words, "--told", 3))
        print_told(work);
    else
        return print_usage();
    return 0;
}

static void print_all(int is_timed)
{
    print_bytes();
    check_text();
    check_floats();
    check_parts();
    check_calls();
    check_mending();
    print_stack();
    if (is_timed) {
        print_ratios();
        print_growth();
        print_text();
        print_floats();
        print_parts();
        print_calls();
        print_loads();
        print_mending();
    }
    printf("Numbers that miss what is wanted: %d\n", misses());
}

int main(int count, char **words)
{
    if (is_option(count, words, "--counted", 2))
        paint_counted();
    else if (count == 1 || is_option(count, words, "--bytes", 2))
        print_all(count == 1);
    else
        return of_painting(count, words);
    return 0;
}
