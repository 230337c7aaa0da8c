/* Cells of tables, and the count of those that miss what is wanted. */
#include <stdio.h>

#include "report.h"

static int missed;

/* The most that a number may be, where anything is wanted, and the end of its cell. */
static void print_wanted(double number, double wanted, int digits)
{
    int is_missed = wanted != 0 && number > wanted;
    if (wanted != 0)
        printf(" (%.*f)%s", digits, wanted, is_missed ? " missed" : "");
    printf(" |");
    missed += is_missed;
}

void print_cell(double number, double wanted)
{
    printf(" %.2f", number);
    print_wanted(number, wanted, 2);
}

void print_time(double seconds, double wanted)
{
    printf(" %.3f", 1000 * seconds);
    print_wanted(1000 * seconds, wanted, 1);
    printf("\n");
    fflush(stdout);
}

int misses(void)
{
    return missed;
}
