/* The small frame for a display that a Rattle program keeps: a script of calls for `figures`, whose
 * records and lines crates/figures/src has. */
#ifndef SCRIPT_H
#define SCRIPT_H

/* A painting that a script may have, SMALL_FRAME, SMALL_LINE or SMALL_BAND, by its word; or -1. */
int script_work(const char *word);

/* Makes the display, and then so many paintings, each made so many times more. */
void print_script(int work, unsigned more, unsigned paintings);

/* The work's name in the tables, and, behind a tab, what the last line of `figures` has to begin
 * and to end with: letter and answer, and the output's checksum. The archive paints for it. */
void print_told(int work);

#endif
