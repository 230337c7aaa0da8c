/* The tables that the bench prints. */
#ifndef REPORT_H
#define REPORT_H

/* Compares each painter's bytes with the formula's, and ends the program where they are wrong. */
void print_bytes(void);

/* How deep spoonwing_frame, spoonwing_display_frame and spoonwing_display_line reach into the
 * stack. */
void print_stack(void);

/* spoonwing_frame's time as a part of each other painter's. */
void print_ratios(void);

/* What doubling the pixels, the layers or the instructions costs, of float pictures too. */
void print_growth(void);

/* Compares text of one bit a glyph pixel and of two with the formula's, likewise. */
void check_text(void);

/* The time of text of two bits as a multiple of that of one. */
void print_text(void);

/* Compares float pictures, whole, by bands and by lines, with the formula's of the same bytes, likewise. */
void check_floats(void);

/* The time of a float picture as a part of plain C's and as a multiple of the same in bytes. */
void print_floats(void);

/* Compares each line of a kept display with the frame's, and the frame by bands, likewise. */
void check_parts(void);

/* The time of a frame by lines, and by bands, as a multiple of the whole frame's. */
void print_parts(void);

/* Compares what a kept display's calls and loads leave with a plain struct's, likewise. */
void check_calls(void);

/* The time of a kept display's calls as a multiple of a plain struct's. */
void print_calls(void);

/* The time of a load by one run as a multiple of other ways'. */
void print_loads(void);

/* Compares what spoonwing_mend leaves of an image, and its list, with plain C's, likewise. */
void check_mending(void);

/* The time of spoonwing_mend as a multiple of plain C's. */
void print_mending(void);

/* Paints and calls for an emulator that logs what is executed. Among the log stand a line for each
 * row, its table, its name, for ratios, floats and bands its pixels, for text the most that is wanted,
 * and for lines, calls, loads and mending their number, with tabs between, and around each painting,
 * each side's calls or mendings and each way's loads of the row the lines "begin" and "end". */
void paint_counted(void);

/* A cell with a number and, where one is wanted, the most that it may be. */
void print_cell(double number, double wanted);

/* The last cell of a row, with a time in milliseconds, likewise. */
void print_time(double seconds, double wanted);

/* How many numbers so far were more than wanted. */
int misses(void);

#endif
