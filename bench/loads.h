/* Many bytes or words loaded into a kept display, each load in five ways. */
#ifndef LOADS_H
#define LOADS_H

#include "kept.h"

/* A font into its table, whose place is set back before, and all registers. */
enum { FONT_LOAD, REGISTER_LOAD, LOADS };

/* The archive's one run, and its single calls; a plain C struct's run in place, and one for which
 * the struct is copied in and out, as the archive does with the state's bytes; and those copies
 * with that of what is loaded, where nothing is asked. */
enum { BY_RUN, BY_CALLS, IN_PLACE, COPIED, BY_MEMCPY, WAYS };

/* So many loads are done in a row. */
enum { TIMES = 32 };

/* The load's name in the tables. */
extern const char *const LOAD_NAME[LOADS];

/* Does a load in one way, so many times. */
doing do_load;

#endif
