/* The loads, written out for each way. */
#include <string.h>

#include "loads.h"
#include "plain_display.h"

enum { PLACE_AT = 432, PLACE_LENGTH = 4 };

const char *const LOAD_NAME[LOADS] = {
    [FONT_LOAD] = "a font, 768 bytes",
    [REGISTER_LOAD] = "52 registers",
};

/* ---- a font */

static void font_by_run(struct kept *kept)
{
    size_t done;
    memset(kept->state + PLACE_AT, 0, PLACE_LENGTH);
    spoonwing_display_put_run(kept->state, sizeof kept->state, kept->scene->tables,
                              SPOONWING_TABLES_LENGTH, kept->font, sizeof kept->font, &done);
}

static void font_by_calls(struct kept *kept)
{
    memset(kept->state + PLACE_AT, 0, PLACE_LENGTH);
    for (size_t i = 0; i < sizeof kept->font; i++)
        spoonwing_display_put(kept->state, sizeof kept->state, kept->scene->tables,
                              SPOONWING_TABLES_LENGTH, kept->font[i]);
}

static void plain_font(struct plain_display *display, struct kept *kept)
{
    size_t done;
    display->place = 0;
    plain_put_run(display, kept->plain_tables, SPOONWING_TABLES_LENGTH, kept->font,
                  sizeof kept->font, &done);
}

static void font_in_place(struct kept *kept)
{
    plain_font(&kept->plain, kept);
}

static void font_copied(struct kept *kept)
{
    struct plain_display copy = kept->plain;
    plain_font(&copy, kept);
    kept->plain = copy;
}

static void font_by_memcpy(struct kept *kept)
{
    kept->spare = kept->plain;
    memcpy(kept->plain_tables + IDLE_FONT_AT, kept->font, sizeof kept->font);
    kept->spare.place = CALLS;
    kept->plain = kept->spare;
}

/* ---- registers */

static void registers_by_run(struct kept *kept)
{
    size_t done;
    spoonwing_display_write_run(kept->state, sizeof kept->state, kept->writes,
                                sizeof kept->writes, &done);
}

static void registers_by_calls(struct kept *kept)
{
    for (const uint8_t *at = kept->writes; at < kept->writes + sizeof kept->writes;
         at += WRITE_LENGTH)
        spoonwing_display_write(kept->state, sizeof kept->state, at[0], word_at(at + 1));
}

static void registers_in_place(struct kept *kept)
{
    size_t done;
    plain_write_run(&kept->plain, kept->writes, sizeof kept->writes, &done);
}

static void registers_copied(struct kept *kept)
{
    size_t done;
    struct plain_display copy = kept->plain;
    plain_write_run(&copy, kept->writes, sizeof kept->writes, &done);
    kept->plain = copy;
}

static void registers_by_memcpy(struct kept *kept)
{
    kept->spare = kept->plain;
    memcpy(kept->spare.pending, kept->font, sizeof kept->spare.pending);
    kept->plain = kept->spare;
}

/* ---- the ways */

static work *const WAY[LOADS][WAYS] = {
    [FONT_LOAD] = {font_by_run, font_by_calls, font_in_place, font_copied, font_by_memcpy},
    [REGISTER_LOAD] = {registers_by_run, registers_by_calls, registers_in_place, registers_copied,
                       registers_by_memcpy},
};

void do_load(struct kept *kept, int load, int way)
{
    for (int i = 0; i < TIMES; i++)
        WAY[load][way](kept);
}
