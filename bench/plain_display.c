/* Written from document 01's "Registers", "Tables" and "Answers by number", and from K1, K2 and
 * K7. */
#include <string.h>

#include "plain_display.h"
#include "plain_words.h"

enum { UPDATE_ENABLE = 4 };

/* ---- registers */

uint32_t plain_write(struct plain_display *display, uint32_t register_number, uint32_t value)
{
    if (register_number >= REGISTERS)
        return SPOONWING_NO_REGISTER;
    display->pending[register_number] = value;
    return SPOONWING_DONE;
}

/* The value's bytes stand as a word's do, lowest first. */
uint32_t plain_write_run(struct plain_display *display, const uint8_t *run, size_t run_length,
                         size_t *done)
{
    uint32_t value;
    for (*done = 0; *done < run_length / WRITE_LENGTH; ++*done) {
        const uint8_t *item = run + WRITE_LENGTH * *done;
        memcpy(&value, item + 1, sizeof value);
        if (plain_write(display, item[0], value) != SPOONWING_DONE)
            return SPOONWING_NO_REGISTER;
    }
    return SPOONWING_DONE;
}

/* ---- the error word */

uint32_t plain_toggle(struct plain_display *display, uint32_t bits)
{
    display->errors ^= bits;
    return SPOONWING_DONE;
}

uint32_t plain_error_word(const struct plain_display *display)
{
    return display->errors;
}

/* ---- the check of a start */

static int has_reserved(const uint32_t *words)
{
    uint32_t reserved = 0;
    for (int i = 0; i < FIRST_LAYER; i++)
        reserved |= words[i] & ~FIRST_BITS[i];
    for (int i = FIRST_LAYER; i < REGISTERS; i++)
        reserved |= words[i] & ~LAYER_BITS[(i - FIRST_LAYER) % LAYER_WORDS];
    for (int n = 0; n < LAYERS; n++)
        reserved |= (uint32_t)is_both(words + layer_at(n));
    return reserved != 0;
}

/* 9 or 10 for one layer. */
static uint32_t layer_refusal(const uint32_t *layer, uint32_t screen)
{
    uint32_t corner = layer[2], size = layer[3];
    if (is_empty(size))
        return SPOONWING_EMPTY_LAYER;
    if (low_half(corner) + low_half(size) > low_half(screen) ||
        high_half(corner) + high_half(size) > high_half(screen))
        return SPOONWING_OFF_SCREEN;
    return SPOONWING_DONE;
}

static uint32_t check(const uint32_t *words)
{
    uint32_t depths = 0, same = 0;
    if (has_reserved(words))
        return SPOONWING_RESERVED_BIT;
    if (is_empty(words[1]))
        return SPOONWING_EMPTY_SCREEN;
    for (int n = 0; n < LAYERS; n++) {
        const uint32_t *layer = words + layer_at(n);
        uint32_t depth = UINT32_C(1) << depth_of(layer);
        if (!is_enabled(layer))
            continue;
        uint32_t answer = layer_refusal(layer, words[1]);
        if (answer != SPOONWING_DONE)
            return answer;
        same |= depths & depth;
        depths |= depth;
    }
    return same ? SPOONWING_SAME_DEPTH : SPOONWING_DONE;
}

uint32_t plain_start(struct plain_display *display)
{
    display->frame++;
    if (!(display->pending[0] & UPDATE_ENABLE))
        return SPOONWING_DONE;
    uint32_t answer = check(display->pending);
    if (answer == SPOONWING_DONE)
        memcpy(display->active, display->pending, sizeof display->active);
    return answer;
}

/* ---- tables */

uint32_t plain_select(struct plain_display *display, uint32_t selection)
{
    if (selection > 63)
        return SPOONWING_NO_SELECTION;
    display->is_selected = 1;
    display->selection = selection;
    display->place = 0;
    return SPOONWING_DONE;
}

/* Where in a bank its tables begin, and where the last ends, by the profile. */
static const uint32_t BEGIN[][KINDS + 1] = {
    {0, COLOURS_AT, STRINGS_AT, FONT_AT, BANK_LENGTH(1)},
    {0, COLOURS_AT, STRINGS_AT, FONT_AT, BANK_LENGTH(2)},
};

static uint32_t controller(const struct plain_display *d) { return d->selection >> 3 & 7; }
static uint32_t kind(const struct plain_display *d) { return d->selection >> 1 & 3; }
static uint32_t bank(const struct plain_display *d) { return d->selection & 1; }

static size_t tables_asked(const struct plain_display *display)
{
    return display->profile ? SPOONWING_SOFT_TABLES_LENGTH : SPOONWING_TABLES_LENGTH;
}

/* 6, 3 or 4. */
static uint32_t put_refusal(const struct plain_display *display, size_t length)
{
    if (length != tables_asked(display))
        return SPOONWING_BAD_TABLES_LENGTH;
    if (!display->is_selected)
        return SPOONWING_NOT_SELECTED;
    if ((display->active[3] >> (8 * kind(display) + controller(display)) & 1) == bank(display))
        return SPOONWING_BANK_ACTIVE;
    return SPOONWING_DONE;
}

/* How many bytes the selected table still takes. */
static size_t bytes_left(const struct plain_display *display)
{
    const uint32_t *begin = BEGIN[display->profile] + kind(display);
    uint32_t length = begin[1] - begin[0];
    return display->place < length ? length - display->place : 0;
}

/* The place of the next byte among the tables. */
static size_t next_byte(const struct plain_display *display)
{
    const uint32_t *begin = BEGIN[display->profile];
    return begin[KINDS] * (2 * controller(display) + bank(display)) + begin[kind(display)] +
           display->place;
}

static uint32_t full(struct plain_display *display)
{
    display->errors |= UINT32_C(1) << (4 * controller(display) + 1);
    return SPOONWING_BANK_FULL;
}

uint32_t plain_put(struct plain_display *display, uint8_t *tables, size_t length, uint8_t byte)
{
    uint32_t refusal = put_refusal(display, length);
    if (refusal != SPOONWING_DONE)
        return refusal;
    if (bytes_left(display) == 0)
        return full(display);
    tables[next_byte(display)] = byte;
    display->place++;
    return SPOONWING_DONE;
}

uint32_t plain_put_run(struct plain_display *display, uint8_t *tables, size_t length,
                       const uint8_t *run, size_t run_length, size_t *done)
{
    uint32_t refusal = put_refusal(display, length);
    size_t left = bytes_left(display);
    *done = 0;
    if (run_length == 0)
        return SPOONWING_DONE;
    if (refusal != SPOONWING_DONE)
        return refusal;
    *done = run_length < left ? run_length : left;
    memcpy(tables + next_byte(display), run, *done);
    display->place += (uint32_t)*done;
    return *done == run_length ? SPOONWING_DONE : full(display);
}

/* ---- what painting refuses */

static size_t pixel_bytes(uint32_t size)
{
    return (size_t)PIXEL * low_half(size) * high_half(size);
}

/* 6, 14 or 18. A pixel has as many floats as bytes. */
static uint32_t lent_refusal(const struct plain_display *display, const struct lent *lent)
{
    size_t pictures = 0, floats = 0;
    if (lent->tables_length != tables_asked(display))
        return SPOONWING_BAD_TABLES_LENGTH;
    for (int n = 0; n < LAYERS; n++) {
        const uint32_t *layer = display->active + layer_at(n);
        size_t length = is_enabled(layer) && !is_graphics(layer) ? pixel_bytes(layer[3]) : 0;
        *(is_float(layer) ? &floats : &pictures) += length;
    }
    if (lent->pictures_length != pictures)
        return SPOONWING_BAD_PICTURES_LENGTH;
    return lent->floats_length == floats ? SPOONWING_DONE : SPOONWING_BAD_FLOATS_LENGTH;
}

uint32_t plain_refusal(const struct plain_display *display, uint32_t low, uint32_t high,
                       const struct lent *lent, size_t output_length)
{
    size_t output = pixel_bytes(display->active[1]);
    if (low > high || high > LAYERS)
        return SPOONWING_NO_BAND;
    if (output == 0)
        return SPOONWING_NO_SIZE;
    if (output_length != output)
        return SPOONWING_BAD_OUTPUT_LENGTH;
    return lent_refusal(display, lent);
}

uint32_t plain_line_refusal(const struct plain_display *display, uint32_t y,
                            const struct lent *lent, size_t output_length)
{
    uint32_t screen = display->active[1];
    if (is_empty(screen))
        return SPOONWING_NO_SIZE;
    if (y >= high_half(screen))
        return SPOONWING_NO_LINE;
    if (output_length != PIXEL * low_half(screen))
        return SPOONWING_BAD_OUTPUT_LENGTH;
    return lent_refusal(display, lent);
}
