/* A C program that makes the calls of a display that it reads, one row after another. A step comes
 * as eighteen numbers of 32 bits, little-endian: what is done, two numbers for it, whether a buffer
 * of no bytes is passed as NULL, and for state, tables, pictures, floats, output, run and the place
 * of a run's count how many bytes are lent, and then how far past a multiple of 16 each begins, the
 * floats by a multiple of 4 and the count's place by 0 or 8. Of floats whole ones are lent.
 *
 * A call tells its answer, 1 or 0 for whether a byte beside a buffer or of an input was touched,
 * the state's bytes, how many bytes of the tables are others now with the place and the byte of
 * each, and the bytes of the output and of the count. So all bytes are told; the tables are long,
 * and few of them change. To store bytes in a buffer, and to begin a row with zeros in all of them,
 * tells nothing. */
#include <stdio.h>
#include <stdlib.h>
#include <string.h>

#include "lent.h"
#include "numbers.h"
#include "spoonwing.h"

enum { ROOM = 1 << 18 };
enum { STATE, TABLES, PICTURES, FLOATS, OUTPUT, RUN, COUNT, BUFFERS };
enum { DOOR, FIRST, SECOND, NULL_IF_EMPTY, LENGTHS, PAST = LENGTHS + BUFFERS,
       NUMBERS = PAST + BUFFERS };

enum { NEW, WRITE, SELECT, TOGGLE, START, PUT, FILL, PAINT, FRAME, LINE, PUT_RUN, WRITE_RUN,
       ERROR_WORD, FRAME_NUMBER, OUTPUT_WIDTH, OUTPUT_HEIGHT, STORE, BEGIN };

/* What each buffer's owner has, and where copies of it are lent, between guards. */
static uint8_t owned[BUFFERS][ROOM], space[BUFFERS][ROOM + BESIDE];

/* ---- numbers in and out */

static int read_numbers(uint32_t *numbers)
{
    uint8_t bytes[4 * NUMBERS];
    if (fread(bytes, 1, sizeof bytes, stdin) != sizeof bytes)
        return 0;
    for (int i = 0; i < NUMBERS; i++)
        numbers[i] = number(bytes + 4 * i);
    return 1;
}

static void store(uint32_t buffer, uint32_t length)
{
    if (buffer >= BUFFERS || length > ROOM || fread(owned[buffer], 1, length, stdin) != length)
        exit(2);
}

/* ---- what is lent */

static struct lent lend(int buffer, const uint32_t *numbers)
{
    size_t length = numbers[LENGTHS + buffer];
    if (length > ROOM || (buffer == FLOATS && length % sizeof(float) != 0))
        exit(2);
    struct lent lent = between_guards(space[buffer], length, numbers[PAST + buffer]);
    memcpy(lent.bytes, owned[buffer], length);
    return lent;
}

/* Whether a call only reads a buffer. */
static int is_input(uint32_t door, int buffer)
{
    return buffer == PICTURES || buffer == FLOATS || buffer == RUN ||
           (buffer == TABLES && door != PUT && door != PUT_RUN) ||
           (buffer == STATE && door >= ERROR_WORD);
}

static int is_touched(const struct lent *lent, int is_input, const uint8_t *before)
{
    return !is_guard(lent->bytes - GUARD) || !is_guard(lent->bytes + lent->length) ||
           (is_input && memcmp(lent->bytes, before, lent->length) != 0);
}

/* ---- calls */

static uint32_t call(const uint32_t *n, const struct lent *lent, uint8_t *const *at)
{
    uint8_t *state = at[STATE], *tables = at[TABLES], *pictures = at[PICTURES], *out = at[OUTPUT];
    size_t length = lent[STATE].length, tables_length = lent[TABLES].length;
    size_t pictures_length = lent[PICTURES].length, out_length = lent[OUTPUT].length;
    const float *floats = (const float *)at[FLOATS];
    size_t floats_length = lent[FLOATS].length / sizeof(float);
    size_t run_length = lent[RUN].length, *done = (size_t *)at[COUNT];
    switch (n[DOOR]) {
    case NEW: return spoonwing_display_new(state, length, n[FIRST]);
    case WRITE: return spoonwing_display_write(state, length, n[FIRST], n[SECOND]);
    case SELECT: return spoonwing_display_select(state, length, n[FIRST]);
    case TOGGLE: return spoonwing_display_toggle(state, length, n[FIRST]);
    case START: return spoonwing_display_start(state, length);
    case PUT:
        return spoonwing_display_put(state, length, tables, tables_length, (uint8_t)n[FIRST]);
    case FILL: return spoonwing_display_fill(state, length, out, out_length);
    case PAINT:
        return spoonwing_display_paint(state, length, n[FIRST], n[SECOND], tables, tables_length,
                                       pictures, pictures_length, floats, floats_length, out,
                                       out_length);
    case FRAME:
        return spoonwing_display_frame(state, length, tables, tables_length, pictures,
                                       pictures_length, floats, floats_length, out, out_length);
    case LINE:
        return spoonwing_display_line(state, length, n[FIRST], tables, tables_length, pictures,
                                      pictures_length, floats, floats_length, out, out_length);
    case PUT_RUN:
        return spoonwing_display_put_run(state, length, tables, tables_length, at[RUN], run_length,
                                         done);
    case WRITE_RUN: return spoonwing_display_write_run(state, length, at[RUN], run_length, done);
    case ERROR_WORD: return spoonwing_display_error_word(state, length);
    case FRAME_NUMBER: return spoonwing_display_frame_number(state, length);
    case OUTPUT_WIDTH: return spoonwing_display_output_width(state, length);
    case OUTPUT_HEIGHT: return spoonwing_display_output_height(state, length);
    default: exit(2);
    }
}

/* Most calls leave all bytes, which is soon seen. */
static void tell_changes(const struct lent *lent, const uint8_t *before)
{
    uint32_t changes = 0;
    int is_same = lent->length == 0 || memcmp(lent->bytes, before, lent->length) == 0;
    for (size_t i = 0; !is_same && i < lent->length; i++)
        changes += lent->bytes[i] != before[i];
    tell_number(changes);
    for (size_t i = 0; changes > 0; i++)
        if (lent->bytes[i] != before[i]) {
            tell_number((uint32_t)i);
            tell_number(lent->bytes[i]);
            changes--;
        }
}

static void do_call(const uint32_t *numbers)
{
    struct lent lent[BUFFERS];
    uint8_t *at[BUFFERS];
    /* No run is so long: a count that a call does not write is seen. */
    memset(owned[COUNT], GUARD_BYTE, sizeof(size_t));
    for (int i = 0; i < BUFFERS; i++) {
        lent[i] = lend(i, numbers);
        at[i] = numbers[NULL_IF_EMPTY] && lent[i].length == 0 ? NULL : lent[i].bytes;
    }
    uint32_t answer = call(numbers, lent, at), touched = 0;
    for (int i = 0; i < BUFFERS; i++)
        touched |= (uint32_t)is_touched(&lent[i], is_input(numbers[DOOR], i), owned[i]);
    tell_number(answer);
    tell_number(touched);
    fwrite(lent[STATE].bytes, 1, lent[STATE].length, stdout);
    tell_changes(&lent[TABLES], owned[TABLES]);
    fwrite(lent[OUTPUT].bytes, 1, lent[OUTPUT].length, stdout);
    fwrite(lent[COUNT].bytes, 1, lent[COUNT].length, stdout);
    fflush(stdout);
    for (int i = 0; i < BUFFERS; i++)
        memcpy(owned[i], lent[i].bytes, lent[i].length);
}

int main(void)
{
    uint32_t numbers[NUMBERS];
    while (read_numbers(numbers)) {
        if (numbers[DOOR] == STORE)
            store(numbers[FIRST], numbers[SECOND]);
        else if (numbers[DOOR] == BEGIN)
            memset(owned, 0, sizeof owned);
        else
            do_call(numbers);
    }
    return 0;
}
