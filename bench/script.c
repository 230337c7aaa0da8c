/* What is 0 is left out: so the display and its buffers begin. Of the tables the script has no
 * fonts, since the small frame has no text. */
#include <stdio.h>
#include <string.h>

#include "kept.h"
#include "script.h"

enum { WORD = 4, UPDATE_ENABLE = 4, NO_DEPTH = 4 };

/* What L lends. */
enum { PICTURES = 1, OUTPUT = 2 };

/* The output of `figures`, lent or not. */
enum { WHOLE_OUTPUT = 4112 };

static const struct painting {
    const char *word;
    int work;
    char letter;
} PAINTING[] = {{"frame", SMALL_FRAME, 'R'}, {"line", SMALL_LINE, 'Y'}, {"band", SMALL_BAND, 'B'}};

enum { PAINTINGS = sizeof PAINTING / sizeof *PAINTING };

int script_work(const char *word)
{
    for (int i = 0; i < PAINTINGS; i++)
        if (strcmp(PAINTING[i].word, word) == 0)
            return PAINTING[i].work;
    return -1;
}

static char letter_of(int work)
{
    return PAINTING[work - SMALL_FRAME].letter;
}

/* ---- the script */

static void print_record(char letter, size_t a, size_t b)
{
    printf("%c %08x %08x\n", letter, (unsigned)a, (unsigned)b);
}

/* Stores the words from a place of a buffer on. */
static void print_words(char letter, const uint8_t *buffer, size_t at, size_t length)
{
    for (size_t end = at + length; at < end; at += WORD)
        if (word_at(buffer + at) != 0)
            print_record(letter, at, word_at(buffer + at));
}

static void print_registers(const struct scene *scene)
{
    print_record('W', 0, word_at(scene->image) | UPDATE_ENABLE);
    for (size_t i = 1; i < REGISTERS; i++)
        if (word_at(scene->image + WORD * i) != 0)
            print_record('W', i, word_at(scene->image + WORD * i));
}

static void print_display(const struct scene *scene, size_t output_length)
{
    print_record('N', (size_t)scene->bits, 0);
    print_registers(scene);
    for (int n = 0; n < scene->layers; n++)
        print_words('Q', scene->tables, (size_t)(bank_of(scene, n) - scene->tables), STRINGS_AT);
    print_words('J', scene->pictures, 0, scene->pictures_length);
    print_record('L', PICTURES, scene->pictures_length);
    print_record('L', OUTPUT, output_length);
    print_record('G', 0, 0);
}

/* The numbers of a frame's record count for nothing. */
static void print_painting(int work, uint32_t y, size_t line)
{
    if (work == SMALL_LINE)
        print_record(letter_of(work), y, line * y);
    else
        print_record(letter_of(work), NO_DEPTH, NO_DEPTH);
}

void print_script(int work, unsigned more, unsigned paintings)
{
    struct kept *kept = new_kept(work);
    const struct scene *scene = kept->scene;
    size_t line = (size_t)PIXEL * scene->width;
    print_display(scene, work == SMALL_LINE ? line : frame_length(scene));
    print_record('H', more, 0);
    for (uint32_t i = 0; i < paintings; i++)
        print_painting(work, i % scene->height, line);
    drop_kept(kept);
}

/* ---- what is told */

/* FNV-1a. */
static uint32_t checksum(const uint8_t *bytes, size_t length)
{
    uint32_t sum = UINT32_C(2166136261);
    for (size_t i = 0; i < length; i++)
        sum = (sum ^ bytes[i]) * UINT32_C(16777619);
    return sum;
}

void print_told(int work)
{
    static uint8_t output[WHOLE_OUTPUT];
    struct kept *kept = new_kept(work);
    memset(kept->output, 0, frame_length(kept->scene));
    do_work(kept, work, PROVED);
    memcpy(output, kept->output, frame_length(kept->scene));
    printf("%s\t%c 00 %08x\n", WORK_NAME[work], letter_of(work),
           (unsigned)checksum(output, sizeof output));
    drop_kept(kept);
}
