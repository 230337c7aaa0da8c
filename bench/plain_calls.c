/* The struct's side: the same calls on a plain C struct, compiled apart as the archive's are. */
#include "plain_display.h"

static void write(struct kept *kept)
{
    for (uint32_t i = 0; i < CALLS; i++)
        plain_write(&kept->plain, i % REGISTERS, i);
}

static void select(struct kept *kept)
{
    for (uint32_t i = 0; i < CALLS; i++)
        plain_select(&kept->plain, i % SELECTIONS);
}

static void toggle(struct kept *kept)
{
    for (uint32_t i = 0; i < CALLS; i++)
        plain_toggle(&kept->plain, i);
}

static void read(struct kept *kept)
{
    for (int i = 0; i < CALLS; i++)
        kept->plain_read += plain_error_word(&kept->plain);
}

static void start(struct kept *kept)
{
    for (int i = 0; i < CALLS; i++)
        plain_start(&kept->plain);
}

static void put(struct kept *kept)
{
    plain_select(&kept->plain, kept->plain.selection);
    for (int i = 0; i < CALLS; i++)
        plain_put(&kept->plain, kept->plain_tables, SPOONWING_TABLES_LENGTH, (uint8_t)i);
}

/* ---- painting */

static struct lent lent_of(const struct kept *kept)
{
    const struct scene *scene = kept->scene;
    return (struct lent){.tables = kept->plain_tables,
                         .tables_length = tables_length(scene),
                         .pictures = scene->pictures,
                         .pictures_length = scene->pictures_length,
                         .indexes = kept->plain_indexes};
}

static void paint_nothing(struct kept *kept)
{
    struct lent lent = lent_of(kept);
    for (int i = 0; i < CALLS; i++)
        plain_refusal(&kept->plain, 4, 4, &lent, frame_length(kept->scene));
}

static void paint_frame(struct kept *kept)
{
    struct lent lent = lent_of(kept);
    for (int i = 0; i < CALLS; i++)
        plain_frame(&kept->plain, &lent, kept->plain_output, frame_length(kept->scene));
}

static void paint_line(struct kept *kept)
{
    struct lent lent = lent_of(kept);
    size_t length = (size_t)PIXEL * kept->scene->width;
    for (uint32_t i = 0; i < CALLS; i++) {
        uint32_t y = i % kept->scene->height;
        plain_line(&kept->plain, y, &lent, kept->plain_output + length * y, length);
    }
}

work *const PLAIN_WORK[WORKS] = WORK_FUNCTIONS;
