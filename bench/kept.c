/* Both sides begin with the registers of the museum scene or the small frame, pending and active,
 * with a font of its idle banks selected, and with one bit a glyph pixel, as the scene's tables
 * have. */
#include <stdlib.h>
#include <string.h>

#include "kept.h"
#include "scenes.h"

enum { DISPLAY_ON = 1, UPDATE_ENABLE = 4, ERRORS = 17 };

/* The struct is the state's 110 words: a size below 0 does not compile. */
typedef char same_length[sizeof(struct plain_display) == SPOONWING_STATE_LEN ? 1 : -1];

const char *const WORK_NAME[WORKS] = {
    [WRITE] = "write",
    [SELECT] = "select",
    [TOGGLE] = "toggle",
    [READ] = "read the error word",
    [START] = "start without update",
    [UPDATE] = "start with update",
    [PUT] = "put",
    [EMPTY_BAND] = "paint a band of no depth",
    [SMALL_FRAME] = "paint a small frame",
    [SMALL_LINE] = "paint a line of it",
    [SMALL_BAND] = "paint a band of no depth over it",
};

/* What runs load: bytes that differ, as a font and as an image. */
static void fill_runs(struct kept *kept)
{
    for (int i = 0; i < CALLS; i++)
        kept->font[i] = (uint8_t)i;
    put_writes(kept->writes, kept->font);
}

/* An output that nothing has painted: a painting sets each pixel's alpha to 255. */
static uint8_t *dirty_output(const struct scene *scene)
{
    uint8_t *output = room(frame_length(scene));
    memset(output, 0xA5, frame_length(scene));
    return output;
}

/* The struct's words stand in memory as the state's do, lowest byte first. */
struct kept *new_kept(int work)
{
    struct kept *kept = room(sizeof *kept);
    struct plain_display *plain = &kept->plain;
    memset(kept, 0, sizeof *kept);
    kept->scene = work < SMALL_FRAME ? museum(640, 360) : small_frame();
    memcpy(plain->pending, kept->scene->image, sizeof plain->pending);
    plain->pending[0] = DISPLAY_ON | (work == UPDATE ? UPDATE_ENABLE : 0);
    memcpy(plain->active, plain->pending, sizeof plain->active);
    plain->errors = ERRORS;
    plain->is_selected = 1;
    plain->selection = IDLE_FONT;
    memcpy(kept->state, plain, sizeof kept->state);
    kept->plain_tables = room(SPOONWING_TABLES_LENGTH);
    memcpy(kept->plain_tables, kept->scene->tables, SPOONWING_TABLES_LENGTH);
    kept->output = dirty_output(kept->scene);
    kept->plain_output = dirty_output(kept->scene);
    kept->plain_indexes = room((size_t)kept->scene->width * kept->scene->height);
    fill_runs(kept);
    return kept;
}

void drop_kept(struct kept *kept)
{
    drop_scene(kept->scene);
    free(kept->plain_tables);
    free(kept->output);
    free(kept->plain_output);
    free(kept->plain_indexes);
    free(kept);
}

void do_work(struct kept *kept, int work, int side)
{
    (side == PROVED ? PROVED_WORK : PLAIN_WORK)[work](kept);
}

int is_alike(const struct kept *kept)
{
    return memcmp(kept->state, &kept->plain, sizeof kept->state) == 0 &&
           memcmp(kept->scene->tables, kept->plain_tables, SPOONWING_TABLES_LENGTH) == 0 &&
           memcmp(kept->output, kept->plain_output, frame_length(kept->scene)) == 0 &&
           kept->read == kept->plain_read;
}
