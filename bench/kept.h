/* A display kept twice, as the archive's bytes and as a plain C struct, and work for both: many
 * calls of one kind in a row. */
#ifndef KEPT_H
#define KEPT_H

#include "scene.h"

/* A start with the update bit set checks all words and copies them; a band of no depth has all of
 * a painting's refusals and nothing to paint. The small ones are a small frame, its lines from the
 * uppermost on again and again, and its band of no depth. */
enum {
    WRITE,
    SELECT,
    TOGGLE,
    READ,
    START,
    UPDATE,
    PUT,
    EMPTY_BAND,
    SMALL_FRAME,
    SMALL_LINE,
    SMALL_BAND,
    WORKS
};

/* A font of one bit has so many bytes, so that many puts follow one select. */
enum { CALLS = FONT_LENGTH(1) };

/* So many tables can be selected. */
enum { SELECTIONS = 64 };

/* The table that both sides begin with: the font of controller 0's bank 1, and where it stands. */
enum { IDLE_FONT = 3 << 1 | 1, IDLE_FONT_AT = BANK_LENGTH(1) + FONT_AT };

/* The state's words, in the order of its bytes. */
struct plain_display {
    uint32_t pending[REGISTERS], active[REGISTERS];
    uint32_t frame, errors, is_selected, selection, place;
    uint32_t profile; /* 1: two bits a glyph pixel, 0: one */
};

struct kept {
    uint8_t state[SPOONWING_STATE_LEN];
    struct plain_display plain, spare;
    struct scene *scene; /* its image is in both states; its tables are the archive's */
    uint8_t *output, *plain_tables, *plain_output, *plain_indexes;
    uint32_t read, plain_read; /* the sum of what was read */
    uint8_t font[CALLS], writes[WRITE_LENGTH * REGISTERS]; /* for runs */
};

/* The archive's side and the struct's. */
enum { PROVED, PLAIN, SIDES };
typedef void work(struct kept *kept);
extern work *const PROVED_WORK[WORKS], *const PLAIN_WORK[WORKS];

/* The function of each work: the file of either side has its own by these names. */
#define WORK_FUNCTIONS                                                                             \
    {                                                                                              \
        [WRITE] = write, [SELECT] = select, [TOGGLE] = toggle, [READ] = read, [START] = start,     \
        [UPDATE] = start, [PUT] = put, [EMPTY_BAND] = paint_nothing, [SMALL_FRAME] = paint_frame,  \
        [SMALL_LINE] = paint_line, [SMALL_BAND] = paint_nothing,                                   \
    }

/* The work's name in the tables. */
extern const char *const WORK_NAME[WORKS];

/* A display that is ready for a work, on both sides alike. */
struct kept *new_kept(int work);
void drop_kept(struct kept *kept);

/* Does a work once on one side: what is done, and how. */
typedef void doing(struct kept *kept, int what, int how);
doing do_work;

/* Whether both sides have the same bytes, state, tables and output, and have read the same. */
int is_alike(const struct kept *kept);

#endif
