/* A register image mended by the archive or by plain C. */
#ifndef MENDING_H
#define MENDING_H

#include "kept.h"

/* One that passes, and one in which every step has something to do and something is wrong with
 * every layer beside its reserved bits. */
enum { PASSING, BROKEN, IMAGES };

/* So many mendings are done in a row. */
enum { MENDINGS = 256 };

/* The image's name in the tables. */
extern const char *const IMAGE_NAME[IMAGES];

typedef uint32_t mend(uint8_t *image, size_t image_length, uint32_t *list, size_t *count);

/* An image as it came, and what mending it has left. */
struct mending {
    mend *mend;
    uint8_t came[SPOONWING_IMAGE_LENGTH], image[SPOONWING_IMAGE_LENGTH];
    uint32_t list[SPOONWING_CHANGES_LENGTH], answer;
    size_t count;
};

/* An image for one of the SIDES. */
struct mending new_mending(int image, int side);

/* Mends the image so many times, each time as it came: its 208 bytes are copied before each. */
void do_mending(struct mending *mending);

#endif
