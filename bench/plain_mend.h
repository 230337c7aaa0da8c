/* spoonwing_mend in plain C: the same answers, the same bytes and the same list. */
#ifndef PLAIN_MEND_H
#define PLAIN_MEND_H

#include <stddef.h>
#include <stdint.h>

uint32_t plain_mend(uint8_t *image, size_t image_length, uint32_t *list, size_t *count);

#endif
