/* A display as a plain C struct, with the same answers. */
#ifndef PLAIN_DISPLAY_H
#define PLAIN_DISPLAY_H

#include "kept.h"

uint32_t plain_write(struct plain_display *display, uint32_t register_number, uint32_t value);
uint32_t plain_select(struct plain_display *display, uint32_t selection);
uint32_t plain_toggle(struct plain_display *display, uint32_t bits);
uint32_t plain_error_word(const struct plain_display *display);
uint32_t plain_start(struct plain_display *display);
uint32_t plain_put(struct plain_display *display, uint8_t *tables, size_t length, uint8_t byte);

/* Runs: a put run is one memcpy. */
uint32_t plain_write_run(struct plain_display *display, const uint8_t *run, size_t run_length,
                         size_t *done);
uint32_t plain_put_run(struct plain_display *display, uint8_t *tables, size_t length,
                       const uint8_t *run, size_t run_length, size_t *done);

/* What is lent to a painting to read, and room for a layer's indexes. */
struct lent {
    const uint8_t *tables, *pictures;
    const float *floats;
    size_t tables_length, pictures_length, floats_length;
    uint8_t *indexes;
};

/* What painting a band answers, and what painting a line does. */
uint32_t plain_refusal(const struct plain_display *display, uint32_t low, uint32_t high,
                       const struct lent *lent, size_t output_length);
uint32_t plain_line_refusal(const struct plain_display *display, uint32_t y,
                            const struct lent *lent, size_t output_length);

/* A whole frame, and a line of it, by the formula in plain C. */
uint32_t plain_frame(struct plain_display *display, const struct lent *lent, uint8_t *output,
                     size_t output_length);
uint32_t plain_line(struct plain_display *display, uint32_t y, const struct lent *lent,
                    uint8_t *output, size_t output_length);

#endif
