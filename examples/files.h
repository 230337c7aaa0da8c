/* What the examples are told, and what they write: a painted frame as a PPM, and bytes for the tests. */
#ifndef FILES_H
#define FILES_H

#include <stddef.h>
#include <stdint.h>

/* The folder that a program is told by `--inputs DIR`, or NULL where it is told nothing. Told anything
 * else, it says how it is used and ends. */
const char *inputs_folder(int count, char **words);

/* Whether the bytes are written to FOLDER/NAME, in place of what it held or behind it; if not,
 * standard error says so. */
int write_file(const char *folder, const char *name, const uint8_t *bytes, size_t length);
int add_to_file(const char *folder, const char *name, const uint8_t *bytes, size_t length);

/* Whether a frame is written to standard output as a PPM: at once, or its head and then its pixels
 * from the first on, some at a time. A head that is not written shows in the pixels' answer. */
int write_picture(const uint8_t *output, int width, int height);
void write_head(int width, int height);
int write_pixels(const uint8_t *pixels, int count);

#endif
