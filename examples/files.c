/* By the C library alone. */
#include <stdio.h>
#include <stdlib.h>
#include <string.h>

#include "files.h"
#include "pictures.h"

const char *inputs_folder(int count, char **words)
{
    if (count == 1)
        return NULL;
    if (count == 3 && strcmp(words[1], "--inputs") == 0)
        return words[2];
    fprintf(stderr, "usage: %s [--inputs DIR]\n", words[0]);
    exit(2);
}

static int put_file(const char *folder, const char *name, const char *mode, const uint8_t *bytes,
                    size_t length)
{
    char path[4096];
    int fits = snprintf(path, sizeof path, "%s/%s", folder, name) < (int)sizeof path;
    FILE *file = fits ? fopen(path, mode) : NULL;
    int is_written = file && fwrite(bytes, 1, length, file) == length;
    if (file && fclose(file) != 0)
        is_written = 0;
    if (!is_written)
        fprintf(stderr, "%s/%s is not written\n", folder, name);
    return is_written;
}

int write_file(const char *folder, const char *name, const uint8_t *bytes, size_t length)
{
    return put_file(folder, name, "wb", bytes, length);
}

int add_to_file(const char *folder, const char *name, const uint8_t *bytes, size_t length)
{
    return put_file(folder, name, "ab", bytes, length);
}

void write_head(int width, int height)
{
    printf("P6\n%d %d\n255\n", width, height);
}

/* A PPM has no alpha byte; the output's is 255 in every pixel. */
int write_pixels(const uint8_t *pixels, int count)
{
    for (int i = 0; i < count; i++)
        fwrite(pixels + PIXEL * i, 1, PIXEL - 1, stdout);
    return fflush(stdout) == 0 && !ferror(stdout);
}

int write_picture(const uint8_t *output, int width, int height)
{
    write_head(width, height);
    return write_pixels(output, width * height);
}
