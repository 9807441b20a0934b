/* Files that the tool writes besides the image. */
#ifndef CARD_OUTPUT_H
#define CARD_OUTPUT_H

#include "card_image.h"

/* Opens a file for output, made where there is none and emptied where there is one, unless it is the image itself.
   Returns an exit status, as output_write does. */
int output_open(const struct image *image, const char *path, int *file);

int output_write(int file, const char *path, const uint8_t *bytes, size_t length);

/* What a copy goes to: a file, or standard output. */
struct sink {
    const char *path;
    int file;
};

/* Opens a file as output_open does; without a path, or with `-`, it is standard output. All return an exit status;
   sink_close returns `status` unless the file cannot be closed well. */
int sink_open(struct sink *sink, const struct image *image, const char *path);
int sink_write(const struct sink *sink, const uint8_t *bytes, size_t length);
int sink_close(const struct sink *sink, int status);

#endif
