/* Files that the tool reads besides the image. */
#ifndef CARD_INPUT_H
#define CARD_INPUT_H

#include "card_image.h"

/* The bytes of a file, with nulls up to a whole sector after them. */
struct input {
    uint8_t *bytes;
    size_t length;
    size_t padded;
};

/* Reads a file, or standard input if the path is `-`, to its end, or until there is more than `most`: that much is too
   much, which is the library's to say. The image itself is refused. Returns an exit status; the bytes are freed with
   input_drop in any case. */
int input_take(const struct image *image, const char *path, size_t most, struct input *input);
void input_drop(struct input *input);

#endif
