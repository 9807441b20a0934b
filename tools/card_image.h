/* The image of a card: opened, locked, and mapped twice, once to change in memory and once as it stands. */
#ifndef CARD_IMAGE_H
#define CARD_IMAGE_H

#include "isc.h"

enum access { ACCESS_READ, ACCESS_WRITE };

struct image {
    const char *path;
    int file;
    size_t length;         /* of the file; a longer one than any card counts as one byte longer than the longest */
    size_t mapped;         /* how much of it is in the mappings */
    uint8_t *now;          /* to be changed in memory */
    const uint8_t *before; /* as the file stands */
};

/* Opens and locks an image, for writing or only for reading, and maps it. The lock is held until image_close. Returns
   an exit status, after having said what is wrong. */
int image_open(struct image *image, const char *path, enum access access);

/* Makes a file of `length` null bytes, which must not exist. Returns an exit status. */
int image_make(const char *path, size_t length);

void image_close(struct image *image);

/* Whether the length is that of a card of 3 to 256 zones, and where the backup zone then begins. */
int image_has_zones(const struct image *image);
size_t image_backup(const struct image *image);

/* Whether an open file is the image itself: reading it as input, or writing output to it, would spoil both. */
int image_is_file(const struct image *image, int file);

/* Ends the tool in words, instead of by a signal, where a mapped part of an image cannot be read: the file became
   shorter, or the card has a bad spot. */
void image_watch(void);

#endif
