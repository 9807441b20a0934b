/* Writes to the file what was changed in memory, in an order that a power cut cannot spoil. */
#ifndef CARD_SAVE_H
#define CARD_SAVE_H

#include "card_image.h"

/* The two copies of zone 1's content. */
enum copy { COPY_ZONE_1, COPY_BACKUP };

/* Writes the sectors of a part of the image that differ from the file, `length` bytes from `at` on. Counts them in
   `*written`. Returns an exit status, as all here do. */
int save_part(const struct image *image, size_t at, size_t length, size_t *written);

/* Waits until what was written is on the card. */
int save_force(const struct image *image);

/* Writes a sector if it differs from the file, and waits. */
int save_sector(const struct image *image, size_t at);

/* Writes what differs in the two copies, the one that is not `last` first: `last` is the one that has to be whole until
   the other one is. Between the two comes the sector of the body at `between`, or none if that is 0. */
int save_copies(const struct image *image, enum copy last, size_t between);

#endif
