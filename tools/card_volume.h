/* A volume on an image: whether it is whole and lawful, mounting it in memory, saving it. */
#ifndef CARD_VOLUME_H
#define CARD_VOLUME_H

#include "card_image.h"
#include "card_request.h"
#include "card_withheld.h"

/* The parts that are lent to the library. */
struct volume {
    struct image image;
    struct withheld withheld;
    uint8_t *books;
    size_t books_len;
    uint8_t *body;
    size_t body_len;
};

/* Whether a copy of zone 1, of which `length` bytes are there, has its mark. */
int volume_has_mark(const uint8_t *copy, size_t length);

/* The bytes of a copy's books. */
size_t volume_books(const uint8_t *copy, size_t length);

/* The number that the books of a copy get: 0 for lawful ones, 1 to 4, 7 for the withheld list, or 15 if their volume is
   not as long as the image. `length` bytes of the copy are there. */
uint32_t volume_examine(const struct image *image, const struct withheld *withheld, const uint8_t *copy, size_t length);

/* Says such a number in words. Returns an exit status. */
int volume_refuse(const struct withheld *withheld, const uint8_t *copy, uint32_t number);

/* Opens a request's image, with its list of withheld blocks, sees that the volume on it is whole, and mounts it in
   memory. Returns an exit status, after having said what is wrong; then nothing is open. */
int volume_open(struct volume *volume, const struct request *request, enum access access);

/* Sees whether volume_open opens an image, and closes it again. Where zone 1's tables break a book rule it also says
   which one, and where. Returns an exit status. */
int volume_check(const struct request *request);

/* What a request can have changed in the body, of one file: its data, or its header. */
enum part { PART_DATA, PART_HEADER };

/* Dismounts it in memory, makes the backup equal in memory, and writes out what changed; in the body, this part of a
   file. Returns an exit status. */
int volume_save(struct volume *volume, uint32_t file, enum part part);

void volume_close(struct volume *volume);

#endif
