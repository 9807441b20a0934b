/* The headers of files as they lie in the body, read and put in order without a request of the library. */
#ifndef CARD_HEADERS_H
#define CARD_HEADERS_H

#include "card_image.h"

/* What a file's header is, by the file's entry: none, one, or one whose length is more than its sectors hold. */
enum header { HEADER_NONE, HEADER_SOUND, HEADER_ODD };

/* Looks at it; `*length` is the length that it says. */
enum header headers_look(const uint8_t *body, const uint8_t *entry, uint32_t *length);

/* The id in a header is the file's, and minus that of a file that is temporarily deleted. Where a request that was cut
   off has left another one, it is put right, in memory and on the card. The tables of zone 1 in memory are lawful.
   Counts the headers in `*count`, and returns an exit status. */
int headers_put_right(const struct image *image, uint32_t *count);

#endif
