/* The list of withheld blocks: the worn spots of a card, which no file may lie on. */
#ifndef CARD_WITHHELD_H
#define CARD_WITHHELD_H

#include "isc.h"

/* The first sectors of the blocks, as they are lent to the library; one more than it takes fit in. */
struct withheld {
    uint32_t at[ISC_WITHHELD_MOST + 1];
    size_t count;
};

/* Reads the list from a text: decimal numbers with white space between them; `#` begins a comment up to the end of the
   line. It is read to its end, or until there is one number too many, which is the library's to say. Without a path the
   list is empty. Returns an exit status, after having said what is wrong. */
int withheld_take(const char *path, struct withheld *list);

/* Says the refusal of the list, 7, and for which entry, by books whose tables are in their places. Returns an exit
   status. */
int withheld_refuse(const struct withheld *list, const uint8_t *books);

/* Of a volume that is lawful with the list: whether one of `count` sectors from `sector` on is withheld; how many
   blocks of a zone are; and how many sectors in all. */
int withheld_meets(const struct withheld *list, const uint8_t *books, uint32_t sector, uint32_t count);
uint32_t withheld_blocks(const struct withheld *list, uint32_t zone);
uint32_t withheld_sectors(const struct withheld *list, const uint8_t *books);

#endif
