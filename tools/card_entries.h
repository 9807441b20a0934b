/* The files of a mounted volume as entries of isc_list, and which of them a word on the command line means. */
#ifndef CARD_ENTRIES_H
#define CARD_ENTRIES_H

#include "card_volume.h"

enum state { STATE_ACTIVE, STATE_DELETED };

struct entries {
    uint8_t *at; /* entries of ISC_LIST_ENTRY bytes, by ascending id */
    uint32_t count;
};

/* The files that are active, or those that are temporarily deleted. Returns an exit status; the entries are freed with
   entries_drop. */
int entries_take(const struct volume *volume, enum state state, struct entries *entries);
void entries_drop(struct entries *entries);

/* Entry i, from 0. */
const uint8_t *entries_at(const struct entries *entries, uint32_t i);

/* The id that a word means: digits alone are an id, which is not looked up; anything else is the name of one file in
   this state, without the `=` that it may begin with. Returns an exit status, after having said what is wrong. */
int entries_find(const struct volume *volume, enum state state, const char *word, uint32_t *id);

#endif
