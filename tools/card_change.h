/* Commands that change one file: the volume is opened, the file found, the change made in memory and written out. */
#ifndef CARD_CHANGE_H
#define CARD_CHANGE_H

#include "card_entries.h"
#include "card_request.h"
#include "card_volume.h"

/* The change, of the file `id` in memory. Returns an exit status, after having said what is wrong. */
typedef int change(const struct request *request, struct volume *volume, uint32_t id, const uint8_t *date);

/* Makes a change of the file that the second operand means, looked up among those in this state if it is given by name.
   Returns an exit status. */
int change_file(const struct request *request, enum state state, change *change_it);

#endif
