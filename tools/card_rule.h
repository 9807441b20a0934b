/* Which book rule tables break, in words. */
#ifndef CARD_RULE_H
#define CARD_RULE_H

#include "card_withheld.h"

/* A line on the lowest rule that the books break and its lowest place; none where the library finds no broken rule. A
   second line where a list of withheld blocks may be what is missing. */
void rule_say(const uint8_t *books, size_t books_len, const struct withheld *withheld);

#endif
