/* Which book rule tables break, in words. */
#include "card_rule.h"
#include "card_say.h"

/* What the place is called; null for a count, which has none. */
static const char *place_word(uint32_t kind) {
    switch (kind) {
    case ISC_AT_ZONE: return "zone";
    case ISC_AT_SECTOR: return "sector";
    case ISC_AT_INDEX: return "index table";
    default: return NULL;
    }
}

void rule_say(const uint8_t *books, size_t books_len, const struct withheld *withheld) {
    enum { SECTORS_RULE = 7 }; /* R7, the one that speaks of withheld blocks */
    uint32_t rule, kind, place;
    const char *word;
    if (isc_broken_rule(books, books_len, withheld->at, withheld->count, &rule, &kind, &place) != ISC_DONE || rule == 0)
        return;
    word = place_word(kind);
    if (word != NULL)
        say_note("rule R%u is broken, first at %s %u: %s", (unsigned)rule, word, (unsigned)place, isc_rule_text(rule));
    else
        say_note("rule R%u is broken: %s", (unsigned)rule, isc_rule_text(rule));
    if (rule == SECTORS_RULE && withheld->count == 0)
        say_note("if the card has withheld blocks, their list is needed: --withheld LIST");
}
