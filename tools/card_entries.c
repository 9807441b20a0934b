/* The files of a mounted volume as entries of isc_list, and which of them a word on the command line means. */
#include "card_entries.h"
#include "card_books.h"
#include "card_say.h"
#include "card_text.h"

#include <stdio.h>
#include <stdlib.h>
#include <string.h>

/* isc_list has active files only, so the others come from the index tables, which the mount found lawful. */
static void take_deleted(const uint8_t *books, struct entries *entries) {
    uint32_t i;
    for (i = 1; i <= books_indexes(books); i++) {
        const uint8_t *table = books_index(books, i);
        if (books_is_file(books, i) && (books_u16(table + ISC_ENTRY_ATTRIBUTE) & ISC_WEIGHT_DELETED) != 0)
            memcpy(entries->at + (size_t)ISC_LIST_ENTRY * entries->count++, table, ISC_LIST_ENTRY);
    }
}

int entries_take(const struct volume *volume, enum state state, struct entries *entries) {
    size_t length = (size_t)ISC_LIST_ENTRY * books_indexes(volume->books);
    uint32_t number = ISC_DONE;
    entries->count = 0;
    entries->at = malloc(length);
    if (entries->at == NULL)
        return say_system("the list of files");
    if (state == STATE_DELETED)
        take_deleted(volume->books, entries);
    else
        number = isc_list(volume->books, volume->books_len, volume->withheld.at, volume->withheld.count, 1, entries->at,
                          length, &entries->count);
    if (number == ISC_DONE)
        return CARD_DONE;
    entries_drop(entries);
    return say_refusal(number);
}

void entries_drop(struct entries *entries) {
    free(entries->at);
}

const uint8_t *entries_at(const struct entries *entries, uint32_t i) {
    return entries->at + (size_t)ISC_LIST_ENTRY * i;
}

/* Names are compared byte by byte: one on a volume may hold the characters that a pattern gives a meaning to. */
static int has_name(const uint8_t *entry, const char *name) {
    char padded[ISC_NAME_MOST] = {0};
    size_t length = strlen(name);
    if (length > sizeof padded)
        return 0;
    memcpy(padded, name, length);
    return memcmp(entry + ISC_ENTRY_NAME, padded, sizeof padded) == 0;
}

/* The ids of the files that share a name, in one line. */
static int refuse_many(const struct entries *entries, const char *name, uint32_t many) {
    enum { ID_SHOWN = 12 };
    char *ids = malloc((size_t)ID_SHOWN * many + 1);
    char *end = ids;
    uint32_t i;
    if (ids == NULL)
        return say_system("the list of ids");
    for (i = 0; i < entries->count; i++)
        if (has_name(entries_at(entries, i), name))
            end += sprintf(end, " %u", (unsigned)books_u32(entries_at(entries, i) + ISC_ENTRY_ID));
    say_failure("%u files have the name '%s'; give one of the ids%s", (unsigned)many, name, ids);
    free(ids);
    return CARD_REFUSED;
}

int entries_find(const struct volume *volume, enum state state, const char *word, uint32_t *id) {
    const char *name = word[0] == '=' ? word + 1 : word;
    struct entries entries;
    uint32_t i, many = 0;
    int status;
    if (text_is_digits(word)) {
        *id = text_id(word);
        return CARD_DONE;
    }
    status = entries_take(volume, state, &entries);
    if (status != CARD_DONE)
        return status;
    for (i = 0; i < entries.count; i++) {
        if (has_name(entries_at(&entries, i), name)) {
            *id = books_u32(entries_at(&entries, i) + ISC_ENTRY_ID);
            many++;
        }
    }
    if (many == 0)
        status = say_failure("no %s file has the name '%s' (%u)",
                             state == STATE_DELETED ? "temporarily deleted" : "active", name, (unsigned)ISC_NO_FILE);
    else if (many > 1)
        status = refuse_many(&entries, name, many);
    entries_drop(&entries);
    return status;
}
