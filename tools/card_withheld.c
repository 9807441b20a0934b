/* The list of withheld blocks: the worn spots of a card, which no file may lie on. */
#include "card_withheld.h"
#include "card_books.h"
#include "card_say.h"

#include <errno.h>
#include <stdio.h>
#include <string.h>

/* A text that is being read, and the character that comes next. */
struct scan {
    FILE *in;
    const char *path;
    unsigned long line;
    int next;
};

static void advance(struct scan *scan) {
    scan->line += scan->next == '\n';
    scan->next = getc(scan->in);
}

static int is_digit(int character) {
    return character >= '0' && character <= '9';
}

static int is_space(int character) {
    return character > 0 && strchr(" \t\n\v\f\r", character) != NULL;
}

static int refuse_text(const struct scan *scan) {
    return say_misuse("%s, line %lu: only sector numbers may stand here, and comments from # on", scan->path,
                      scan->line);
}

static int take_number(struct scan *scan, struct withheld *list) {
    uint64_t number = 0;
    for (; is_digit(scan->next); advance(scan))
        if (number <= UINT32_MAX)
            number = number * 10 + (uint64_t)(scan->next - '0');
    if (scan->next != EOF && scan->next != '#' && !is_space(scan->next))
        return refuse_text(scan);
    if (number > UINT32_MAX)
        return say_misuse("%s, line %lu: a sector number is at most %lu", scan->path, scan->line,
                          (unsigned long)UINT32_MAX);
    list->at[list->count++] = (uint32_t)number;
    return CARD_DONE;
}

static int read_list(struct scan *scan, struct withheld *list) {
    int status = CARD_DONE;
    advance(scan);
    while (scan->next != EOF && list->count <= ISC_WITHHELD_MOST && status == CARD_DONE) {
        if (is_digit(scan->next))
            status = take_number(scan, list);
        else if (is_space(scan->next))
            advance(scan);
        else if (scan->next != '#')
            status = refuse_text(scan);
        else
            while (scan->next != EOF && scan->next != '\n')
                advance(scan);
    }
    return ferror(scan->in) ? say_system(scan->path) : status;
}

int withheld_take(const char *path, struct withheld *list) {
    struct scan scan = {NULL, path, 1, ' '};
    int status;
    list->count = 0;
    if (path == NULL)
        return CARD_DONE;
    scan.in = fopen(path, "r");
    if (scan.in == NULL)
        return say_system(path);
    errno = 0;
    status = read_list(&scan, list);
    fclose(scan.in);
    return status;
}

/* Says why an entry cannot be one. Returns 0 if it can. */
static int explain_entry(const struct withheld *list, size_t i, const uint8_t *books) {
    uint32_t sector = list->at[i], zone = sector / ISC_ZONE_SECTORS + 1;
    char letter;
    if (i > 0 && sector <= list->at[i - 1]) {
        say_note("sector %u comes after %u: the list has to ascend", (unsigned)sector, (unsigned)list->at[i - 1]);
        return 1;
    }
    if (zone > books_zones(books)) {
        say_note("sector %u is past the volume's end", (unsigned)sector);
        return 1;
    }
    letter = books_zone_letter(books, zone);
    if (letter < 'C' || letter > 'H') {
        say_note("sector %u lies in zone %u, which is of no type from C to H", (unsigned)sector, (unsigned)zone);
        return 1;
    }
    if (sector % books_block(books, zone) == 0)
        return 0;
    say_note("sector %u starts no block: those of zone %u, of type %c, have %u sectors", (unsigned)sector,
             (unsigned)zone, letter, (unsigned)books_block(books, zone));
    return 1;
}

int withheld_refuse(const struct withheld *list, const uint8_t *books) {
    size_t i = 0;
    say_failure("the list of withheld blocks is not allowed for this volume (%u)", (unsigned)ISC_ARGUMENT);
    if (list->count > ISC_WITHHELD_MOST)
        say_note("it has more than %d blocks", ISC_WITHHELD_MOST);
    else
        while (i < list->count && !explain_entry(list, i, books))
            i++;
    return CARD_REFUSED;
}

static uint32_t block_at(const uint8_t *books, uint32_t sector) {
    return books_block(books, sector / ISC_ZONE_SECTORS + 1);
}

int withheld_meets(const struct withheld *list, const uint8_t *books, uint32_t sector, uint32_t count) {
    size_t i;
    for (i = 0; i < list->count; i++)
        if (list->at[i] < sector + count && sector < list->at[i] + block_at(books, list->at[i]))
            return 1;
    return 0;
}

uint32_t withheld_blocks(const struct withheld *list, uint32_t zone) {
    uint32_t blocks = 0;
    size_t i;
    for (i = 0; i < list->count; i++)
        blocks += list->at[i] / ISC_ZONE_SECTORS + 1 == zone;
    return blocks;
}

uint32_t withheld_sectors(const struct withheld *list, const uint8_t *books) {
    uint32_t sectors = 0;
    size_t i;
    for (i = 0; i < list->count; i++)
        sectors += block_at(books, list->at[i]);
    return sectors;
}
