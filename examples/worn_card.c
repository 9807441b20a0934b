/* A card with a worn sector: the block is withheld, files pass by it, and its zone keeps its type when they are gone.
   `make test` builds it, runs it and compares what it prints with worn_card.out. */
#include "../include/isc.h"
#include <stdio.h>

static uint8_t books[5 * ISC_SECTOR];
static uint8_t body[ISC_ZONE]; /* zone 2 of 3 */
static const uint8_t date[ISC_DATE] = {7, 208, 1, 2, 3, 4}; /* 2 January 2000, 3:04 */
static const uint32_t worn[] = {1029}; /* what the box keeps with the card: the first sector of each withheld block */
static const uint32_t twice[] = {1029, 1029};

/* Numbers of the tables, most significant byte first. */
static uint32_t number_at(const uint8_t *at, int bytes) {
    uint32_t n = 0;
    while (bytes-- > 0)
        n = n << 8 | *at++;
    return n;
}

/* The entry of a zone: type, free blocks and 0, two bytes each. */
static uint8_t *zone_at(uint32_t zone) {
    return books + ISC_SECTOR * (size_t)number_at(books + 138, 4) + 6 * (zone - 1);
}

/* Withholds a free block of one sector, in a zone of type C: its bit is set, and the zone has a free block less. */
static void withhold(uint32_t sector) {
    uint8_t *bits = books + ISC_SECTOR * (size_t)number_at(books + 142, 4);
    uint8_t *zone = zone_at(sector / ISC_ZONE_SECTORS + 1);
    uint32_t free = number_at(zone + 2, 2) - 1;
    bits[sector / 8] |= (uint8_t)(0x80 >> sector % 8);
    zone[2] = (uint8_t)(free >> 8);
    zone[3] = (uint8_t)free;
}

/* Says which request was refused, and with which number. */
static int refused(const char *request, uint32_t number) {
    if (number != ISC_DONE)
        printf("%s: %u\n", request, (unsigned)number);
    return number != ISC_DONE;
}

static int make_volume(void) {
    const uint8_t name[] = "RELAYS";
    if (refused("format", isc_format(books, sizeof books, 3, 8, name, 0, name, sizeof name - 1, 1, name, 0, name, 0, date,
                                     ISC_DATE)))
        return 1;
    printf("a list on a new card: %u\n", (unsigned)isc_mount(books, sizeof books, worn, 1));
    return refused("mount", isc_mount(books, sizeof books, worn, 0));
}

/* A file in blocks of one sector, and where it begins; `count` blocks are withheld. */
static int store(const char *name, int32_t size, size_t count) {
    uint32_t id, sector;
    if (refused("create", isc_create_fixed(books, sizeof books, worn, count, (const uint8_t *)name, 7, size, ISC_TYPE_C,
                                           ISC_PLAIN, date, ISC_DATE, &id))
        || refused("locate", isc_locate(books, sizeof books, worn, count, id, 0, &sector)))
        return 1;
    printf("file %u begins at sector %u\n", (unsigned)id, (unsigned)sector);
    return 0;
}

static int say_space(void) {
    uint32_t sectors, used;
    if (refused("space", isc_space(books, sizeof books, worn, 1, &sectors, &used)))
        return 1;
    printf("in use: %u of %u sectors\n", (unsigned)used, (unsigned)sectors);
    return 0;
}

/* With its bit set the sector is in no file, and not withheld either where the list is not lent. */
static void forget_list(void) {
    uint32_t sectors, used, rule, kind, place;
    uint32_t number = isc_space(books, sizeof books, worn, 0, &sectors, &used);
    isc_broken_rule(books, sizeof books, worn, 0, &rule, &kind, &place);
    printf("without the list: %u, R%u at sector %u\n", (unsigned)number, (unsigned)rule, (unsigned)place);
}

static int delete_file(uint32_t id) {
    return refused("temporary delete", isc_temporary_delete(books, sizeof books, worn, 1, body, sizeof body, id, date,
                                                            ISC_DATE))
        || refused("actual delete", isc_actual_delete(books, sizeof books, worn, 1, body, sizeof body, id, date, ISC_DATE));
}

int main(void) {
    uint32_t sectors, used;
    if (make_volume() || store("CURVE A", 5000, 0))
        return 1;
    withhold(worn[0]);
    forget_list();
    if (say_space() || store("CURVE B", 2048, 1) || say_space())
        return 1;
    printf("the same block twice: %u\n", (unsigned)isc_space(books, sizeof books, twice, 2, &sectors, &used));
    if (delete_file(1) || delete_file(2))
        return 1;
    printf("both files gone; zone 2: type %u, %u blocks free\n", (unsigned)number_at(zone_at(2), 2),
           (unsigned)number_at(zone_at(2) + 2, 2));
    return say_space();
}
