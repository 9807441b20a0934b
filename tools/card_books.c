/* Reads the tables of books that the library has found lawful. */
#include "card_books.h"

enum {
    ZONE_ENTRY = 6,          /* bytes of a zone table entry: type, free blocks, third field */
    INDEX_TABLE = 128,       /* bytes of an index table */
    INDEX_PARENT_RUNS = 64,  /* where the pointers of a parent begin */
    INDEX_CHILD_RUNS = 22,   /* and those of a child */
    INDEX_CHAIN = 124,       /* the next table of the file */
    POINTER = 6,             /* bytes of a pointer: start sector, count */
    POINTER_COUNT = 4
};

uint32_t books_u16(const uint8_t *at) {
    return (uint32_t)at[0] << 8 | at[1];
}

uint32_t books_u32(const uint8_t *at) {
    return books_u16(at) << 16 | books_u16(at + 2);
}

void books_put_u32(uint8_t *at, uint32_t number) {
    int i;
    for (i = 0; i < 4; i++)
        at[i] = (uint8_t)(number >> (24 - 8 * i));
}

size_t books_sectors(const uint8_t *copy, size_t length) {
    uint64_t sectors;
    if (length < 2 * ISC_SECTOR)
        return ISC_BOOKS_SECTORS_LEAST;
    sectors = (uint64_t)books_u32(copy + LABEL_INDEX_TABLES) + ((uint64_t)books_u32(copy + STATE_INDEXES) + 7) / 8;
    if (sectors < ISC_BOOKS_SECTORS_LEAST)
        return ISC_BOOKS_SECTORS_LEAST;
    return sectors > ISC_BOOKS_SECTORS_MOST ? ISC_BOOKS_SECTORS_MOST : (size_t)sectors;
}

/* The table whose start sector stands at `field` of sector 0. */
static const uint8_t *table_at(const uint8_t *books, size_t field) {
    return books + (size_t)ISC_SECTOR * books_u32(books + field);
}

static const uint8_t *zone_entry(const uint8_t *books, uint32_t zone) {
    return table_at(books, LABEL_ZONE_TABLE) + (size_t)ZONE_ENTRY * (zone - 1);
}

uint32_t books_zones(const uint8_t *books) {
    return books_u32(books + LABEL_ZONES);
}

char books_zone_letter(const uint8_t *books, uint32_t zone) {
    uint32_t type = books_u16(zone_entry(books, zone));
    if (type >= ZONE_TYPE_B && type <= ZONE_TYPE_H)
        return (char)('B' + (type - ZONE_TYPE_B));
    return type == ZONE_OPEN ? '.' : '-';
}

uint32_t books_block(const uint8_t *books, uint32_t zone) {
    uint32_t type = books_u16(zone_entry(books, zone));
    return type == ZONE_TYPE_B ? 1 : 1u << 2 * (type - ZONE_TYPE_C);
}

uint32_t books_free_blocks(const uint8_t *books, uint32_t zone) {
    return books_u16(zone_entry(books, zone) + 2);
}

int books_sector_used(const uint8_t *books, uint32_t sector) {
    return table_at(books, LABEL_SECTOR_TABLE)[sector / 8] >> (7 - sector % 8) & 1;
}

uint32_t books_indexes(const uint8_t *books) {
    return books_u32(books + STATE_INDEXES);
}

const uint8_t *books_index(const uint8_t *books, uint32_t index) {
    return table_at(books, LABEL_INDEX_TABLES) + (size_t)INDEX_TABLE * (index - 1);
}

int books_is_file(const uint8_t *books, uint32_t index) {
    return books_u32(books_index(books, index) + ISC_ENTRY_ID) == index;
}

int books_header(const uint8_t *entry, uint32_t *start, uint32_t *count) {
    *start = books_u32(entry + ISC_ENTRY_HEADER);
    *count = books_u16(entry + ISC_ENTRY_HEADER + POINTER_COUNT);
    return *count != 0;
}

void runs_start(struct run_walk *walk, const uint8_t *books, uint32_t file) {
    const uint8_t *table = books_index(books, file);
    walk->books = books;
    walk->pointer = table + INDEX_PARENT_RUNS;
    walk->chain = table + INDEX_CHAIN;
}

/* Goes on to the pointers of the file's next table, if there is one. */
static void next_table(struct run_walk *walk) {
    uint32_t next = books_u32(walk->chain);
    const uint8_t *table;
    if (next == 0) {
        walk->pointer = NULL;
        return;
    }
    table = books_index(walk->books, next);
    walk->pointer = table + INDEX_CHILD_RUNS;
    walk->chain = table + INDEX_CHAIN;
}

int runs_next(struct run_walk *walk, uint32_t *start, uint32_t *count) {
    if (walk->pointer == walk->chain)
        next_table(walk);
    if (walk->pointer == NULL)
        return 0;
    *start = books_u32(walk->pointer);
    *count = books_u16(walk->pointer + POINTER_COUNT);
    walk->pointer = *count == 0 ? NULL : walk->pointer + POINTER;
    return *count != 0;
}
