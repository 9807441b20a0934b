/* Reads the tables of books that the library has found lawful. Of other books nothing may be asked here but
   books_sectors: the places in them may lead anywhere. */
#ifndef CARD_BOOKS_H
#define CARD_BOOKS_H

#include "isc.h"

/* Where the fields of sector 0 stand. */
enum {
    LABEL_MARK = 0,
    LABEL_MARK_BYTES = 4,
    LABEL_VERSION = 4,
    LABEL_VERSION_BYTES = 4,
    LABEL_APPLICATION = 8,
    LABEL_VOLUME_NAME = 24,
    LABEL_VOLUME_ID = 56,
    LABEL_OWNER = 60,
    LABEL_OWNER_CODE = 92,
    LABEL_INITIALIZED = 124,
    LABEL_ZONES = 130,
    LABEL_ZONE_TABLE = 138,
    LABEL_SECTOR_TABLE = 142,
    LABEL_INDEX_TABLES = 146
};

/* Where the fields of sector 1 stand, from the start of the books. */
enum { STATE_INDEXES = ISC_SECTOR, STATE_LATEST_UPDATE = ISC_SECTOR + 20 };

/* Types of zone: the letters B to H are 2 to 8. */
enum { ZONE_OPEN = 0, ZONE_BOOKS = 1, ZONE_TYPE_B = 2, ZONE_TYPE_C = 3, ZONE_TYPE_H = 8 };

/* Numbers, most significant byte first. */
uint32_t books_u16(const uint8_t *at);
uint32_t books_u32(const uint8_t *at);
void books_put_u32(uint8_t *at, uint32_t number);

/* S, the sectors that the tables reach to, of a copy of zone 1 of which `length` bytes are there. The copy may have any
   content: the answer is from 5 to 1,024, and the library refuses what makes no sense. */
size_t books_sectors(const uint8_t *copy, size_t length);

/* The zones, and the letter of a zone's type: `.` for an open zone, `-` for zone 1 and the backup. */
uint32_t books_zones(const uint8_t *books);
char books_zone_letter(const uint8_t *books, uint32_t zone);

/* The sectors of a block in a zone of type B to H, and how many of its blocks are free. */
uint32_t books_block(const uint8_t *books, uint32_t zone);
uint32_t books_free_blocks(const uint8_t *books, uint32_t zone);

/* Whether a sector is in use. */
int books_sector_used(const uint8_t *books, uint32_t sector);

/* The index tables, 1 to N, and whether one is a file's parent index, which an entry of isc_list is the start of. */
uint32_t books_indexes(const uint8_t *books);
const uint8_t *books_index(const uint8_t *books, uint32_t index);
int books_is_file(const uint8_t *books, uint32_t index);

/* The sectors of the header of a file, by its parent index or its entry of isc_list: returns 1 if it has one. */
int books_header(const uint8_t *entry, uint32_t *start, uint32_t *count);

/* A walk along the runs of sectors of a file's data, in the file's order. */
struct run_walk {
    const uint8_t *books;
    const uint8_t *pointer; /* the next one; null at the end */
    const uint8_t *chain;   /* where the table says which one follows it; its pointers end there too */
};

void runs_start(struct run_walk *walk, const uint8_t *books, uint32_t file);

/* The next run; 0 at the end. */
int runs_next(struct run_walk *walk, uint32_t *start, uint32_t *count);

#endif
