/* The volume manager of volumes in the IS&C format 1.0: what the box's firmware links with libisc.a.

   What is lent. Books are the first S sectors of the volume, S from 5 to 1,024; the body is zones 2 to Z-1,
   1,048,576 x (Z-2) bytes; the withheld list is explained below. docs/INTEGRATION.md says where books and body
   stand on the card and in which order to write them. The library keeps nothing from call to call.

   Answers. Every function returns a number (enum isc_number), 0 for done, but isc_show_place, isc_show,
   isc_header_place and isc_show_header, which hand back a part of the body. A refusal alters no lent byte, and
   a value beside it is 0. The numbers that a function can answer are given with it, in the order in which they
   are examined; "books" stands for 1, 2, 3, 7 of the withheld list, 4, 5 in that order.

   Slices. A slice is a pointer and a length in elements (for uint8_t that is bytes); an empty slice has a
   pointer that is not null. Slices that are lent at the same time must not overlap. A pointer to a value
   (uint32_t *id and the like) is not null, distinct from every other such pointer of the call, and outside
   its slices. This is all that the caller must see to: books, bodies and other arguments of any content are
   taken, and refused by number where they are wrong.

   Withheld blocks. Where a card has worn spots, no file may lie on them. The list has the blocks that are kept out of
   use, each by its first sector, strictly ascending, at most 512 (ISC_WITHHELD_MOST). Every function but isc_format
   takes it, right after the books, and only reads it; on a card without worn spots it is an empty slice, whose pointer
   is not null either. Each entry starts a block of a zone whose type reads as C to H in the zone table. A list that is
   longer, not ascending, or has another sector is refused as 7, after 3 and before 4. The bits of a withheld block are
   set, so it counts as used; no file has a sector of it (R7), none ever gets one, and its zone keeps its type. Lend the
   same list throughout the volume's life: the library keeps none, and a list of another content is judged anew with the
   books, mostly as 4.

   Dates. A date is the six bytes as they stand on the volume: year (two bytes, most significant first, 1 to
   9999), month, day, hour, minute. A slice of another length is refused as 7, like a date that is not valid.

   Headers. A file may have a header beside its data: up to 32,762 bytes of the caller's, which the library keeps
   and never looks into. It lies in the body, in 1 to 32 consecutive sectors of a zone of type B, which holds
   headers alone: the file's id, the number of bytes, the bytes, then nulls (ISC_HEADER_...). It is placed and
   replaced as a whole by isc_place_header and shown by isc_show_header. While its file is temporarily deleted it
   holds minus the id; actual delete frees its sectors. Read, write, grow and locate see the data alone.

   What it needs: memcpy and memset, no other function; no heap, no operating system. Stack: up to 40 KiB a
   call (format 120 bytes, the creates 37 and 40 KiB, all others 37 KiB), but 49 KiB for the two that say
   which rule is broken. Re-entrant: there is no state, so calls may run at once as long as they do not lend
   the same buffers, where one of them may write them.
   C99 or later, C++11 or later; the archive is for x86-64. */
#ifndef ISC_H
#define ISC_H

#include <stddef.h>
#include <stdint.h>

#ifdef __cplusplus
extern "C" {
#endif

/* The version of the library. The minor number goes up with each change that docs/changes/ has a note of. */
#define ISC_VERSION_MAJOR 1
#define ISC_VERSION_MINOR 5
#define ISC_VERSION (ISC_VERSION_MAJOR * 1000 + ISC_VERSION_MINOR)

/* What a request answers. isc_number_text gives the words. */
enum isc_number {
    ISC_DONE = 0,
    ISC_BOOKS_LENGTH = 1,  /* books not S x 1,024 bytes, S from 5 to 1,024 */
    ISC_MARK = 2,          /* wrong mark or version: no IS&C 1.0 volume */
    ISC_LIMITS = 3,        /* sizes not allowed, or tables out of place */
    ISC_RULE = 4,          /* another book rule broken: isc_broken_rule says which */
    ISC_NOT_MOUNTED = 5,
    ISC_MOUNTED = 6,       /* mount of a mounted volume */
    ISC_ARGUMENT = 7,      /* an argument not allowed here, or the withheld list */
    ISC_NO_FILE = 8,       /* no file of this id */
    ISC_STATE = 9,         /* temporarily deleted where active is needed, or the reverse */
    ISC_PROTECTED = 10,
    ISC_FIXED = 11,        /* grow of a fixed file */
    ISC_NO_ROOM = 12,
    ISC_NO_INDEX = 13,     /* too few free index tables */
    ISC_POSITION = 14,     /* position beyond the file, or a file without a header */
    ISC_BODY_LENGTH = 15   /* body not 1,048,576 x (Z-2) bytes */
};

/* Sizes, in bytes unless they say what they count. */
enum {
    ISC_SECTOR = 1024,
    ISC_ZONE_SECTORS = 1024,      /* sectors of a zone; zone z holds sectors 1024(z-1) to 1024z-1 */
    ISC_ZONE = 1048576,
    ISC_ZONES_LEAST = 3,          /* Z */
    ISC_ZONES_MOST = 256,
    ISC_INDEXES_LEAST = 1,        /* N */
    ISC_INDEXES_MOST = 4096,
    ISC_BOOKS_SECTORS_LEAST = 5,  /* S */
    ISC_BOOKS_SECTORS_MOST = 1024,
    ISC_DATE = 6,
    ISC_NAME_MOST = 24,           /* of a file's name, and of a pattern */
    ISC_APPLICATION_MOST = 16,    /* of isc_format's texts */
    ISC_VOLUME_NAME_MOST = 32,
    ISC_OWNER_MOST = 32,
    ISC_OWNER_CODE_MOST = 32,
    ISC_HEADER_MOST = 32762,      /* of a header's data */
    ISC_HEADER_SECTORS_MOST = 32, /* sectors of a header */
    ISC_WITHHELD_MOST = 512,      /* withheld blocks */
    ISC_LIST_ENTRY = 64,          /* of one entry of isc_list */
    ISC_REPORT_TEXT = 192,        /* the least text that isc_report takes */
    ISC_BROKEN_TEXT = 64          /* the least text that isc_broken_text takes */
};

/* Kinds of file, for the creates. */
enum isc_kind { ISC_PLAIN = 0, ISC_DIRECTORY = 1, ISC_SYSTEM = 2 };

/* Protections, for isc_set_protection: 0, either, or their sum. */
enum isc_protection { ISC_UNPROTECTED = 0, ISC_WRITE_PROTECTED = 4, ISC_READ_PROTECTED = 8 };

/* Zone types, for the flag of isc_create_fixed: any sum of these, or ISC_TYPES_ALL. Type B is none of them: its zones
   hold headers, never a file's data. */
enum isc_type {
    ISC_TYPES_ALL = 0,
    ISC_TYPE_C = 4,
    ISC_TYPE_D = 8,
    ISC_TYPE_E = 16,
    ISC_TYPE_F = 32,
    ISC_TYPE_G = 64,
    ISC_TYPE_H = 128
};

/* The bytes of a block of each type, for the cell of isc_create_variable. */
enum isc_cell {
    ISC_CELL_C = 1024,
    ISC_CELL_D = 4096,
    ISC_CELL_E = 16384,
    ISC_CELL_F = 65536,
    ISC_CELL_G = 262144,
    ISC_CELL_H = 1048576
};

/* Where the fields of a list entry stand in its ISC_LIST_ENTRY bytes. Numbers are most significant byte first. */
enum {
    ISC_ENTRY_ID = 0,          /* 4 bytes */
    ISC_ENTRY_NAME = 4,        /* 24 bytes, padded with nulls */
    ISC_ENTRY_CREATED = 28,    /* a date */
    ISC_ENTRY_CHANGED = 34,    /* a date */
    ISC_ENTRY_LENGTH = 40,     /* 4 bytes: the byte length */
    ISC_ENTRY_ATTRIBUTE = 44,  /* 2 bytes: a sum of the weights below */
    ISC_ENTRY_HEADER = 58      /* 6 bytes: the header's first sector (4) and how many (2); zeros without a header */
};

/* Where the fields of a header stand, from the start of its first sector. Numbers are most significant byte first. */
enum {
    ISC_HEADER_ID = 0,      /* 4 bytes: the file's id, minus the id while it is temporarily deleted */
    ISC_HEADER_LENGTH = 4,  /* 2 bytes: how many bytes of data there are */
    ISC_HEADER_DATA = 6     /* the data, then nulls up to the end of the last sector */
};

/* Weights of the attribute. */
enum isc_weight {
    ISC_WEIGHT_DELETED = 1,
    ISC_WEIGHT_WRITING = 2,
    ISC_WEIGHT_WRITE_PROTECTED = 4,
    ISC_WEIGHT_READ_PROTECTED = 8,
    ISC_WEIGHT_VARIABLE = 16,
    ISC_WEIGHT_DIRECTORY = 32,
    ISC_WEIGHT_SYSTEM = 64
};

/* What the place of isc_broken_rule is: nothing, where no rule is broken; a zone, a sector or an index table; or a
   count, which has no place of its own. */
enum isc_place_kind { ISC_AT_NOTHING = 0, ISC_AT_ZONE = 1, ISC_AT_SECTOR = 2, ISC_AT_INDEX = 3, ISC_AT_COUNT = 4 };

/* A number in words, for a person to read. */
static inline const char *isc_number_text(uint32_t number) {
    switch (number) {
    case ISC_DONE: return "done";
    case ISC_BOOKS_LENGTH: return "the books are not 5 to 1,024 whole sectors";
    case ISC_MARK: return "wrong mark or version: this is no IS&C 1.0 volume";
    case ISC_LIMITS: return "sizes not allowed, or tables out of place";
    case ISC_RULE: return "the tables contradict each other: a book rule is broken";
    case ISC_NOT_MOUNTED: return "the volume is not mounted";
    case ISC_MOUNTED: return "the volume is mounted already";
    case ISC_ARGUMENT: return "an argument is not allowed here";
    case ISC_NO_FILE: return "there is no file of this id";
    case ISC_STATE: return "the file is temporarily deleted, or is not where it has to be";
    case ISC_PROTECTED: return "the file is protected";
    case ISC_FIXED: return "a file of fixed size cannot grow";
    case ISC_NO_ROOM: return "there is no room on the volume";
    case ISC_NO_INDEX: return "too few index tables are free";
    case ISC_POSITION: return "the position is beyond the file, or the file has no header";
    case ISC_BODY_LENGTH: return "the body has the wrong length";
    default: return "no number of this library";
    }
}

/* What a book rule, 1 to 9 for R1 to R9, asks for, for a person to read. Of R1 it is what counts as 4: where the
   tables stand is asked before, and is 3. */
static inline const char *isc_rule_text(uint32_t rule) {
    switch (rule) {
    case 0: return "no rule is broken";
    case 1: return "the zone table and the sector table end in nulls";
    case 2: return "zones 1 and Z read as the tables' own and are in use, every other is empty or of type B to H";
    case 3: return "each block is wholly in use or wholly free, and each zone's free count is true";
    case 4: return "each index table is free, a parent or a child, and the free chain meets each free one once";
    case 5: return "every child stands once in the chains, names its parent, has a pointer; all before it are full";
    case 6: return "used pointers come first, in whole blocks of types C to H; a file has one; headers lie in B zones";
    case 7: return "each sector in use is under just one pointer, header or withheld block, and no other is under any";
    case 8: return "each file's name, length, attribute and dates are allowed; a variable file has one zone type";
    case 9: return "the counts of sector 1 are true, and the flag is 0 or 1";
    default: return "no rule of this format";
    }
}

/* Makes fresh books, whatever stood there, not mounted. Numbers: 1, 3, 7.
   books         written whole
   zones         Z, 3 to 256
   indexes       N, the number of index tables, 1 to 4,096; both must fit into the books
   application   at most 16 bytes, padded with nulls, as are the three other texts
   volume_name   at most 32 bytes
   volume_id     any number
   owner         at most 32 bytes
   owner_code    at most 32 bytes
   date          becomes the initialization date and the latest update */
uint32_t isc_format(uint8_t *books, size_t books_len,
                    int32_t zones, int32_t indexes,
                    const uint8_t *application, size_t application_len,
                    const uint8_t *volume_name, size_t volume_name_len,
                    uint32_t volume_id,
                    const uint8_t *owner, size_t owner_len,
                    const uint8_t *owner_code, size_t owner_code_len,
                    const uint8_t *date, size_t date_len);

/* Sets the volume flag, and changes nothing else. Numbers: 1, 2, 3, 7 of the withheld list, 4, 6. */
uint32_t isc_mount(uint8_t *books, size_t books_len, const uint32_t *withheld, size_t withheld_len);

/* Clears the volume flag, and changes nothing else. Numbers: books. */
uint32_t isc_dismount(uint8_t *books, size_t books_len, const uint32_t *withheld, size_t withheld_len);

/* Makes a file of fixed size. Numbers: books, 7, 12, 13.
   name   1 to 24 bytes, none of them null, '*' or '?'
   size   in bytes, 1 to 2,147,483,647
   flag   the zone types from which the blocks are taken (enum isc_type); -1 is ISC_TYPES_ALL too
   kind   enum isc_kind
   date   becomes the file's creation and change date, and the volume's latest update
   id     gets the new file's id */
uint32_t isc_create_fixed(uint8_t *books, size_t books_len, const uint32_t *withheld, size_t withheld_len,
                          const uint8_t *name, size_t name_len,
                          int32_t size, int32_t flag, uint32_t kind,
                          const uint8_t *date, size_t date_len,
                          uint32_t *id);

/* Makes a file of variable size, empty, with one block. Numbers: books, 7, 12, 13.
   cell   the bytes of its blocks, one of enum isc_cell
   name, kind, date, id   as for isc_create_fixed */
uint32_t isc_create_variable(uint8_t *books, size_t books_len, const uint32_t *withheld, size_t withheld_len,
                             const uint8_t *name, size_t name_len,
                             int32_t cell, uint32_t kind,
                             const uint8_t *date, size_t date_len,
                             uint32_t *id);

/* Makes an active file of variable size longer, with the fewest blocks; changes nothing if it is as long
   already. The block behind the file's end is taken where it can be had, so that the file stays together.
   Numbers: books, 7, 8, 9, 10 (write-protected), 11, 12, 13.
   length   the wanted byte length, 0 or more
   date     becomes the change date and the latest update, if the file gets longer */
uint32_t isc_grow(uint8_t *books, size_t books_len, const uint32_t *withheld, size_t withheld_len,
                  uint32_t id, int32_t length, const uint8_t *date, size_t date_len);

/* Marks an active file as deleted; its id, pointers and data stay. Numbers: books, 7, 15, 8, 9,
   10 (write-protected).
   body   gets minus the id into the first four bytes of the file's header, and stays as it is if there is none
   date   becomes the change date and the latest update */
uint32_t isc_temporary_delete(uint8_t *books, size_t books_len, const uint32_t *withheld, size_t withheld_len,
                              uint8_t *body, size_t body_len, uint32_t id, const uint8_t *date, size_t date_len);

/* Makes a temporarily deleted file active again. Numbers: books, 7, 15, 8, 9.
   body   gets the id into the first four bytes of the file's header, if it has one
   date   as for isc_temporary_delete */
uint32_t isc_recover(uint8_t *books, size_t books_len, const uint32_t *withheld, size_t withheld_len,
                     uint8_t *body, size_t body_len, uint32_t id, const uint8_t *date, size_t date_len);

/* Gives a temporarily deleted file's blocks, header and index tables back. Numbers: books, 7, 15, 8, 9.
   body   gets 0 into the first four bytes of the file's header, if it has one
   date   becomes the latest update */
uint32_t isc_actual_delete(uint8_t *books, size_t books_len, const uint32_t *withheld, size_t withheld_len,
                           uint8_t *body, size_t body_len, uint32_t id, const uint8_t *date, size_t date_len);

/* Replaces an active file's protection. Numbers: books, 7, 8, 9.
   protection   0, 4, 8 or 12 (enum isc_protection)
   date         as for isc_temporary_delete */
uint32_t isc_set_protection(uint8_t *books, size_t books_len, const uint32_t *withheld, size_t withheld_len,
                            uint32_t id, uint32_t protection, const uint8_t *date, size_t date_len);

/* Finds the active files whose names match a pattern. Numbers: books, 7.
   pattern   1 to 24 bytes, none of them null; '*' is one character and '?' any string, also none
   ids       gets the files' ids, ascending, as many as it holds; what is past them stays
   count     gets how many match in all */
uint32_t isc_search(const uint8_t *books, size_t books_len, const uint32_t *withheld, size_t withheld_len,
                    const uint8_t *pattern, size_t pattern_len,
                    uint32_t *ids, size_t ids_len, uint32_t *count);

/* Lists active files. Numbers: books, 7.
   from      the first id, 1 or more; above N nothing is listed
   entries   gets the first 64 bytes of each file's parent index (ISC_ENTRY_...), as many as fit whole; what
             is past them stays
   count     gets how many entries were put there */
uint32_t isc_list(const uint8_t *books, size_t books_len, const uint32_t *withheld, size_t withheld_len,
                  uint32_t from, uint8_t *entries, size_t entries_len, uint32_t *count);

/* Finds a sector of an active file. Numbers: books, 8, 9, 14.
   k        which of the file's sectors, from 0; 14 past the last under a pointer
   sector   gets its number on the volume; it lies in the body at ISC_SECTOR x (sector - ISC_ZONE_SECTORS) */
uint32_t isc_locate(const uint8_t *books, size_t books_len, const uint32_t *withheld, size_t withheld_len,
                    uint32_t id, uint32_t k, uint32_t *sector);

/* Counts sectors. Numbers: books.
   sectors   gets the volume's sectors, 1,024 x Z
   used      gets how many of them are in use, withheld ones too */
uint32_t isc_space(const uint8_t *books, size_t books_len, const uint32_t *withheld, size_t withheld_len,
                   uint32_t *sectors, uint32_t *used);

/* Writes the report: eleven lines, or the line `refused=` with one of the numbers 1, 2, 3, 7 of the withheld list, 4.
   The books need not be mounted. Number: 7, if text has less than ISC_REPORT_TEXT bytes, before anything else is
   examined.
   text     gets the lines at its start; what is past them stays
   length   gets how many bytes they have */
uint32_t isc_report(const uint8_t *books, size_t books_len, const uint32_t *withheld, size_t withheld_len,
                    uint8_t *text, size_t text_len, uint32_t *length);

/* Says which book rule is broken: the lowest of R1 to R9, and in it the lowest place. It is done where others
   answer 4, and the books need not be mounted. Numbers: 1, 2, 3, 7 of the withheld list.
   rule    gets 1 to 9 (isc_rule_text gives the words), or 0 if no rule is broken; the other two are then 0 too
   kind    gets what the place is (enum isc_place_kind): a sector for R1 and R7, a zone for R2 and R3, an index
           table for R4, R5, R6 and R8, a count for R4's free chain and for R9
   place   gets the number of the zone, of the sector on the volume or of the index table; 0 for a count */
uint32_t isc_broken_rule(const uint8_t *books, size_t books_len, const uint32_t *withheld, size_t withheld_len,
                         uint32_t *rule, uint32_t *kind, uint32_t *place);

/* Writes what isc_broken_rule says: three lines such as `rule=R5`, `kind=index` and `place=17`, with zone, sector,
   index or count for the kind; or the line `rule=none`, or the line `refused=` with one of the numbers 1, 2, 3, 7 of
   the withheld list. Number: 7, if text has less than ISC_BROKEN_TEXT bytes, before anything else is examined.
   text     gets the lines at its start; what is past them stays
   length   gets how many bytes they have */
uint32_t isc_broken_text(const uint8_t *books, size_t books_len, const uint32_t *withheld, size_t withheld_len,
                         uint8_t *text, size_t text_len, uint32_t *length);

/* Reads whole sectors of an active file. Numbers: books, 7, 15, 8, 9, 10 (read-protected), 14.
   position   in bytes, a multiple of 1,024; at or past the end, which is the byte length rounded up to 1,024, is 14
   length     the wanted bytes, 0 or more, rounded down to a multiple of 1,024
   exchange   0, or anything else to exchange the two bytes of each pair
   out        at least as long as the rounded length; what is past the bytes moved stays
   moved      gets how many bytes were moved: the rounded length, or what remains before the end if that is less */
uint32_t isc_read(const uint8_t *books, size_t books_len, const uint32_t *withheld, size_t withheld_len,
                  const uint8_t *body, size_t body_len,
                  uint32_t id, int32_t position, int32_t length, uint32_t exchange,
                  uint8_t *out, size_t out_len, uint32_t *moved);

/* Writes whole sectors of an active file, and first makes a file of variable size longer where it has to.
   Numbers: books, 7, 15, 8, 9, 10 (write-protected), 14, 12, 13.
   position   in bytes, a multiple of 1,024; past the end is 14
   length     the bytes to write, 0 or more, rounded down to a multiple of 1,024; past the end of a file of
              fixed size is 14
   exchange   as for isc_read
   in         at least as long as the rounded length
   date       becomes the change date and the latest update, if any byte is written
   moved      gets how many bytes were written: the rounded length */
uint32_t isc_write(uint8_t *books, size_t books_len, const uint32_t *withheld, size_t withheld_len,
                   uint8_t *body, size_t body_len,
                   uint32_t id, int32_t position, int32_t length, uint32_t exchange,
                   const uint8_t *in, size_t in_len,
                   const uint8_t *date, size_t date_len, uint32_t *moved);

/* Gives an active file a header, or another one in place of the one that it has. It gets the fewest sectors that
   hold its 6 + data_len bytes, 1 to 32, in a row: the lowest that are free in the lowest zone of type B that is in
   use and has them, else the first ones of the lowest zone that is wholly free, which then is of type B. A header
   that is replaced keeps its sectors until the new one has its own, so both need room for a moment; then they are
   free, and its id is 0. Numbers: books, 7, 15, 8, 9, 10 (write-protected), 12.
   body   gets the id, the length, the data and the nulls after it, in whole sectors, and the 0 of a replaced header
   data   at most 32,762 bytes, also none
   date   becomes the change date and the latest update */
uint32_t isc_place_header(uint8_t *books, size_t books_len, const uint32_t *withheld, size_t withheld_len,
                          uint8_t *body, size_t body_len, uint32_t id, const uint8_t *data, size_t data_len,
                          const uint8_t *date, size_t date_len);

/* A part of the body by its place: `len` bytes from body[at] on. */
typedef struct {
    size_t at;
    size_t len;
} isc_place;

/* Shows a sector of an active file as it lies in the body: the place of its 1,024 bytes, or on a refusal no bytes,
   at 0. isc_show_number with the same arguments gives the number.
   k   which of the file's sectors, from 0 */
isc_place isc_show_place(const uint8_t *books, size_t books_len, const uint32_t *withheld, size_t withheld_len,
                         const uint8_t *body, size_t body_len, uint32_t id, uint32_t k);

/* The number of isc_show_place and isc_show. Numbers: books, 15, 8, 9, 10 (read-protected), 14. */
uint32_t isc_show_number(const uint8_t *books, size_t books_len, const uint32_t *withheld, size_t withheld_len,
                         const uint8_t *body, size_t body_len, uint32_t id, uint32_t k);

/* Shows the header of an active file as it lies in the body: the place of its whole sectors, ISC_SECTOR to
   ISC_HEADER_SECTORS_MOST x ISC_SECTOR bytes, or on a refusal no bytes, at 0. isc_header_number with the same arguments
   gives the number. */
isc_place isc_header_place(const uint8_t *books, size_t books_len, const uint32_t *withheld, size_t withheld_len,
                           const uint8_t *body, size_t body_len, uint32_t id);

/* The number of isc_header_place and isc_show_header. Numbers: books, 15, 8, 9, 10 (read-protected), 14 (the file has
   no header). */
uint32_t isc_header_number(const uint8_t *books, size_t books_len, const uint32_t *withheld, size_t withheld_len,
                           const uint8_t *body, size_t body_len, uint32_t id);

/* A part of the body itself. */
typedef struct {
    const uint8_t *at;
    size_t len;
} isc_part;

/* isc_show_place, as a part of the body that was lent. */
static inline isc_part isc_show(const uint8_t *books, size_t books_len, const uint32_t *withheld, size_t withheld_len,
                                const uint8_t *body, size_t body_len, uint32_t id, uint32_t k) {
    isc_place place = isc_show_place(books, books_len, withheld, withheld_len, body, body_len, id, k);
    isc_part part;
    part.at = body + place.at;
    part.len = place.len;
    return part;
}

/* isc_header_place, as a part of the body that was lent. The data begin at ISC_HEADER_DATA. What another program put
   there may say a length that the part does not hold. */
static inline isc_part isc_show_header(const uint8_t *books, size_t books_len,
                                       const uint32_t *withheld, size_t withheld_len,
                                       const uint8_t *body, size_t body_len, uint32_t id) {
    isc_place place = isc_header_place(books, books_len, withheld, withheld_len, body, body_len, id);
    isc_part part;
    part.at = body + place.at;
    part.len = place.len;
    return part;
}

#ifdef __cplusplus
}
#endif

#endif
