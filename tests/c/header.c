/* Compiles isc.h alone, as C99: it needs no other header, may be included twice, and its constants have the paper's
   values. */
#include "isc.h"
#include "isc.h"

#define SAME(name, left, right) typedef char same_##name[(left) == (right) ? 1 : -1]

SAME(major, ISC_VERSION_MAJOR, 1);
SAME(minor, ISC_VERSION_MINOR, 5);
SAME(version, ISC_VERSION, 1005);

/* "Numbers a request can answer." */
SAME(n0, ISC_DONE, 0);
SAME(n1, ISC_BOOKS_LENGTH, 1);
SAME(n2, ISC_MARK, 2);
SAME(n3, ISC_LIMITS, 3);
SAME(n4, ISC_RULE, 4);
SAME(n5, ISC_NOT_MOUNTED, 5);
SAME(n6, ISC_MOUNTED, 6);
SAME(n7, ISC_ARGUMENT, 7);
SAME(n8, ISC_NO_FILE, 8);
SAME(n9, ISC_STATE, 9);
SAME(n10, ISC_PROTECTED, 10);
SAME(n11, ISC_FIXED, 11);
SAME(n12, ISC_NO_ROOM, 12);
SAME(n13, ISC_NO_INDEX, 13);
SAME(n14, ISC_POSITION, 14);
SAME(n15, ISC_BODY_LENGTH, 15);

/* "Sizes", and the fields of sector 0. */
SAME(sector, ISC_SECTOR, 1024);
SAME(zone_sectors, ISC_ZONE_SECTORS, 1024);
SAME(zone, ISC_ZONE, 1048576);
SAME(zones_least, ISC_ZONES_LEAST, 3);
SAME(zones_most, ISC_ZONES_MOST, 256);
SAME(indexes_least, ISC_INDEXES_LEAST, 1);
SAME(indexes_most, ISC_INDEXES_MOST, 4096);
SAME(books_least, ISC_BOOKS_SECTORS_LEAST, 5);
SAME(books_most, ISC_BOOKS_SECTORS_MOST, 1024);
SAME(date, ISC_DATE, 6);
SAME(name_most, ISC_NAME_MOST, 24);
SAME(application, ISC_APPLICATION_MOST, 23 - 8 + 1);
SAME(volume_name, ISC_VOLUME_NAME_MOST, 55 - 24 + 1);
SAME(owner, ISC_OWNER_MOST, 91 - 60 + 1);
SAME(owner_code, ISC_OWNER_CODE_MOST, 123 - 92 + 1);
SAME(header_most, ISC_HEADER_MOST, 32762);
SAME(header_sectors, ISC_HEADER_SECTORS_MOST, 32);
SAME(header_whole, ISC_HEADER_DATA + ISC_HEADER_MOST, ISC_HEADER_SECTORS_MOST * ISC_SECTOR);
SAME(withheld_most, ISC_WITHHELD_MOST, 512);
SAME(list_entry, ISC_LIST_ENTRY, 64);
SAME(report_text, ISC_REPORT_TEXT, 192);
SAME(broken_text, ISC_BROKEN_TEXT, 64);

/* "A kind: 0 plain, 1 directory, 2 system." */
SAME(plain, ISC_PLAIN, 0);
SAME(directory, ISC_DIRECTORY, 1);
SAME(system, ISC_SYSTEM, 2);

/* "Set protection takes 0, 4, 8 or 12." */
SAME(unprotected, ISC_UNPROTECTED, 0);
SAME(write_protected, ISC_WRITE_PROTECTED, 4);
SAME(read_protected, ISC_READ_PROTECTED, 8);

/* "0 (default: all six), or any sum of 4 (C), 8, 16, 32, 64, 128 (H)." */
SAME(types_all, ISC_TYPES_ALL, 0);
SAME(type_c, ISC_TYPE_C, 4);
SAME(type_d, ISC_TYPE_D, 8);
SAME(type_e, ISC_TYPE_E, 16);
SAME(type_f, ISC_TYPE_F, 32);
SAME(type_g, ISC_TYPE_G, 64);
SAME(type_h, ISC_TYPE_H, 128);

/* "C to H, with blocks of 1, 4, 16, 64, 256, 1024 sectors." */
SAME(cell_c, ISC_CELL_C, 1 * 1024);
SAME(cell_d, ISC_CELL_D, 4 * 1024);
SAME(cell_e, ISC_CELL_E, 16 * 1024);
SAME(cell_f, ISC_CELL_F, 64 * 1024);
SAME(cell_g, ISC_CELL_G, 256 * 1024);
SAME(cell_h, ISC_CELL_H, 1024 * 1024);

/* "Id 0-3, name 4-27, created 28-33, changed 34-39, byte length 40-43, attribute 44-45, header pointer 58-63." */
SAME(entry_id, ISC_ENTRY_ID, 0);
SAME(entry_name, ISC_ENTRY_NAME, 4);
SAME(entry_created, ISC_ENTRY_CREATED, 28);
SAME(entry_changed, ISC_ENTRY_CHANGED, 34);
SAME(entry_length, ISC_ENTRY_LENGTH, 40);
SAME(entry_attribute, ISC_ENTRY_ATTRIBUTE, 44);
SAME(entry_header, ISC_ENTRY_HEADER, 58);

/* "File id (4 bytes), length L (2), L bytes, then nulls." */
SAME(header_id, ISC_HEADER_ID, 0);
SAME(header_length, ISC_HEADER_LENGTH, 4);
SAME(header_data, ISC_HEADER_DATA, 6);

/* "Weight 1 temporarily deleted, 2 writing, 4 write-protected, 8 read-protected, 16 variable size, 32 directory file,
   64 system file." */
SAME(weight_deleted, ISC_WEIGHT_DELETED, 1);
SAME(weight_writing, ISC_WEIGHT_WRITING, 2);
SAME(weight_write, ISC_WEIGHT_WRITE_PROTECTED, 4);
SAME(weight_read, ISC_WEIGHT_READ_PROTECTED, 8);
SAME(weight_variable, ISC_WEIGHT_VARIABLE, 16);
SAME(weight_directory, ISC_WEIGHT_DIRECTORY, 32);
SAME(weight_system, ISC_WEIGHT_SYSTEM, 64);

/* "0 nothing, 1 zone, 2 sector, 3 index, 4 count." */
SAME(at_nothing, ISC_AT_NOTHING, 0);
SAME(at_zone, ISC_AT_ZONE, 1);
SAME(at_sector, ISC_AT_SECTOR, 2);
SAME(at_index, ISC_AT_INDEX, 3);
SAME(at_count, ISC_AT_COUNT, 4);

/* The functions' types, declared once more: a compiler refuses them if the header's are others. */
uint32_t isc_format(uint8_t *, size_t, int32_t, int32_t, const uint8_t *, size_t, const uint8_t *, size_t, uint32_t,
                    const uint8_t *, size_t, const uint8_t *, size_t, const uint8_t *, size_t);
uint32_t isc_mount(uint8_t *, size_t, const uint32_t *, size_t);
uint32_t isc_dismount(uint8_t *, size_t, const uint32_t *, size_t);
uint32_t isc_create_fixed(uint8_t *, size_t, const uint32_t *, size_t, const uint8_t *, size_t, int32_t, int32_t,
                          uint32_t, const uint8_t *, size_t, uint32_t *);
uint32_t isc_create_variable(uint8_t *, size_t, const uint32_t *, size_t, const uint8_t *, size_t, int32_t, uint32_t,
                             const uint8_t *, size_t, uint32_t *);
uint32_t isc_grow(uint8_t *, size_t, const uint32_t *, size_t, uint32_t, int32_t, const uint8_t *, size_t);
uint32_t isc_temporary_delete(uint8_t *, size_t, const uint32_t *, size_t, uint8_t *, size_t, uint32_t, const uint8_t *,
                              size_t);
uint32_t isc_recover(uint8_t *, size_t, const uint32_t *, size_t, uint8_t *, size_t, uint32_t, const uint8_t *, size_t);
uint32_t isc_actual_delete(uint8_t *, size_t, const uint32_t *, size_t, uint8_t *, size_t, uint32_t, const uint8_t *,
                           size_t);
uint32_t isc_set_protection(uint8_t *, size_t, const uint32_t *, size_t, uint32_t, uint32_t, const uint8_t *, size_t);
uint32_t isc_search(const uint8_t *, size_t, const uint32_t *, size_t, const uint8_t *, size_t, uint32_t *, size_t,
                    uint32_t *);
uint32_t isc_list(const uint8_t *, size_t, const uint32_t *, size_t, uint32_t, uint8_t *, size_t, uint32_t *);
uint32_t isc_locate(const uint8_t *, size_t, const uint32_t *, size_t, uint32_t, uint32_t, uint32_t *);
uint32_t isc_space(const uint8_t *, size_t, const uint32_t *, size_t, uint32_t *, uint32_t *);
uint32_t isc_report(const uint8_t *, size_t, const uint32_t *, size_t, uint8_t *, size_t, uint32_t *);
uint32_t isc_broken_rule(const uint8_t *, size_t, const uint32_t *, size_t, uint32_t *, uint32_t *, uint32_t *);
uint32_t isc_broken_text(const uint8_t *, size_t, const uint32_t *, size_t, uint8_t *, size_t, uint32_t *);
uint32_t isc_read(const uint8_t *, size_t, const uint32_t *, size_t, const uint8_t *, size_t, uint32_t, int32_t,
                  int32_t, uint32_t, uint8_t *, size_t, uint32_t *);
uint32_t isc_write(uint8_t *, size_t, const uint32_t *, size_t, uint8_t *, size_t, uint32_t, int32_t, int32_t, uint32_t,
                   const uint8_t *, size_t, const uint8_t *, size_t, uint32_t *);
isc_place isc_show_place(const uint8_t *, size_t, const uint32_t *, size_t, const uint8_t *, size_t, uint32_t,
                         uint32_t);
uint32_t isc_show_number(const uint8_t *, size_t, const uint32_t *, size_t, const uint8_t *, size_t, uint32_t,
                         uint32_t);
uint32_t isc_place_header(uint8_t *, size_t, const uint32_t *, size_t, uint8_t *, size_t, uint32_t, const uint8_t *,
                          size_t, const uint8_t *, size_t);
isc_place isc_header_place(const uint8_t *, size_t, const uint32_t *, size_t, const uint8_t *, size_t, uint32_t);
uint32_t isc_header_number(const uint8_t *, size_t, const uint32_t *, size_t, const uint8_t *, size_t, uint32_t);

/* The inline functions, and the types that the header names. */
const char *use_text(enum isc_number number);
const char *use_text(enum isc_number number) { return isc_number_text(number); }

const char *use_rule(uint32_t rule);
const char *use_rule(uint32_t rule) { return isc_rule_text(rule); }

isc_part use_show(const uint8_t *books, size_t books_len, const uint32_t *list, const uint8_t *body, size_t body_len);
isc_part use_show(const uint8_t *books, size_t books_len, const uint32_t *list, const uint8_t *body, size_t body_len) {
    return isc_show(books, books_len, list, 0, body, body_len, 1, 0);
}

isc_part use_show_header(const uint8_t *books, size_t books_len, const uint32_t *list, const uint8_t *body,
                         size_t body_len);
isc_part use_show_header(const uint8_t *books, size_t books_len, const uint32_t *list, const uint8_t *body,
                         size_t body_len) {
    return isc_show_header(books, books_len, list, 0, body, body_len, 1);
}

int32_t use_kinds(enum isc_kind kind, enum isc_protection protection, enum isc_type type, enum isc_cell cell,
                  enum isc_weight weight, enum isc_place_kind place);
int32_t use_kinds(enum isc_kind kind, enum isc_protection protection, enum isc_type type, enum isc_cell cell,
                  enum isc_weight weight, enum isc_place_kind place) {
    return (int32_t)kind + (int32_t)protection + (int32_t)type + (int32_t)cell + (int32_t)weight + (int32_t)place;
}
