/* A day at the bench with headers: two curves get headers, which are shown, replaced and refused; one curve is deleted,
   recovered and given back, then the other, until the zone of the headers is open again. Each step's answer is printed.
   `make test` builds it, runs it and compares what it prints with header_day.out. */
#include "../include/isc.h"
#include <stdio.h>
#include <string.h>

enum { SIZE = 5 * ISC_SECTOR };

static uint8_t books[5 * ISC_SECTOR];
static uint8_t body[2 * ISC_ZONE]; /* zones 2 and 3 of 4 */
static uint8_t first[ISC_HEADER_MOST + 1], second[ISC_HEADER_MOST + 1], out[SIZE];
static const uint8_t date[ISC_DATE] = {7, 234, 1, 2, 3, 4};
static const uint32_t none[1]; /* lent with length 0: no block of this card is withheld */

static void fill(uint8_t *bytes, unsigned step) {
    unsigned i;
    for (i = 0; i < ISC_HEADER_MOST + 1; i++)
        bytes[i] = (uint8_t)(i * step + i / 256);
}

static void say(const char *what, uint32_t number) { printf("%s number=%u\n", what, number); }

static uint32_t create(const char *name, int32_t size, int32_t flag) {
    uint32_t id, number = isc_create_fixed(books, sizeof books, none, 0, (const uint8_t *)name, strlen(name), size,
                                           flag, ISC_PLAIN, date, sizeof date, &id);
    printf("create %s number=%u id=%u\n", name, number, id);
    return id;
}

static void write_all(uint32_t id, const uint8_t *in) {
    uint32_t moved, number = isc_write(books, sizeof books, none, 0, body, sizeof body, id, 0, SIZE, 0, in, SIZE, date,
                                       sizeof date, &moved);
    printf("write %u number=%u moved=%u\n", id, number, moved);
}

static void read_all(uint32_t id, const uint8_t *wanted) {
    uint32_t moved, number = isc_read(books, sizeof books, none, 0, body, sizeof body, id, 0, SIZE, 0, out, sizeof out,
                                      &moved);
    printf("read %u number=%u moved=%u as-wanted=%d\n", id, number, moved, memcmp(out, wanted, moved) == 0);
}

static void place(uint32_t id, const uint8_t *data, size_t length) {
    printf("place header %u of %zu number=%u\n", id, length,
           isc_place_header(books, sizeof books, none, 0, body, sizeof body, id, data, length, date, sizeof date));
}

/* The id and the length as they stand, most significant byte first; the data; then nulls. */
static int is_header(isc_part part, uint32_t id, const uint8_t *data, size_t length) {
    const uint8_t start[ISC_HEADER_DATA] = {0, 0, 0, (uint8_t)id, (uint8_t)(length >> 8), (uint8_t)length};
    size_t i;
    if (part.len < sizeof start + length || memcmp(part.at, start, sizeof start) != 0
        || memcmp(part.at + sizeof start, data, length) != 0)
        return 0;
    for (i = sizeof start + length; i < part.len; i++)
        if (part.at[i] != 0)
            return 0;
    return 1;
}

/* Shows a header by the sector of the volume with which it begins, and says whether it is the one wanted. */
static void show(uint32_t id, const uint8_t *data, size_t length) {
    isc_part part = isc_show_header(books, sizeof books, none, 0, body, sizeof body, id);
    uint32_t number = isc_header_number(books, sizeof books, none, 0, body, sizeof body, id);
    if (number != ISC_DONE)
        printf("show header %u number=%u len=%zu\n", id, number, part.len);
    else
        printf("show header %u number=%u sector=%zu len=%zu as-wanted=%d\n", id, number,
               ISC_ZONE_SECTORS + (size_t)(part.at - body) / ISC_SECTOR, part.len, is_header(part, id, data, length));
}

/* The four bytes with which a sector of the body begins. */
static void bytes_at(uint32_t sector) {
    const uint8_t *at = body + ISC_SECTOR * (size_t)(sector - ISC_ZONE_SECTORS);
    printf("sector %u begins %02x %02x %02x %02x\n", sector, at[0], at[1], at[2], at[3]);
}

/* How many sectors are in use, and the entry of zone 3: the zone table stands in sector 2, six bytes a zone. */
static void used(void) {
    const uint8_t *zone = books + 2 * ISC_SECTOR + 6 * (3 - 1);
    uint32_t sectors, taken, number = isc_space(books, sizeof books, none, 0, &sectors, &taken);
    printf("space number=%u used=%u, zone 3 type=%d free=%d\n", number, taken, zone[0] << 8 | zone[1],
           zone[2] << 8 | zone[3]);
}

static void protect(uint32_t id, uint32_t weights) {
    printf("protect %u with %u number=%u\n", id, weights,
           isc_set_protection(books, sizeof books, none, 0, id, weights, date, sizeof date));
}

static void mark(uint32_t id) {
    printf("temporary delete %u number=%u\n", id,
           isc_temporary_delete(books, sizeof books, none, 0, body, sizeof body, id, date, sizeof date));
}

static void unmark(uint32_t id) {
    printf("recover %u number=%u\n", id,
           isc_recover(books, sizeof books, none, 0, body, sizeof body, id, date, sizeof date));
}

static void give_back(uint32_t id) {
    printf("actual delete %u number=%u\n", id,
           isc_actual_delete(books, sizeof books, none, 0, body, sizeof body, id, date, sizeof date));
}

/* The first header opens zone 3; each takes the lowest sectors in a row that are free. */
static void place_and_show(uint32_t one, uint32_t other) {
    show(one, first, 100);
    used();
    place(one, first, 100);
    used();
    show(one, first, 100);
    place(other, second, 1019);
    show(other, second, 1019);
    used();
}

/* A new header is placed before the old one goes, so it never has the same sectors. */
static void replace(uint32_t one, uint32_t other) {
    place(one, second, 3000);
    show(one, second, 3000);
    bytes_at(2048);
    place(other, second, 0);
    show(other, second, 0);
    bytes_at(2049);
    place(one, second, ISC_HEADER_MOST + 1);
    show(one, second, 3000);
    used();
}

static void protected_file(uint32_t id) {
    protect(id, ISC_WRITE_PROTECTED);
    place(id, first, 1);
    show(id, second, 3000);
    protect(id, ISC_READ_PROTECTED);
    show(id, second, 3000);
    protect(id, ISC_UNPROTECTED);
}

/* The header follows its file: minus the id, the id, then 0 and no header. */
static void delete_and_recover(uint32_t id) {
    bytes_at(2051);
    mark(id);
    bytes_at(2051);
    show(id, second, 3000);
    place(id, first, 1);
    unmark(id);
    bytes_at(2051);
    show(id, second, 3000);
    read_all(id, first);
    mark(id);
    give_back(id);
    bytes_at(2051);
    used();
}

/* The longest header; after its file's actual delete no header is left, and zone 3 is open for a file of two zones. */
static void give_zone_back(uint32_t id) {
    uint32_t big;
    place(id, first, ISC_HEADER_MOST);
    show(id, first, ISC_HEADER_MOST);
    used();
    mark(id);
    give_back(id);
    used();
    big = create("BIG", 2 * ISC_ZONE, ISC_TYPE_H);
    used();
    place(big, first, 1);
}

int main(void) {
    uint32_t one, other;
    fill(first, 7);
    fill(second, 11);
    say("format", isc_format(books, sizeof books, 4, 8, date, 0, date, 0, 1, date, 0, date, 0, date, sizeof date));
    say("mount", isc_mount(books, sizeof books, none, 0));
    one = create("CURVE 60A", 5000, ISC_TYPE_C);
    other = create("CURVE 100A", 5000, ISC_TYPE_C);
    write_all(one, first);
    place_and_show(one, other);
    replace(one, other);
    protected_file(one);
    delete_and_recover(one);
    give_zone_back(other);
    return 0;
}
