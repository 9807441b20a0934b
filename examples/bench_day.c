/* A day at the bench: a curve is stored, read back, exchanged, deleted, recovered and given back, a second
   curve is written beside it, and each step's answer is printed. `make test` builds it, runs it and compares what it
   prints with bench_day.out. */
#include "../include/isc.h"
#include <stdio.h>
#include <string.h>

enum { SECTOR = 1024, SIZE = 5 * SECTOR };

static uint8_t books[5 * SECTOR];
static uint8_t body[2 * 1048576]; /* zones 2 and 3 of 4 */
static uint8_t first[SIZE], second[SIZE], out[SIZE];
static const uint8_t date[6] = {7, 234, 1, 2, 3, 4};
static const uint32_t none[1]; /* lent with length 0: no block of this card is withheld */

static void fill(uint8_t *curve, unsigned step) {
    unsigned i;
    for (i = 0; i < SIZE; i++)
        curve[i] = (uint8_t)(i * step + i / 256);
}

static void say(const char *what, uint32_t number) { printf("%s number=%u\n", what, number); }

static uint32_t create(const char *what, const char *name, int32_t size, int32_t flag) {
    uint32_t id, number = isc_create_fixed(books, sizeof books, none, 0, (const uint8_t *)name, strlen(name), size,
                                           flag, 0, date, sizeof date, &id);
    printf("%s number=%u id=%u\n", what, number, id);
    return id;
}

static void write_at(const char *what, uint32_t id, int32_t position, int32_t length, uint32_t exchange,
                     const uint8_t *in) {
    uint32_t moved, number = isc_write(books, sizeof books, none, 0, body, sizeof body, id, position, length, exchange,
                                       in, SIZE, date, sizeof date, &moved);
    printf("%s number=%u moved=%u\n", what, number, moved);
}

/* Reads into a buffer of 85s, and says whether it then begins with `wanted` and goes on with 85s. */
static void read_at(const char *what, uint32_t id, int32_t position, int32_t length, uint32_t exchange,
                    const uint8_t *wanted) {
    uint32_t moved, number, i;
    int same;
    memset(out, 85, sizeof out);
    number = isc_read(books, sizeof books, none, 0, body, sizeof body, id, position, length, exchange, out, sizeof out,
                      &moved);
    same = memcmp(out, wanted, moved) == 0;
    for (i = moved; i < sizeof out; i++)
        same = same && out[i] == 85;
    printf("%s number=%u moved=%u as-wanted=%d\n", what, number, moved, same);
}

static void locate(uint32_t id, uint32_t k) {
    uint32_t sector, number = isc_locate(books, sizeof books, none, 0, id, k, &sector);
    printf("locate %u number=%u sector=%u\n", k, number, sector);
}

static void show(uint32_t id, uint32_t k, const uint8_t *wanted) {
    isc_part part = isc_show(books, sizeof books, none, 0, body, sizeof body, id, k);
    printf("show %u number=%u len=%zu as-wanted=%d\n", k,
           isc_show_number(books, sizeof books, none, 0, body, sizeof body, id, k), part.len,
           memcmp(part.at, wanted, part.len) == 0);
}

static void search(const char *pattern) {
    uint32_t ids[2] = {0, 0}, count, number;
    number = isc_search(books, sizeof books, none, 0, (const uint8_t *)pattern, strlen(pattern), ids, 2, &count);
    printf("search %s number=%u count=%u ids=%u,%u\n", pattern, number, count, ids[0], ids[1]);
}

static void list(uint32_t from) {
    uint8_t entries[2 * 64];
    uint32_t count, number;
    memset(entries, 0, sizeof entries);
    number = isc_list(books, sizeof books, none, 0, from, entries, sizeof entries, &count);
    printf("list %u number=%u count=%u names=%.24s,%.24s\n", from, number, count, entries + 4, entries + 68);
}

static void mark(const char *what, uint32_t id) {
    say(what, isc_temporary_delete(books, sizeof books, none, 0, body, sizeof body, id, date, sizeof date));
}

static void give_back(const char *what, uint32_t id) {
    say(what, isc_actual_delete(books, sizeof books, none, 0, body, sizeof body, id, date, sizeof date));
}

static void protect(const char *what, uint32_t id, uint32_t weights) {
    say(what, isc_set_protection(books, sizeof books, none, 0, id, weights, date, sizeof date));
}

static void used(void) {
    uint32_t sectors, taken, number = isc_space(books, sizeof books, none, 0, &sectors, &taken);
    printf("space number=%u sectors=%u used=%u\n", number, sectors, taken);
}

/* A curve of 5,000 bytes: four sectors of zone 2, one of zone 3. */
static void store_and_read(uint32_t id) {
    uint8_t pairs[SIZE];
    unsigned i;
    for (i = 0; i < SIZE; i += 2) {
        pairs[i] = first[i + 1];
        pairs[i + 1] = first[i];
    }
    write_at("write", id, 0, SIZE, 0, first);
    read_at("read", id, 0, SIZE, 0, first);
    read_at("read at 4096 of 2048", id, 4096, 2048, 0, first + 4096);
    read_at("read at 5120", id, 5120, 1024, 0, first);
    read_at("read of 1023", id, 0, 1023, 0, first);
    read_at("read exchanged", id, 0, SIZE, 1, pairs);
    write_at("write exchanged", id, 0, SIZE, 1, first);
    read_at("read of what was exchanged", id, 0, SIZE, 0, pairs);
    write_at("write past the end", id, 1024, SIZE, 0, first);
    write_at("write", id, 0, SIZE, 0, first);
    locate(id, 3);
    locate(id, 4);
    locate(id, 5);
    show(id, 4, first + 4096);
    show(id, 5, first);
    printf("in the body at sector 2048: %d\n", memcmp(body + 1048576, first + 4096, SECTOR) == 0);
}

static void protected_file(uint32_t id) {
    protect("protect 4", id, 4);
    write_at("write protected", id, 0, SECTOR, 0, second);
    protect("protect 8", id, 8);
    read_at("read protected", id, 0, SECTOR, 0, first);
    show(id, 0, first);
    protect("protect 0", id, 0);
}

/* The deleted curve keeps its id and its sectors; what is stored meanwhile takes no part of it. */
static void delete_and_recover(uint32_t id) {
    uint32_t other;
    mark("temporary delete", id);
    read_at("read deleted", id, 0, SIZE, 0, first);
    other = create("another curve", "CURVE 100A", 5000, 0);
    write_at("write another", other, 0, SIZE, 0, second);
    say("recover", isc_recover(books, sizeof books, none, 0, body, sizeof body, id, date, sizeof date));
    read_at("read recovered", id, 0, SIZE, 0, first);
    read_at("read another", other, 0, SIZE, 0, second);
    search("CURVE?");
    search("*URVE *0A");
    list(1);
    list(2);
    mark("temporary delete", id);
    give_back("actual delete", id);
    used();
    id = create("reuse", "CURVE 25A", 5000, 0);
    read_at("read reused", id, 0, SIZE, 0, first);
    write_at("write reused", id, 0, SIZE, 0, second);
    read_at("read another", other, 0, SIZE, 0, second);
}

/* A file that grows as it is written, in cells of 4,096 bytes. */
static void growing(void) {
    const uint8_t name[] = "LOG";
    uint32_t id, number = isc_create_variable(books, sizeof books, none, 0, name, sizeof name - 1, 4096, 0, date,
                                              sizeof date, &id);
    printf("cell 4096 number=%u id=%u\n", number, id);
    used();
    write_at("write 5120 at 0", id, 0, SIZE, 0, first);
    used();
    write_at("write 3072 at 5120", id, SIZE, 3072, 0, second);
    used();
    write_at("write past the end", id, 9216, 1024, 0, second);
    write_at("write 1023 at the end", id, 8192, 1023, 0, second);
    read_at("read at 5120", id, SIZE, SIZE, 0, second);
}

int main(void) {
    uint32_t id;
    fill(first, 7);
    fill(second, 11);
    say("format", isc_format(books, sizeof books, 4, 8, date, 0, date, 0, 1, date, 0, date, 0, date, sizeof date));
    say("mount", isc_mount(books, sizeof books, none, 0));
    id = create("curve", "CURVE 60A", 5000, 0);
    store_and_read(id);
    protected_file(id);
    delete_and_recover(id);
    growing();
    return 0;
}
