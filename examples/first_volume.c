/* Formats a volume in memory, mounts it, stores a file on it, reads it back and checks it, and prints the
   volume's report. `make test` builds it, runs it and compares what it prints with first_volume.out. */
#include "../include/isc.h"
#include <stdio.h>
#include <string.h>

static uint8_t books[5 * 1024];
static uint8_t body[1048576]; /* zone 2 of 3 */
static const uint8_t date[6] = {7, 208, 1, 2, 3, 4}; /* 2 January 2000, 3:04 */
static const uint32_t none[1]; /* lent with length 0: no block of this card is withheld */

/* Says which request was refused, and with which number. */
static int refused(const char *request, uint32_t number) {
    if (number != 0)
        printf("%s: %u\n", request, number);
    return number != 0;
}

/* Makes books of 3 zones and 8 index tables, and mounts them. */
static int make_volume(void) {
    const uint8_t name[] = "RELAYS";
    return refused("format", isc_format(books, sizeof books, 3, 8, name, 0, name, sizeof name - 1, 1, name, 0,
                                        name, 0, date, sizeof date))
        || refused("mount", isc_mount(books, sizeof books, none, 0));
}

/* Stores a trip curve of 5,000 bytes; whole sectors are written, so the buffer has 5,120. */
static int store(const uint8_t *curve, uint32_t *id) {
    const uint8_t name[] = "CURVE 60A";
    uint32_t moved;
    return refused("create", isc_create_fixed(books, sizeof books, none, 0, name, sizeof name - 1, 5000, 4, 0, date,
                                              sizeof date, id))
        || refused("write", isc_write(books, sizeof books, none, 0, body, sizeof body, *id, 0, 5120, 0, curve, 5120,
                                      date, sizeof date, &moved));
}

/* Finds the file by its name, reads it back and checks every byte; then the same of its last sector, as shown. */
static int check(const uint8_t *curve, uint32_t id) {
    const uint8_t pattern[] = "CURVE?";
    uint8_t back[5120];
    uint32_t found, count, moved;
    isc_part last;
    if (refused("search", isc_search(books, sizeof books, none, 0, pattern, sizeof pattern - 1, &found, 1, &count)))
        return 1;
    if (count != 1) {
        printf("%u files found\n", count);
        return 1;
    }
    if (refused("read", isc_read(books, sizeof books, none, 0, body, sizeof body, found, 0, 5120, 0, back, sizeof back,
                                 &moved)))
        return 1;
    last = isc_show(books, sizeof books, none, 0, body, sizeof body, found, 4);
    if (found != id || moved != 5120 || memcmp(back, curve, 5120) != 0 || last.len != 1024
        || memcmp(last.at, curve + 4096, 1024) != 0) {
        printf("the file is not what was stored\n");
        return 1;
    }
    printf("stored and read back: %u bytes\n", moved);
    return 0;
}

int main(void) {
    uint8_t curve[5120], text[192];
    uint32_t id, length, i;
    for (i = 0; i < sizeof curve; i++)
        curve[i] = (uint8_t)(i * 7 + i / 256);
    if (make_volume() || store(curve, &id) || check(curve, id))
        return 1;
    if (refused("report", isc_report(books, sizeof books, none, 0, text, sizeof text, &length)))
        return 1;
    fwrite(text, 1, length, stdout);
    return 0;
}
