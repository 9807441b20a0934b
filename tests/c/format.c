/* isc_format: the fresh books byte for byte, and its numbers 1, 3 and 7. */
#include "border.h"
#include <string.h>

static const char LONG_TEXT[] = "ABCDEFGHIJKLMNOPQRSTUVWXYZ0123456789";

/* "Format takes any books content": what is lent is full of 0xFF. */
static struct request blank(int32_t zones, int32_t indexes, size_t sectors) {
    struct volume v = fresh(3, 8, 5);
    struct request r = ask(FORMAT, &v);
    memset(now_books, 0xFF, 1024 * sectors);
    r.books.len = 1024 * sectors;
    r.zones = zones;
    r.indexes = indexes;
    r.date.at = DAY1;
    return r;
}

static void test_done(void) {
    static const uint32_t sizes[][3] = {{3, 8, 5}, {3, 1, 5}, {3, 8, 6}, {8, 8, 5}, {9, 8, 6}, {3, 9, 6}, {170, 16, 27},
                                        {171, 16, 28}, {256, 4096, 548}, {256, 4096, 1024}, {36, 100, 1000}};
    size_t i;
    for (i = 0; i < sizeof sizes / sizeof sizes[0]; i++) {
        struct volume then = fresh(sizes[i][0], sizes[i][1], sizes[i][2]);
        struct request r = blank((int32_t)sizes[i][0], (int32_t)sizes[i][1], sizes[i][2]);
        DONE(&r, &then, 0);
    }
}

/* Application 8-23, volume name 24-55, owner 60-91, owner's code 92-123; volume ID any. */
static void test_texts(void) {
    struct volume then = fresh(3, 8, 5);
    struct request r = blank(3, 8, 5);
    then.texts[0] = "ABCDEFGHIJKLMNOP";
    then.texts[1] = "ABCDEFGHIJKLMNOPQRSTUVWXYZ012345";
    then.texts[2] = "abcdefghijklmnopqrstuvwxyz012345";
    then.texts[3] = "zyxwvutsrqponmlkjihgfedcba543210";
    then.volume_id = r.volume_id = 0x89ABCDEF;
    r.texts[0] = text(then.texts[0]);
    r.texts[1] = text(then.texts[1]);
    r.texts[2] = text(then.texts[2]);
    r.texts[3] = text(then.texts[3]);
    DONE(&r, &then, 0);
    then.texts[0] = "";
    then.texts[1] = "A";
    then.texts[2] = "BC";
    then.texts[3] = "DEF";
    r.texts[0] = text("");
    r.texts[1] = text("A");
    r.texts[2] = text("BC");
    r.texts[3] = text("DEF");
    DONE(&r, &then, 0);
}

/* "Initialization and update dates are the one given"; the ranges' ends are valid. */
static void test_dates(void) {
    static const uint8_t dates[][6] = {
        {0, 1, 1, 1, 0, 0}, {0x27, 0x0F, 12, 31, 23, 59}, {7, 208, 2, 31, 0, 0}, {1, 0, 1, 1, 0, 0}};
    size_t i;
    for (i = 0; i < sizeof dates / sizeof dates[0]; i++) {
        struct volume then = fresh(3, 8, 5);
        struct request r = blank(3, 8, 5);
        then.initialized = then.updated = r.date.at = dates[i];
        DONE(&r, &then, 0);
    }
}

static void test_limits(void) {
    static const int32_t sizes[][3] = {
        {2, 8, 5}, {257, 8, 1024}, {0, 8, 5}, {-1, 8, 5}, {INT32_MIN, 8, 5}, {INT32_MAX, 8, 1024}, {3, 0, 5},
        {3, -1, 5}, {3, 4097, 1024}, {3, INT32_MIN, 5}, {3, INT32_MAX, 1024}, {3, 9, 5}, {9, 8, 5}, {171, 16, 27},
        {256, 4096, 547}};
    size_t i;
    for (i = 0; i < sizeof sizes / sizeof sizes[0]; i++) {
        struct request r = blank(sizes[i][0], sizes[i][1], (size_t)sizes[i][2]);
        REFUSED(&r, 3);
    }
}

static void test_long_texts(void) {
    static const size_t fields[] = {16, 32, 32, 32};
    int i;
    for (i = 0; i < 4; i++) {
        struct request r = blank(3, 8, 5);
        r.texts[i] = text(LONG_TEXT);
        r.texts[i].len = fields[i] + 1;
        REFUSED(&r, 7);
    }
}

/* "1, 3 (limits, or S too small) or 7": in this order. */
static void test_format_order(void) {
    struct request r = blank(2, 8, 5);
    r.texts[0] = text(LONG_TEXT);
    REFUSED(&r, 3);
    r.books.len = 4 * 1024;
    REFUSED(&r, 1);
    r.zones = 3;
    REFUSED(&r, 1);
    r = blank(3, 9, 5);
    r.date.len = 5;
    REFUSED(&r, 3);
}

void test_format(void) {
    static const size_t lengths[] = {0, 1023, 4 * 1024, 5 * 1024 - 1, 5 * 1024 + 1, 1024 * 1024 + 1, 1025 * 1024};
    struct request r;
    size_t i;
    group("isc_format: fresh books of several sizes");
    test_done();
    group("isc_format: texts and the volume's id");
    test_texts();
    group("isc_format: dates at the ends of their ranges");
    test_dates();
    group("isc_format: 1, the books' length");
    r = blank(3, 8, 1024);
    for (i = 0; i < sizeof lengths / sizeof lengths[0]; i++) {
        r.books.len = lengths[i];
        REFUSED(&r, 1);
    }
    group("isc_format: 3, Z, N or S out of limits");
    test_limits();
    group("isc_format: 7, the date or a text");
    r = blank(3, 8, 5);
    BAD_DATES(&r);
    test_long_texts();
    group("isc_format: 1 before 3 before 7");
    test_format_order();
}
