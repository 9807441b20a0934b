/* isc_show_place, isc_show and isc_show_number: the sector's part of the body, and the numbers 15, 8, 9, 10 and 14. */
#include "border.h"

/* Ten sectors of zone 2 and one more in the child table; "past its last under a pointer" is 14, also past the length. */
static void test_sectors(uint32_t length) {
    static const uint32_t past[] = {11, 12, 255, 1023, 0x7FFFFFFF, 0x80000000, 0xFFFFFFFF};
    struct volume v = desk(1);
    struct request r;
    uint32_t i;
    v.files[0].length = length;
    v.files[0].attribute = 16 + 4;
    r = ask(SHOW, &v);
    for (r.k = 0; r.k < 11; r.k++)
        SHOWN(&r, 1024 + 2 * r.k, 1);
    for (i = 0; i < sizeof past / sizeof past[0]; i++) {
        r.k = past[i];
        REFUSED(&r, 14);
    }
}

/* The last sector of the body, in zone 3 of 4. */
static void test_last(void) {
    struct volume v = spread(4, 4);
    struct request r;
    v.type[3] = TYPE_E;
    run(put(&v, 2, "LAST", 1, 0), 3056, 16);
    r = ask(SHOW, &v);
    r.id = 2;
    r.k = 15;
    SHOWN(&r, 3071, 1);
    r.k = 16;
    REFUSED(&r, 14);
}

static void test_bodies(void) {
    static const size_t lengths[] = {0, 1, 1024, 1048575, 1048577, 2 * 1048576};
    struct volume v = desk(1);
    struct request r = ask(SHOW, &v);
    size_t i;
    for (i = 0; i < sizeof lengths / sizeof lengths[0]; i++) {
        r.body.len = lengths[i];
        REFUSED(&r, 15);
    }
}

void test_show(void) {
    struct volume v = desk(1);
    struct request r;
    group("isc_show: each sector as it lies in the body, 14 past the last");
    test_sectors(11264);
    test_sectors(0);
    test_last();
    group("isc_show: 15, the body's length");
    test_bodies();
    group("isc_show: 8, ids");
    r = ask(SHOW, &v);
    BAD_IDS(&r);
    group("isc_show: 9 and 10");
    v.files[0].attribute = 16 + 8;
    r = ask(SHOW, &v);
    REFUSED(&r, 10);
    v.files[0].attribute = 16 + 8 + 1;
    r = ask(SHOW, &v);
    REFUSED(&r, 9);
}
