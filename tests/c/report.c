/* isc_report: its eleven lines, the `refused=` line, and 7 for a short text. */
#include "border.h"
#include <string.h>

static void reports(const struct volume *v, const char *lines) {
    static const size_t rooms[] = {192, 193, 1024};
    struct request r = ask(REPORT, v);
    size_t i;
    for (i = 0; i < sizeof rooms / sizeof rooms[0]; i++) {
        r.room = rooms[i];
        FILLED(&r, (uint32_t)strlen(lines), lines, strlen(lines));
    }
}

/* "Whole report of fresh books, Z=3, N=8, S=5, each line ended by one line feed." */
static void test_fresh(void) {
    struct volume v = fresh(3, 8, 5);
    reports(&v, "zones=3\nsectors=3072\nused=2048\nindexes=8\nfree_indexes=8\nactive=0\ndeleted=0\nsystem=0\n"
                "directory=0\nopen_zones=1\nmounted=0\n");
}

/* "An open zone has type 0, or type 3-8 with every block free"; "a wholly free type B zone is open too": here zones 4
   and 6. Zone 3 has a header of two sectors, which are in use. */
static void test_full(void) {
    struct volume v = spread(8, 20);
    v.type[2] = TYPE_C;
    v.type[3] = TYPE_B;
    v.type[4] = TYPE_D;
    v.type[5] = TYPE_H;
    v.type[6] = TYPE_B;
    v.type[7] = TYPE_G;
    run(put(&v, 3, "A", 5, 32), 1024, 5);
    run(put(&v, 4, "B", 5, 64), 4096, 1024);
    run(put(&v, 9, "C", 5, 64 + 1), 6400, 256);
    run(put(&v, 20, "D", 0, 16), 1030, 1);
    run(put(&v, 11, "E", 5, 32 + 1), 1031, 2);
    v.files[1].header.start = 2500;
    v.files[1].header.count = 2;
    reports(&v, "zones=8\nsectors=8192\nused=3338\nindexes=20\nfree_indexes=15\nactive=3\ndeleted=2\nsystem=1\n"
                "directory=1\nopen_zones=2\nmounted=1\n");
}

static void test_most(void) {
    struct volume v = fresh(256, 4096, 1024);
    v.flag = 1;
    reports(&v, "zones=256\nsectors=262144\nused=2048\nindexes=4096\nfree_indexes=4096\nactive=0\ndeleted=0\nsystem=0\n"
                "directory=0\nopen_zones=254\nmounted=1\n");
}

/* "A text shorter than 192 bytes is refused as 7 before anything else is examined, with nothing written." */
static void test_short(void) {
    static const size_t rooms[] = {0, 1, 10, 130, 191};
    struct volume v = desk(1);
    struct request r = ask(REPORT, &v);
    size_t i;
    for (i = 0; i < sizeof rooms / sizeof rooms[0]; i++) {
        r.room = rooms[i];
        r.books.len = 1024 * v.sectors;
        REFUSED(&r, 7);
        r.books.len = 0;
        REFUSED(&r, 7);
    }
}

void test_report(void) {
    group("isc_report: fresh books");
    test_fresh();
    group("isc_report: files of every kind, open zones");
    test_full();
    group("isc_report: the largest volume");
    test_most();
    group("isc_report: 7 for a text under 192 bytes, before all else");
    test_short();
}
