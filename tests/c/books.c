/* Books that are refused: for every function that examines them, the numbers 1 to 4 for each kind of wrong books, 5
   for a volume that is not mounted, and mount and dismount themselves. */
#include "border.h"
#include <string.h>

/* A number stored over what desk(1) has there, and the refusal that follows. */
struct change {
    uint32_t number;
    int place;
    uint32_t offset;
    unsigned bytes;
    uint32_t value;
};

/* On desk(1) the zone table stands in sector 3, the sector table in 5, the index tables in 7, and S is 9. Z = 3, N = 4;
   tables 1 (with child 4) and 2 are files, 3 is free. */
static const struct change changes[] = {
    /* 2: "wrong mark or version" */
    {2, SECTOR_0, 0, 1, 0x48}, {2, SECTOR_0, 1, 1, 0}, {2, SECTOR_0, 2, 1, 0x27}, {2, SECTOR_0, 3, 1, 0x63},
    {2, SECTOR_0, 4, 1, '1'}, {2, SECTOR_0, 5, 1, '2'}, {2, SECTOR_0, 6, 1, ','}, {2, SECTOR_0, 7, 1, '1'},
    /* 3: "Z, N, 1024, 1024, 128 not as above" */
    {3, SECTOR_0, 130, 4, 2}, {3, SECTOR_0, 130, 4, 257}, {3, SECTOR_0, 130, 4, 0xFFFFFFFF},
    {3, SECTOR_0, 130, 4, 0x80000003}, {3, SECTOR_1, 0, 4, 0}, {3, SECTOR_1, 0, 4, 4097},
    {3, SECTOR_1, 0, 4, 0xFFFFFFFF}, {3, SECTOR_0, 134, 2, 1023}, {3, SECTOR_0, 136, 2, 512},
    {3, SECTOR_0, 150, 2, 127}, {3, SECTOR_0, 150, 2, 0x8080},
    /* 3: "or R1's table places fail" */
    {3, SECTOR_0, 138, 4, 1}, {3, SECTOR_0, 138, 4, 5}, {3, SECTOR_0, 138, 4, 6}, {3, SECTOR_0, 138, 4, 0xFFFFFFFF},
    {3, SECTOR_0, 142, 4, 3}, {3, SECTOR_0, 142, 4, 7}, {3, SECTOR_0, 142, 4, 8}, {3, SECTOR_0, 146, 4, 5},
    {3, SECTOR_0, 146, 4, 2}, {3, SECTOR_0, 146, 4, 9}, {3, SECTOR_0, 146, 4, 0xFFFFFFFF}, {3, SECTOR_1, 0, 4, 17},
    /* 4: "R1's null tails count as 4" */
    {4, ZONE_TABLE, 18, 1, 1}, {4, ZONE_TABLE, 1023, 1, 128}, {4, SECTOR_TABLE, 384, 1, 128},
    {4, SECTOR_TABLE, 1023, 1, 1},
    /* 4: R2 */
    {4, ZONE_TABLE, 0, 2, 2}, {4, ZONE_TABLE, 2, 2, 0}, {4, ZONE_TABLE, 4, 2, 4}, {4, ZONE_TABLE, 12, 2, 1},
    {4, ZONE_TABLE, 14, 2, 0}, {4, ZONE_TABLE, 16, 2, 2}, {4, SECTOR_TABLE, 0, 1, 0x7F},
    {4, SECTOR_TABLE, 383, 1, 0xFE}, {4, ZONE_TABLE, 6, 2, 0}, {4, ZONE_TABLE, 6, 2, 1}, {4, ZONE_TABLE, 6, 2, 9},
    {4, ZONE_TABLE, 10, 2, 1},
    /* 4: R3 */
    {4, ZONE_TABLE, 8, 2, 1002}, {4, ZONE_TABLE, 8, 2, 1004}, {4, ZONE_TABLE, 6, 2, 4},
    /* 4: R4 */
    {4, INDEX + 3, 0, 4, 9}, {4, INDEX + 3, 4, 1, 1}, {4, INDEX + 3, 123, 1, 1}, {4, INDEX + 3, 124, 4, 3},
    {4, INDEX + 3, 124, 4, 5}, {4, INDEX + 3, 124, 4, 1}, {4, SECTOR_1, 26, 4, 0}, {4, SECTOR_1, 26, 4, 4},
    {4, SECTOR_1, 26, 4, 0xFFFFFFFF}, {4, INDEX + 2, 0, 4, 1}, {4, INDEX + 4, 0, 4, 0xFFFFFFFD},
    /* 4: R5 */
    {4, INDEX + 4, 4, 4, 2}, {4, INDEX + 1, 124, 4, 0}, {4, INDEX + 4, 124, 4, 4}, {4, INDEX + 2, 124, 4, 4},
    {4, INDEX + 1, 124, 4, 2}, {4, INDEX + 1, 124, 4, 5}, {4, INDEX + 4, 26, 2, 0},
    /* 4: R6; of type B, zone 2 would have headers alone */
    {4, ZONE_TABLE, 6, 2, 2}, {4, INDEX + 2, 58, 4, 1024}, {4, INDEX + 2, 62, 2, 1}, {4, INDEX + 2, 64, 4, 0},
    {4, INDEX + 2, 68, 2, 0}, {4, INDEX + 2, 68, 2, 0x8001},
    {4, INDEX + 2, 64, 4, 1023}, {4, INDEX + 2, 64, 4, 2048}, {4, INDEX + 2, 64, 4, 0xFFFFFFFF},
    /* 4: R7 */
    {4, INDEX + 2, 64, 4, 1024}, {4, SECTOR_TABLE, 128, 1, 0x7F}, {4, SECTOR_TABLE, 200, 1, 1},
    /* 4: R8 */
    {4, INDEX + 2, 4, 1, 0}, {4, INDEX + 2, 27, 1, 'X'}, {4, INDEX + 2, 40, 4, 10241}, {4, INDEX + 2, 40, 4, 0},
    {4, INDEX + 1, 40, 4, 0xFFFFFFFF}, {4, INDEX + 2, 44, 2, 128}, {4, INDEX + 2, 44, 2, 0x8000},
    {4, INDEX + 2, 44, 2, 96}, {4, INDEX + 2, 28, 2, 0}, {4, INDEX + 2, 36, 1, 13},
    /* 4: R9 */
    {4, SECTOR_1, 4, 4, 3}, {4, SECTOR_1, 8, 4, 2}, {4, SECTOR_1, 12, 4, 2}, {4, SECTOR_1, 16, 2, 1},
    {4, SECTOR_1, 18, 2, 1}, {4, SECTOR_1, 30, 2, 2}, {4, SECTOR_1, 30, 2, 0xFFFF},
};

static struct request on_desk(enum call call) {
    struct volume v = desk(1);
    v.flag = call != MOUNT;
    if (call == RECOVER || call == ACTUAL_DELETE)
        v.files[0].attribute |= 1;
    return ask(call, &v);
}

/* "books not S x 1,024 bytes, S allowed" */
static void test_lengths(enum call call) {
    static const size_t lengths[] = {0, 1, 1023, 1024, 4 * 1024, 4 * 1024 + 1023, 5 * 1024 + 1, 9 * 1024 - 1,
                                     9 * 1024 + 1, 9 * 1024 + 512, 1024 * 1024 + 1, 1025 * 1024};
    struct request r = on_desk(call);
    size_t i;
    for (i = 0; i < sizeof lengths / sizeof lengths[0]; i++) {
        r.books.len = lengths[i];
        REFUSED(&r, 1);
    }
}

/* Where the others answer 4, the broken rule is named: broken.c has that. */
static int answers(enum call call, uint32_t number) {
    return number != 4 || (call != BROKEN_RULE && call != BROKEN_TEXT);
}

static void test_changes(enum call call) {
    struct volume v = desk(1);
    size_t i;
    for (i = 0; i < sizeof changes / sizeof changes[0]; i++)
        if (answers(call, changes[i].number)) {
            struct request r = on_desk(call);
            put_number(spot(&v, now_books, changes[i].place, changes[i].offset), changes[i].bytes, changes[i].value);
            refused_at(&r, changes[i].number, __FILE__ ":changes", (int)i);
        }
}

/* "5: flag 0, for all but format, mount, report", to which the broken rule is added; and that wins over each later
   number by order.c. */
static void test_not_mounted(void) {
    struct volume v = desk(1);
    struct request r;
    int call;
    v.flag = 0;
    group("not mounted: 5 for all but format, mount, report and the broken rule");
    for (call = DISMOUNT; call < CALLS; call++)
        if (call != REPORT && call != BROKEN_RULE && call != BROKEN_TEXT) {
            r = ask((enum call)call, &v);
            REFUSED(&r, 5);
        }
}

/* "Mount and dismount change the flag only." */
static void test_mount(void) {
    struct volume v = desk(1), then = desk(1);
    struct request r;
    group("isc_mount: sets the flag alone, 6 if it is set");
    v.flag = 0;
    r = ask(MOUNT, &v);
    DONE(&r, &then, 0);
    r = ask(MOUNT, &then);
    REFUSED(&r, 6);
    group("isc_dismount: clears the flag alone");
    r = ask(DISMOUNT, &then);
    DONE(&r, &v, 0);
}

/* R1: "in the order zone, sector, index, from sector 2 on, without overlap, within S"; S from 5 to 1,024. */
static void test_extremes(void) {
    struct volume least = fresh(3, 8, 5), most = fresh(256, 4096, 1024), then;
    struct request r;
    group("books of 5 and of 1,024 sectors");
    r = ask(MOUNT, &least);
    then = least;
    then.flag = 1;
    DONE(&r, &then, 0);
    r = ask(MOUNT, &most);
    then = most;
    then.flag = 1;
    DONE(&r, &then, 0);
}

void test_books(void) {
    static char names[2 * CALLS][60];
    int call;
    for (call = MOUNT; call < CALLS; call++) {
        strcpy(names[2 * call], call_name((enum call)call));
        strcpy(names[2 * call + 1], names[2 * call]);
        strcat(names[2 * call], ": books of a wrong length");
        strcat(names[2 * call + 1], ": books with wrong content");
        group(names[2 * call]);
        test_lengths((enum call)call);
        group(names[2 * call + 1]);
        test_changes((enum call)call);
    }
    test_not_mounted();
    test_mount();
    test_extremes();
}
