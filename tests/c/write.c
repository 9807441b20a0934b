/* isc_write: the body's bytes, the file's growth, and the numbers 7, 15, 8, 9, 10, 14, 12 and 13. */
#include "border.h"

static struct request write_at(const struct volume *v, uint32_t id, int32_t position, int32_t length) {
    struct request r = ask(WRITE, v);
    r.id = id;
    r.position = position;
    r.length = length;
    r.in.len = length > 0 ? (size_t)length / 1024 * 1024 : 0;
    return r;
}

/* "A fixed file's length stays"; "otherwise weight 2 is cleared"; both dates are set. */
static void test_fixed(void) {
    static const int32_t places[][2] = {{0, 1024}, {0, 5120}, {0, 6143}, {3072, 2048}, {4096, 1024}, {1024, 2047}};
    size_t i;
    uint32_t exchange;
    for (i = 0; i < sizeof places / sizeof places[0]; i++)
        for (exchange = 0; exchange < 2; exchange++) {
            struct volume v = curve(2 + 8 + 32), then = curve(8 + 32);
            struct request r = write_at(&v, 3, places[i][0], places[i][1]);
            uint32_t moved = (uint32_t)places[i][1] / 1024 * 1024;
            r.exchange = exchange << 31;
            then.files[0].changed = then.updated = DAY2;
            spill(&then.files[0], (uint32_t)places[i][0], moved, exchange != 0);
            r.in.len += 5 * exchange;
            WRITTEN(&r, &then, moved);
        }
}

/* "Zero bytes after rounding changes nothing", also at the end, and weight 2 stays. */
static void test_nothing(void) {
    struct volume v = curve(2);
    struct request r = write_at(&v, 3, 0, 1023);
    DONE(&r, NULL, 0);
    r = write_at(&v, 3, 5120, 0);
    DONE(&r, NULL, 0);
    r = write_at(&v, 3, 6144, 0);
    REFUSED(&r, 14);
    v = desk(0);
    v.files[0].attribute = 16 + 2;
    r = write_at(&v, 1, 10240, 1023);
    DONE(&r, NULL, 0);
}

/* "Position past the end, or a fixed file written past its end, is 14." */
static void test_ends(void) {
    static const int32_t fixed[][2] = {{5120, 1024}, {4096, 2048}, {0, 6144}, {6144, 1024}, {INT32_MAX - 1023, 1024}};
    struct volume v = curve(0);
    struct request r;
    size_t i;
    for (i = 0; i < sizeof fixed / sizeof fixed[0]; i++) {
        r = write_at(&v, 3, fixed[i][0], fixed[i][1]);
        REFUSED(&r, 14);
    }
    v = desk(0);
    r = write_at(&v, 1, 11264, 1024);
    REFUSED(&r, 14);
    v.files[0].length = 9000;
    r = write_at(&v, 1, 10240, 1024);
    REFUSED(&r, 14);
    r = write_at(&v, 1, INT32_MAX - 1023, 0);
    REFUSED(&r, 14);
}

/* "A variable file first grows to position plus rounded length if that is longer." Its next sectors are 1044 and on, in
   its child 4. */
static void test_growth(void) {
    struct volume v = desk(0), then = desk(0);
    struct request r = write_at(&v, 1, 9216, 4 * 1024 + 1);
    struct file *f = &then.files[0];
    run(f, 1044, 3);
    f->children[0] = 4;
    f->length = 9216 + 4096;
    f->changed = then.updated = DAY2;
    then.chain[0] = 3;
    spill(f, 9216, 4096, 0);
    WRITTEN(&r, &then, 4096);
    r.exchange = 7;
    spill(f, 9216, 4096, 1);
    WRITTEN(&r, &then, 4096);
}

/* Within the blocks that it has: 10,000 bytes become 10,240 when the last sector is written, and stay if another is. */
static void test_length(void) {
    struct volume v = desk(0), then;
    struct request r;
    v.files[0].length = 10000;
    then = v;
    then.files[0].changed = then.updated = DAY2;
    r = write_at(&v, 1, 1024, 2048);
    spill(&then.files[0], 1024, 2048, 0);
    WRITTEN(&r, &then, 2048);
    r = write_at(&v, 1, 9216, 1024);
    then.files[0].length = 10240;
    spill(&then.files[0], 9216, 1024, 0);
    WRITTEN(&r, &then, 1024);
}

/* The growth is all or nothing: 1,004 sectors are free, tables 4 and 3 too; with other files in them there is none. */
static void test_room(void) {
    struct volume v = desk(0), then = desk(0);
    struct request r = write_at(&v, 1, 10240, 1004 * 1024);
    run(&then.files[0], 1044, 1004);
    then.files[0].children[0] = 4;
    then.files[0].length = 1014 * 1024;
    then.files[0].changed = then.updated = DAY2;
    then.chain[0] = 3;
    spill(&then.files[0], 10240, 1004 * 1024, 0);
    WRITTEN(&r, &then, 1004 * 1024);
    r = write_at(&v, 1, 10240, 1005 * 1024);
    REFUSED(&r, 12);
    run(put(&v, 3, "THIRD", 1, 0), 1044, 1);
    run(put(&v, 4, "FOURTH", 1, 0), 1045, 1);
    v.chain[0] = 0;
    r = write_at(&v, 1, 10240, 1024);
    REFUSED(&r, 13);
    r = write_at(&v, 1, 10240, 1003 * 1024);
    REFUSED(&r, 12);
    then = v;
    then.files[0].changed = then.updated = DAY2;
    r = write_at(&v, 1, 9216, 1024);
    spill(&then.files[0], 9216, 1024, 0);
    WRITTEN(&r, &then, 1024);
}

/* "Write judges position, length and input buffer by the same 7s." */
static void test_arguments(void) {
    static const int32_t positions[] = {-1, -1024, INT32_MIN, 1, 512, 1023, 1025, INT32_MAX};
    struct volume v = curve(0);
    struct request r = write_at(&v, 3, 0, 1024);
    size_t i;
    BAD_DATES(&r);
    for (i = 0; i < sizeof positions / sizeof positions[0]; i++) {
        r.position = positions[i];
        REFUSED(&r, 7);
    }
    r = write_at(&v, 3, 0, -1);
    REFUSED(&r, 7);
    r.length = INT32_MIN;
    REFUSED(&r, 7);
    r = write_at(&v, 3, 0, 1024);
    r.in.len = 1023;
    REFUSED(&r, 7);
    r.in.len = 0;
    REFUSED(&r, 7);
    r = write_at(&v, 3, 0, 0);
    r.date.len = 5;
    REFUSED(&r, 7);
    r = write_at(&v, 3, 4096, 2048);
    r.in.len = 1024;
    REFUSED(&r, 7);
}

static void test_bodies(void) {
    static const size_t lengths[] = {0, 1024, 1048576, 2 * 1048576 - 1, 2 * 1048576 + 1, 2 * 1048576 + 1024};
    struct volume v = curve(0);
    struct request r = write_at(&v, 3, 0, 1024);
    size_t i;
    for (i = 0; i < sizeof lengths / sizeof lengths[0]; i++) {
        r.body.len = lengths[i];
        REFUSED(&r, 15);
    }
}

void test_write(void) {
    struct volume v = curve(4);
    struct request r;
    group("isc_write: a fixed file, pairs exchanged or not");
    test_fixed();
    group("isc_write: zero bytes change nothing");
    test_nothing();
    group("isc_write: 14, past the end");
    test_ends();
    group("isc_write: a variable file grows first, over a child table");
    test_growth();
    group("isc_write: the length within the blocks");
    test_length();
    group("isc_write: 12 and 13, all or nothing");
    test_room();
    group("isc_write: 7, position, length, input and date");
    test_arguments();
    group("isc_write: 15, the body's length");
    test_bodies();
    group("isc_write: 9 and 10");
    r = write_at(&v, 3, 0, 1024);
    REFUSED(&r, 10);
    r = write_at(&v, 3, 0, 0);
    REFUSED(&r, 10);
    v = curve(1);
    r = write_at(&v, 3, 0, 1024);
    REFUSED(&r, 9);
    group("isc_write: 8, ids");
    v = desk(1);
    r = write_at(&v, 1, 0, 1024);
    BAD_IDS(&r);
}
