/* isc_create_fixed and isc_create_variable: the new file's tables, blocks and counts, and the numbers 7, 12 and 13. */
#include "border.h"
#include <string.h>

/* Index tables come off the chain's head: 4, then 3. "Both creates take a kind: 0 plain, 1 directory, 2 system." */
static void test_kinds(enum call call) {
    static const uint32_t weights[] = {0, 32, 64};
    uint32_t kind, fixed = call == CREATE_FIXED;
    for (kind = 0; kind < 3; kind++) {
        struct volume v = desk(0), then = desk(0);
        struct request r = ask(call, &v);
        r.kind = kind;
        run(made(&then, 4, "NEW", fixed, weights[kind] + (fixed ? 0 : 16)), 1044, 1);
        then.chain[0] = 3;
        DONE(&r, &then, 4);
    }
}

/* One block of each type, in the open zone 2; "4 (C), 8, 16, 32, 64, 128 (H)". */
static void test_types(void) {
    uint8_t type;
    for (type = TYPE_C; type <= TYPE_H; type++) {
        struct volume v = mounted(3, 8, 5), then = v;
        struct request r = ask(CREATE_FIXED, &v);
        r.flag = 1 << (type - 1);
        then.type[2] = type;
        run(made(&then, 1, "NEW", 1, 0), 1024, 1U << 2 * (type - TYPE_C));
        DONE(&r, &then, 1);
        then.files[0].length = 0;
        then.files[0].attribute = 16;
        r.call = CREATE_VARIABLE;
        r.cell = 1024 << 2 * (type - TYPE_C);
        DONE(&r, &then, 1);
    }
}

/* "-1 or 0 (default: all six), or any sum": 5,000 bytes are D1 C1; with D and E alone D2. */
static void test_flags(void) {
    static const int32_t all[] = {0, -1, 252, 12, 4 + 8 + 128};
    struct volume v = mounted(4, 8, 5), then = v;
    struct request r = ask(CREATE_FIXED, &v);
    struct file *f = made(&then, 1, "NEW", 5000, 0);
    size_t i;
    r.size = 5000;
    run(f, 1024, 4);
    run(f, 2048, 1);
    then.type[2] = TYPE_D;
    then.type[3] = TYPE_C;
    for (i = 0; i < sizeof all / sizeof all[0]; i++) {
        r.flag = all[i];
        DONE(&r, &then, 1);
    }
    f->runs_count = 0;
    run(f, 1024, 8);
    then.type[3] = 0;
    r.flag = 8 + 16;
    DONE(&r, &then, 1);
}

/* "Name: 1 to 24 bytes, none of them null, `*` or `?`", and any other byte. */
static void test_names(enum call call) {
    static const char *good[] = {"A", "ABCDEFGHIJKLMNOPQRSTUVWX", "\x01 \xFF/\\.>@+)", " "};
    static const char *bad[] = {"", "ABCDEFGHIJKLMNOPQRSTUVWXY", "*", "?", "A*", "A?", "*A", "ABCDEFGHIJKLMNOPQRSTUVW?"};
    struct volume v = mounted(3, 8, 5), then = v;
    struct request r = ask(call, &v);
    struct file *f = made(&then, 1, "", call == CREATE_FIXED ? 1 : 0, call == CREATE_FIXED ? 0 : 16);
    size_t i;
    run(f, 1024, 1);
    then.type[2] = TYPE_C;
    for (i = 0; i < sizeof good / sizeof good[0]; i++) {
        f->name = good[i];
        r.name = text(good[i]);
        DONE(&r, &then, 1);
    }
    for (i = 0; i < sizeof bad / sizeof bad[0]; i++) {
        r.name = text(bad[i]);
        REFUSED(&r, 7);
    }
    for (i = 0; i < 3; i++) {
        r.name.at = (const uint8_t *)"\0A\0B" + i;
        r.name.len = i == 1 ? 2 : 1 + i;
        REFUSED(&r, 7);
    }
}

static void test_fixed_arguments(void) {
    static const int32_t sizes[] = {0, -1, -1024, INT32_MIN};
    static const int32_t flags[] = {1, 2, 3, 5, 6, 7, 127, 253, 255, 256, 260, 512, -2, -4, -124, INT32_MIN, INT32_MAX};
    struct volume v = desk(0);
    struct request r = ask(CREATE_FIXED, &v);
    size_t i;
    for (i = 0; i < sizeof sizes / sizeof sizes[0]; i++) {
        r.size = sizes[i];
        REFUSED(&r, 7);
    }
    r.size = 1;
    for (i = 0; i < sizeof flags / sizeof flags[0]; i++) {
        r.flag = flags[i];
        REFUSED(&r, 7);
    }
}

/* "The cell is a block's bytes, else 7." */
static void test_cells(void) {
    static const int32_t cells[] = {0,      1,      3,       8,       1023,    1025, 2048,  4095,      8192,     32768,
                                    131072, 524288, 1048575, 2097152, 4194304, -1,   -1024, INT32_MIN, INT32_MAX};
    struct volume v = desk(0);
    struct request r = ask(CREATE_VARIABLE, &v);
    size_t i;
    for (i = 0; i < sizeof cells / sizeof cells[0]; i++) {
        r.cell = cells[i];
        REFUSED(&r, 7);
    }
}

static void test_kind_arguments(enum call call) {
    static const uint32_t kinds[] = {3, 4, 32, 64, 256, 257, 0x80000000, 0xFFFFFFFF};
    struct volume v = desk(0);
    struct request r = ask(call, &v);
    size_t i;
    for (i = 0; i < sizeof kinds / sizeof kinds[0]; i++) {
        r.kind = kinds[i];
        REFUSED(&r, 7);
    }
}

/* "The lowest free block of the lowest zone of that type that isn't open; else the lowest open zone gets the type and
   gives block 0." Zone 2 has type 0, zone 3 is a D zone wholly free, zone 4 a C zone with sector 3073 in use. */
static void test_choice(void) {
    struct volume v = mounted(5, 8, 5), then;
    struct request r;
    run(put(&v, 1, "OLD", 1, 0), 3073, 1);
    v.type[3] = TYPE_D;
    v.type[4] = TYPE_C;
    r = ask(CREATE_FIXED, &v);
    then = v;
    run(made(&then, 2, "NEW", 1, 0), 3072, 1);
    DONE(&r, &then, 2);
    r.flag = 8;
    then = v;
    then.type[2] = TYPE_D;
    run(made(&then, 2, "NEW", 1, 0), 1024, 4);
    DONE(&r, &then, 2);
    r.flag = 4;
    r.size = 3 * 1024;
    then = v;
    run(made(&then, 2, "NEW", 3 * 1024, 0), 3072, 1);
    run(&then.files[1], 3074, 2);
    DONE(&r, &then, 2);
}

/* A volume whose only free block is block k of zone 2, of `type`: every other sector is file 1's. */
static struct volume full_but(uint8_t type, uint32_t size, uint32_t k) {
    struct volume v = mounted(3, 8, 5);
    struct file *f = put(&v, 1, "FULL", 1024 * (1024 - size), 0);
    v.type[2] = type;
    if (k > 0)
        run(f, 1024, k * size);
    if (k + 1 < 1024 / size)
        run(f, 1024 + (k + 1) * size, 1024 - (k + 1) * size);
    return v;
}

/* "The lowest free block" is the only one that is free, wherever it lies in the zone and in a byte of the sector table. A
   zone of type H has one block, and is open while that is free. */
static void test_only_free(void) {
    uint8_t type;
    uint32_t k;
    for (type = TYPE_C; type < TYPE_H; type++) {
        uint32_t size = 1U << 2 * (type - TYPE_C);
        for (k = 0; k < 1024 / size; k++) {
            struct volume v = full_but(type, size, k), then = v;
            struct request r = ask(CREATE_FIXED, &v);
            r.flag = 1 << (type - 1);
            run(made(&then, 2, "NEW", 1, 0), 1024 + k * size, size);
            DONE(&r, &then, 2);
        }
    }
}

/* "12 is answered exactly when no set of distinct free blocks, with each open zone given one type, supplies the
   counts." On desk(0) zone 2 is a C zone with 1,004 free sectors. */
static void test_no_room(void) {
    struct volume v = desk(0), then = desk(0);
    struct request r = ask(CREATE_FIXED, &v);
    r.size = 1004 * 1024;
    run(made(&then, 4, "NEW", 1004 * 1024, 0), 1044, 1004);
    then.chain[0] = 3;
    DONE(&r, &then, 4);
    r.size = 1004 * 1024 + 1;
    REFUSED(&r, 12);
    r.size = INT32_MAX;
    REFUSED(&r, 12);
    r.flag = 128;
    REFUSED(&r, 12);
    r.size = 1;
    r.flag = 8;
    REFUSED(&r, 12);
    r.call = CREATE_VARIABLE;
    r.cell = 4096;
    REFUSED(&r, 12);
    r.cell = 1048576;
    REFUSED(&r, 12);
}

/* A zone of type C whose sectors 1024, 1026, ..., 1044 are held by file 1, in its parent and in child 2. */
static struct volume sieve(uint32_t indexes) {
    struct volume v = spread(3, indexes);
    struct file *f = put(&v, 1, "SIEVE", 11 * 1024, 0);
    uint32_t i;
    v.type[2] = TYPE_C;
    for (i = 0; i < 11; i++)
        run(f, 1024 + 2 * i, 1);
    f->children[0] = 2;
    return v;
}

/* "The parent holds ten, each child 17. Index tables come off the free chain's head, parent first." The eleventh
   pointer is (1045,2). */
static void test_tables(void) {
    struct volume v = sieve(5), then = sieve(5);
    struct request r;
    struct file *f = made(&then, 5, "NEW", 12 * 1024, 0);
    uint32_t i;
    v.chain[0] = 5;
    v.chain[1] = 3;
    then.chain[0] = 4;
    r = ask(CREATE_FIXED, &v);
    r.size = 12 * 1024;
    for (i = 0; i < 10; i++)
        run(f, 1025 + 2 * i, 1);
    run(f, 1045, 2);
    f->children[0] = 3;
    DONE(&r, &then, 5);
    v = sieve(3);
    r = ask(CREATE_FIXED, &v);
    r.size = 12 * 1024;
    REFUSED(&r, 13);
    r.size = 10 * 1024;
    then = sieve(3);
    f = made(&then, 3, "NEW", 10 * 1024, 0);
    for (i = 0; i < 10; i++)
        run(f, 1025 + 2 * i, 1);
    DONE(&r, &then, 3);
    v = sieve(2);
    r = ask(CREATE_VARIABLE, &v);
    REFUSED(&r, 13);
}

void test_create(void) {
    struct volume v = desk(0);
    struct request r;
    group("isc_create_fixed: kinds, counts and dates");
    test_kinds(CREATE_FIXED);
    group("isc_create_variable: kinds, counts and dates");
    test_kinds(CREATE_VARIABLE);
    group("creates: one block of each type");
    test_types();
    group("isc_create_fixed: flags");
    test_flags();
    group("isc_create_fixed: names, of 24 bytes taken, of 25 refused");
    test_names(CREATE_FIXED);
    group("isc_create_variable: names, of 24 bytes taken, of 25 refused");
    test_names(CREATE_VARIABLE);
    group("isc_create_fixed: 7, size, flag, kind, date");
    test_fixed_arguments();
    test_kind_arguments(CREATE_FIXED);
    r = ask(CREATE_FIXED, &v);
    BAD_DATES(&r);
    group("isc_create_variable: 7, cell, kind, date");
    test_cells();
    test_kind_arguments(CREATE_VARIABLE);
    r = ask(CREATE_VARIABLE, &v);
    BAD_DATES(&r);
    group("isc_create_fixed: the choice of blocks");
    test_choice();
    group("isc_create_fixed: the only free block, at each place of a zone");
    test_only_free();
    group("creates: 12 exactly when there is no room");
    test_no_room();
    group("creates: child tables, 13 if too few are free");
    test_tables();
}
