/* isc_grow: the fewest blocks, the pointers' joining, child tables, and the numbers 7 to 13. */
#include "border.h"

/* A fresh mounted volume with one variable file of one block in zone 2, of the length given. */
static struct volume one_file(uint32_t zones, uint8_t type, uint32_t length) {
    struct volume v = fresh(zones, 8, zones > 8 ? 9 : 5);
    v.flag = 1;
    v.type[2] = type;
    run(put(&v, 1, "LOG", length, 16), 1024, 1U << 2 * (type - TYPE_C));
    return v;
}

/* "Add the fewest blocks of the file's type, and set the length"; "a block next after the last pointer's end joins
   it". */
static void test_fewest(void) {
    static const uint32_t steps[][2] = {{1, 4}, {4096, 4}, {4097, 8}, {8192, 8}, {8193, 12}, {1048576, 1024}};
    struct volume v = one_file(3, TYPE_D, 0), then;
    struct request r;
    size_t i;
    for (i = 0; i < sizeof steps / sizeof steps[0]; i++) {
        r = ask(GROW, &v);
        r.length = (int32_t)steps[i][0];
        then = v;
        grown(&then, 0, steps[i][0]);
        then.files[0].runs[0].count = steps[i][1];
        DONE(&r, &then, 0);
    }
}

/* From zone to zone: four G blocks fill zone 2, the next are taken from zone 3, and join. */
static void test_next_zone(void) {
    struct volume v = one_file(5, TYPE_G, 262144), then = v;
    struct request r = ask(GROW, &v);
    r.length = 4 * 262144 + 1;
    grown(&then, 0, 4 * 262144 + 1);
    then.files[0].runs[0].count = 5 * 256;
    then.type[3] = TYPE_G;
    DONE(&r, &then, 0);
}

/* "Unless the count would pass 32,767." */
static void test_long_pointer(void) {
    struct volume v = one_file(36, TYPE_H, 1), then = v;
    struct request r = ask(GROW, &v);
    uint32_t z;
    r.length = 33554432;
    grown(&then, 0, 33554432);
    then.files[0].runs[0].count = 31744;
    run(&then.files[0], 32768, 1024);
    for (z = 2; z <= 33; z++)
        then.type[z] = TYPE_H;
    DONE(&r, &then, 0);
}

/* "If not longer, no byte changes." */
static void test_not_longer(void) {
    static const int32_t lengths[] = {0, 1, 10239, 10240};
    struct volume v = desk(0);
    struct request r = ask(GROW, &v);
    size_t i;
    for (i = 0; i < sizeof lengths / sizeof lengths[0]; i++) {
        r.length = lengths[i];
        DONE(&r, NULL, 0);
    }
}

/* Within the blocks that it has, a longer file takes no block. */
static void test_length_alone(void) {
    struct volume v = desk(0), then;
    struct request r;
    v.files[0].length = 0;
    then = v;
    r = ask(GROW, &v);
    r.length = 10240;
    grown(&then, 0, 10240);
    DONE(&r, &then, 0);
}

/* The volume on which two files have grown in turn, a sector each time: A holds 1024, 1026, ..., B 1025, 1027, ....
   A's tables are 1, 3, 5, B's are 2, 4, 6; "the parent holds ten, each child 17". */
static struct volume in_turn(uint32_t indexes, uint32_t a, uint32_t b) {
    struct volume v = fresh(3, indexes, 5);
    const uint32_t counts[2] = {a, b};
    uint32_t i, j;
    v.flag = 1;
    v.type[2] = TYPE_C;
    for (i = 0; i < 2; i++) {
        struct file *f = put(&v, i + 1, i == 0 ? "A" : "B", 1024 * counts[i], 16);
        for (j = 0; j < counts[i]; j++)
            run(f, 1024 + i + 2 * j, 1);
        f->children[0] = counts[i] > 10 ? 3 + i : 0;
        f->children[1] = counts[i] > 27 ? 5 + i : 0;
    }
    return v;
}

static void test_in_turn(void) {
    uint32_t n, i;
    for (n = 1; n < 30; n++)
        for (i = 0; i < 2; i++) {
            struct volume v = in_turn(8, n + i, n), then = in_turn(8, n + 1, n + i);
            struct request r = ask(GROW, &v);
            r.id = 1 + i;
            r.length = (int32_t)(1024 * (n + 1));
            grown(&then, i, 1024 * (n + 1));
            DONE(&r, &then, 0);
        }
}

/* N = 4: at the 28th pointer there is no table left; N = 2: at the 11th. */
static void test_no_tables(void) {
    struct volume v = in_turn(4, 27, 27);
    struct request r = ask(GROW, &v);
    r.length = 28 * 1024;
    REFUSED(&r, 13);
    r.id = 2;
    v = in_turn(4, 27, 26);
    restand(&r, &v);
    r.length = 27 * 1024;
    grown(&v, 1, 27 * 1024);
    run(&v.files[1], 1025 + 2 * 26, 1);
    DONE(&r, &v, 0);
    v = in_turn(2, 10, 10);
    r = ask(GROW, &v);
    REFUSED(&r, 13);
    r.length = 20 * 1024;
    REFUSED(&r, 13);
}

/* "All or nothing": 1,004 sectors are free on desk(0). */
static void test_room(void) {
    struct volume v = desk(0), then = desk(0);
    struct request r = ask(GROW, &v);
    r.length = (10 + 1004) * 1024;
    grown(&then, 0, (10 + 1004) * 1024);
    run(&then.files[0], 1044, 1004);
    then.files[0].children[0] = 4;
    then.chain[0] = 3;
    DONE(&r, &then, 0);
    r.length++;
    REFUSED(&r, 12);
    r.length = INT32_MAX;
    REFUSED(&r, 12);
}

/* Read protection does not matter; a fixed file is 11 also if the length is not longer. */
static void test_states(void) {
    struct volume v = desk(0), then;
    struct request r;
    v.files[0].attribute = 16 + 8;
    then = v;
    r = ask(GROW, &v);
    run(&then.files[0], 1044, 1);
    grown(&then, 0, 10241);
    then.files[0].children[0] = 4;
    then.chain[0] = 3;
    DONE(&r, &then, 0);
    r.id = 2;
    REFUSED(&r, 11);
    r.length = 0;
    REFUSED(&r, 11);
    v.files[0].attribute = 16 + 4;
    r = ask(GROW, &v);
    REFUSED(&r, 10);
    r.length = 0;
    REFUSED(&r, 10);
    v.files[0].attribute = 16 + 1;
    r = ask(GROW, &v);
    REFUSED(&r, 9);
}

void test_grow(void) {
    struct volume v = desk(1);
    struct request r;
    group("isc_grow: the fewest blocks, joined");
    test_fewest();
    group("isc_grow: on into the next zone");
    test_next_zone();
    group("isc_grow: a new pointer where 32,767 would be passed");
    test_long_pointer();
    group("isc_grow: no byte changes if not longer");
    test_not_longer();
    group("isc_grow: the length alone");
    test_length_alone();
    group("isc_grow: two files in turn, over two child tables each");
    test_in_turn();
    group("isc_grow: 13 if no table is free");
    test_no_tables();
    group("isc_grow: 12, all or nothing");
    test_room();
    group("isc_grow: 9, 10 and 11");
    test_states();
    group("isc_grow: 7, length and date");
    r = ask(GROW, &v);
    BAD_DATES(&r);
    r.length = -1;
    REFUSED(&r, 7);
    r.length = INT32_MIN;
    REFUSED(&r, 7);
    group("isc_grow: 8, ids");
    r.length = 1;
    BAD_IDS(&r);
}
