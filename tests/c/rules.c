/* Volumes in which one book rule is broken and all else, the counts too, is true; and some that look odd and break
   none. Mount, report and space examine them; books.c shows that every function refuses by the same numbers. */
#include "border.h"
#include <string.h>

/* Z = 5, N = 8. File 1 is variable, file 2 fixed; file 2's first pointer goes on from zone 2 into zone 3. */
static struct volume base(void) {
    struct volume v = spread(5, 8);
    struct file *f;
    v.type[2] = TYPE_C;
    v.type[3] = TYPE_D;
    run(put(&v, 1, "A", 3072, 16), 1024, 3);
    f = put(&v, 2, "B", 1, 0);
    run(f, 2044, 8);
    run(f, 2056, 12);
    return v;
}

static void taken(const struct volume *v, int line) {
    struct volume before = *v;
    struct request r;
    before.flag = 0;
    r = ask(MOUNT, &before);
    done_at(&r, v, 0, __FILE__, line);
}

static void broken(const struct volume *v, int line) {
    struct volume before = *v;
    struct request r;
    before.flag = 0;
    r = ask(MOUNT, &before);
    refused_at(&r, 4, __FILE__, line);
    r = ask(REPORT, &before);
    refused_at(&r, 4, __FILE__, line);
    r = ask(SPACE, v);
    refused_at(&r, 4, __FILE__, line);
}

/* R8: "No other attribute weight; not both 32 and 64." */
static void test_attributes(void) {
    uint32_t weight;
    for (weight = 1; weight <= 0x8000; weight *= 2) {
        struct volume v = base();
        v.files[0].attribute |= weight;
        if (weight < 128)
            taken(&v, __LINE__);
        else
            broken(&v, __LINE__);
        v.files[0].attribute |= 96;
        broken(&v, __LINE__);
    }
}

/* R8: "A variable file has one zone type." R6: "its part in each zone is whole blocks." */
static void test_zones(void) {
    struct volume v = base();
    taken(&v, __LINE__);
    v.files[1].attribute = 16;
    broken(&v, __LINE__);
    v = base();
    run(&v.files[0], 2080, 4);
    broken(&v, __LINE__);
    v = base();
    v.files[1].runs[0].count = 6;
    run(&v.files[1], 2050, 2);
    broken(&v, __LINE__);
    v = base();
    run(&v.files[1], 3072, 1);
    broken(&v, __LINE__);
    v.type[4] = TYPE_C;
    taken(&v, __LINE__);
    run(&v.files[1], 4095, 1);
    taken(&v, __LINE__);
    v.files[1].runs[3].count = 2; /* into zone Z */
    broken(&v, __LINE__);
    v = base();
    v.type[4] = TYPE_H;
    taken(&v, __LINE__);
}

/* R5: "a child has at least one" pointer; R6: "a parent has one at least". */
static void test_pointers(void) {
    struct volume v = base();
    uint32_t i;
    for (i = 0; i < 9; i++)
        run(&v.files[0], 1100 + 2 * i, 1);
    taken(&v, __LINE__);
    v.files[0].children[0] = 5;
    broken(&v, __LINE__);
    run(&v.files[0], 1200, 1);
    taken(&v, __LINE__);
    v = base();
    v.files[0].runs_count = 0;
    v.files[0].length = 0;
    broken(&v, __LINE__);
}

/* A volume whose file 1 has ten pointers in its parent table and one, of sector 1200, in child 5. */
static struct volume chained(void) {
    struct volume v = base();
    uint32_t i;
    for (i = 0; i < 9; i++)
        run(&v.files[0], 1100 + 2 * i, 1);
    run(&v.files[0], 1200, 1);
    v.files[0].children[0] = 5;
    return v;
}

/* R5: "Every child stands exactly once in all parents' chains together, and names that chain's parent. All tables before
   the last in a chain are full of pointers." */
static void test_chains(void) {
    struct volume v = chained();
    struct request r;
    uint8_t *first = now_books + 1024 * v.index_at, *child = first + 128 * 4;
    taken(&v, __LINE__);
    r = ask(SPACE, &v);
    put_number(first + 124, 4, 0);
    REFUSED(&r, 4);
    r = ask(SPACE, &v);
    put_number(child + 4, 4, 2);
    REFUSED(&r, 4);
    r = ask(SPACE, &v);
    memcpy(child + 28, first + 64 + 54, 6);
    memset(first + 64 + 54, 0, 6);
    REFUSED(&r, 4);
}

/* R7: "No sector is under two pointers." */
static void test_overlap(void) {
    struct volume v = base();
    run(&v.files[1], 1024, 1);
    broken(&v, __LINE__);
    v = base();
    run(&v.files[1], 2068, 8);
    taken(&v, __LINE__);
    v.files[1].runs[2].start = 2060;
    broken(&v, __LINE__);
    v.files[1].runs[2].start = 2048;
    v.files[1].runs[2].count = 4;
    broken(&v, __LINE__);
}

/* R6: "a count of 1 to 32,767", in zones of type C throughout. */
static void test_count(void) {
    struct volume v = spread(36, 1);
    uint32_t z;
    for (z = 2; z < 36; z++)
        v.type[z] = TYPE_C;
    run(put(&v, 1, "A", 1, 0), 1025, 32767);
    taken(&v, __LINE__);
    v.files[0].runs[0].count = 32768;
    broken(&v, __LINE__);
}

/* R6: a header is "1 to 32 [sectors], within one B zone". base() with zones 3 and 4 of type B, and file 2 in zone 2
   alone. */
static struct volume headed(uint32_t start, uint32_t count) {
    struct volume v = base();
    v.type[3] = v.type[4] = TYPE_B;
    v.files[1].runs_count = 1;
    v.files[1].runs[0].count = 4;
    v.files[1].header.start = 3047;
    v.files[1].header.count = 3;
    v.files[0].header.start = start;
    v.files[0].header.count = count;
    return v;
}

static void test_headers(void) {
    static const struct run good[] = {{0, 0},    {2048, 1},  {2048, 32}, {3015, 32}, {3050, 22}, {3071, 1},
                                      {3072, 1}, {3072, 32}, {4064, 32}, {4095, 1}};
    static const struct run bad[] = {{2048, 0}, {2048, 33}, {2048, 999}, {3050, 23}, {3071, 2}, {4095, 2},
                                     {4096, 1}, {5119, 1},  {1023, 1},   {1100, 1},  {2047, 2}, {3047, 1},
                                     {3046, 2}, {3049, 1},  {3020, 32}};
    size_t i;
    for (i = 0; i < sizeof good / sizeof good[0]; i++) {
        struct volume v = headed(good[i].start, good[i].count);
        taken(&v, __LINE__);
    }
    for (i = 0; i < sizeof bad / sizeof bad[0]; i++) {
        struct volume v = headed(bad[i].start, bad[i].count);
        broken(&v, __LINE__);
    }
}

/* "In R8 a file's sectors and zone type stay those under its ten and seventeen pointers", and these lie in zones of
   type 3-8: file 1 is variable, with three sectors of type C. */
static void test_beside_headers(void) {
    struct volume v = headed(2048, 32);
    v.files[0].length = 3073;
    broken(&v, __LINE__);
    v = headed(2048, 1);
    run(&v.files[1], 2049, 1);
    broken(&v, __LINE__);
    v.type[3] = TYPE_C;
    broken(&v, __LINE__);
    v.files[0].header.start = 3072;
    v.files[1].header.start = 3073;
    taken(&v, __LINE__);
}

/* R8: "Byte length is at most 1,024 x the file's sectors, at least 0, and at least 1 if fixed. Both dates valid." The
   latest update and the initialization date are named by no rule. */
static void test_fields(void) {
    static const uint8_t wrong[6] = {0, 0, 0, 0, 24, 60};
    struct volume v = base();
    v.files[0].length = 0;
    taken(&v, __LINE__);
    v.files[0].length = 3073;
    broken(&v, __LINE__);
    v = base();
    v.files[1].length = 20480;
    taken(&v, __LINE__);
    v.files[1].length = 0;
    broken(&v, __LINE__);
    v = base();
    v.initialized = v.updated = wrong;
    taken(&v, __LINE__);
    v.files[1].created = wrong;
    broken(&v, __LINE__);
    v.files[1].created = DAY3;
    taken(&v, __LINE__);
    v.files[1].changed = wrong;
    broken(&v, __LINE__);
}

void test_rules(void) {
    group("rules: attributes");
    test_attributes();
    group("rules: zones and blocks");
    test_zones();
    group("rules: pointers and children");
    test_pointers();
    group("rules: chains of tables");
    test_chains();
    group("rules: no sector under two pointers");
    test_overlap();
    group("rules: the most sectors under a pointer");
    test_count();
    group("rules: headers");
    test_headers();
    test_beside_headers();
    group("rules: lengths and dates");
    test_fields();
}
