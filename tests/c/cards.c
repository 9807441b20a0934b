/* The paper's bench cards P1 to P11, and the three slips that must not pass. */
#include "border.h"

static struct request create(const struct volume *v, int32_t size, int32_t flag) {
    struct request r = ask(CREATE_FIXED, v);
    r.size = size;
    r.flag = flag;
    return r;
}

/* "P1 M = 1,773 sectors, default: H1 G2 F3 E2 D3 C1." Each type takes the lowest open zone; the G blocks of zone 3 come
   next after the H block of zone 2, and join. "P2 1,240 KiB, H, F, E: 1, 3, 2." */
static void test_counts(void) {
    struct volume v = mounted(8, 8, 5), then = v;
    struct request r = create(&v, 1773 * 1024, 0);
    struct file *f = made(&then, 1, "NEW", 1773 * 1024, 0);
    uint8_t z;
    group("P1");
    for (z = 2; z <= 7; z++)
        then.type[z] = (uint8_t)(TYPE_H + 2 - z);
    run(f, 1024, 1024 + 2 * 256);
    run(f, 3072, 3 * 64);
    run(f, 4096, 2 * 16);
    run(f, 5120, 3 * 4);
    run(f, 6144, 1);
    DONE(&r, &then, 1);
    group("P2");
    v = then = mounted(5, 8, 5);
    r = create(&v, 1240 * 1024, 128 + 32 + 16);
    f = made(&then, 1, "NEW", 1240 * 1024, 0);
    then.type[2] = TYPE_H;
    then.type[3] = TYPE_F;
    then.type[4] = TYPE_E;
    run(f, 1024, 1024 + 3 * 64);
    run(f, 3072, 2 * 16);
    DONE(&r, &then, 1);
}

/* "P3 size 1, H and E: 0, 1. P4 1,048,577 bytes, H: 2." */
static void test_rounding(void) {
    struct volume v = mounted(4, 8, 5), then = v;
    struct request r = create(&v, 1, 128 + 16);
    group("P3");
    run(made(&then, 1, "NEW", 1, 0), 1024, 16);
    then.type[2] = TYPE_E;
    DONE(&r, &then, 1);
    group("P4");
    then = v;
    r = create(&v, 1048577, 128);
    run(made(&then, 1, "NEW", 1048577, 0), 1024, 2048);
    then.type[2] = then.type[3] = TYPE_H;
    DONE(&r, &then, 1);
}

/* The volume after P5, P6 and P8. "Pointers (1024,4), (2048,1)"; "(2049,1)"; "(2050,20)". */
static struct volume after(int files) {
    struct volume v = mounted(4, 8, 5);
    struct file *f = made(&v, 1, "NEW", 5000, 0);
    run(f, 1024, 4);
    run(f, 2048, 1);
    v.type[2] = TYPE_D;
    v.type[3] = TYPE_C;
    if (files > 1)
        run(made(&v, 2, "NEW", 1, 0), 2049, 1);
    if (files > 2)
        run(made(&v, 3, "NEW", 20480, 0), 2050, 20);
    return v;
}

static void test_beside(void) {
    struct volume v = mounted(4, 8, 5), then = after(1);
    struct request r = create(&v, 5000, 0);
    group("P5");
    DONE(&r, &then, 1);
    restand(&r, &then);
    if (get_number(now_books + 1024 * 2 + 6 + 2, 2) != 255 || get_number(now_books + 1024 * 2 + 12 + 2, 2) != 1023)
        fail(__FILE__, __LINE__, "the free counts that the test expects are not the card's 255 and 1023");
    group("P6");
    v = after(1);
    then = after(2);
    r = create(&v, 1, 0);
    DONE(&r, &then, 2);
    group("P7");
    v = after(2);
    r = create(&v, 20480, 0);
    REFUSED(&r, 12);
    group("P8");
    r.flag = 4;
    then = after(3);
    DONE(&r, &then, 3);
}

/* "P9 Z=3, fresh: 5,000 bytes default: 12; with C: (1024,5). P10 Z=36, 33,554,432 bytes, H: (1024,31744),
   (32768,1024)." */
static void test_alone(void) {
    struct volume v = mounted(3, 8, 5), then = v;
    struct request r = create(&v, 5000, 0);
    struct file *f;
    uint32_t z;
    group("P9");
    REFUSED(&r, 12);
    r.flag = 4;
    run(made(&then, 1, "NEW", 5000, 0), 1024, 5);
    then.type[2] = TYPE_C;
    DONE(&r, &then, 1);
    group("P10");
    v = then = mounted(36, 8, 9);
    r = create(&v, 33554432, 128);
    f = made(&then, 1, "NEW", 33554432, 0);
    run(f, 1024, 31744);
    run(f, 32768, 1024);
    for (z = 2; z <= 33; z++)
        then.type[z] = TYPE_H;
    DONE(&r, &then, 1);
}

/* "P11 After P5, read at 4,096 of 2,048: 1,024 bytes from sector 2048; at 5,120: 14; 1,023 wanted at 0: done, 0
   bytes." */
static void test_reading(void) {
    struct volume v = after(1);
    struct request r = ask(READ, &v);
    group("P11");
    r.position = 4096;
    r.length = 2048;
    r.room = 2048;
    FILLED(&r, 1024, now_body + 1048576, 1024);
    r.position = 5120;
    REFUSED(&r, 14);
    r.position = 0;
    r.length = 1023;
    FILLED(&r, 0, now_body, 0);
}

/* "Freed blocks never used again": the next file of the same size gets the same blocks, and the table. */
static void test_freed(void) {
    struct volume v = after(1), then = mounted(4, 8, 5);
    struct request r;
    group("slip: freed blocks are used again");
    v.files[0].attribute = 1;
    r = ask(ACTUAL_DELETE, &v);
    then.updated = DAY2;
    DONE(&r, &then, 0);
    v = then;
    then = after(1);
    r = create(&v, 5000, 0);
    DONE(&r, &then, 1);
    v = after(3);
    v.files[1].attribute = 1;
    r = ask(ACTUAL_DELETE, &v);
    r.id = 2;
    then = after(3);
    then.files[1] = then.files[2];
    then.files_count = 2;
    then.chain[0] = 2;
    DONE(&r, &then, 0);
    v = then;
    r = create(&v, 1, 4);
    then = after(3);
    DONE(&r, &then, 2);
}

/* "A wholly free D zone not given to type H." */
static void test_open(void) {
    struct volume v = mounted(3, 8, 5), then = v;
    struct request r;
    group("slip: a wholly free D zone is given to type H");
    v.type[2] = TYPE_D;
    r = create(&v, 1048576, 128);
    run(made(&then, 1, "NEW", 1048576, 0), 1024, 1024);
    then.type[2] = TYPE_H;
    DONE(&r, &then, 1);
}

/* "A recovered file whose id another file has": a temporarily deleted file keeps its table; once it is actually deleted
   and another file has the id, recover finds an active file. */
static void test_recovered(void) {
    struct volume v = after(1), then;
    struct request r;
    group("slip: a recovered file's id is no other file's");
    v.files[0].attribute = 1;
    then = v;
    r = create(&v, 1, 0);
    run(made(&then, 2, "NEW", 1, 0), 2049, 1);
    DONE(&r, &then, 2);
    v = then;
    then = after(2);
    r = ask(RECOVER, &v);
    DONE(&r, &then, 0);
    v = after(2);
    r = ask(RECOVER, &v);
    REFUSED(&r, 9);
    v.files[0] = v.files[1];
    v.files_count = 1;
    v.type[2] = 0;
    r = ask(RECOVER, &v);
    REFUSED(&r, 8);
}

void test_cards(void) {
    test_counts();
    test_rounding();
    test_beside();
    test_alone();
    test_reading();
    test_freed();
    test_open();
    test_recovered();
}
