/* isc_read: the bytes moved, exchanged or not, the end, and the numbers 7, 15, 8, 9, 10 and 14. */
#include "border.h"

/* Zone 2 begins the body, with sector 1024. */
static const uint8_t *lies(uint32_t sector) { return now_body + 1024 * (size_t)(sector - 1024); }

/* Puts together what a file of `runs` holds from position on: its sectors in order, each as it lies in the body. */
static void gather(const struct file *f, uint32_t position, uint32_t bytes, int exchange, uint8_t *out) {
    uint32_t i, j, at = 0, b;
    for (i = 0; i < f->runs_count; i++)
        for (j = 0; j < f->runs[i].count; j++, at += 1024)
            for (b = 0; b < 1024; b++)
                if (at + b >= position && at + b < position + bytes)
                    out[at + b - position] = lies(f->runs[i].start + j)[exchange ? b ^ 1U : b];
}

struct reading {
    int32_t position, length;
    uint32_t moved;
};

/* "The wanted length is rounded down to a multiple of 1,024; the smaller of it and what remains is moved." */
static const struct reading readings[] = {
    {0, 0, 0},          {0, 1023, 0},       {0, 1024, 1024},    {0, 1025, 1024},    {0, 2047, 1024},
    {0, 5000, 4096},    {0, 5120, 5120},    {0, 6144, 5120},    {0, 10240, 5120},   {1024, 3072, 3072},
    {3072, 2048, 2048}, {4096, 1024, 1024}, {4096, 2048, 1024}, {4096, 1023, 0},    {2048, 9000, 3072}};

static void test_moved(uint32_t exchange) {
    static uint8_t wanted[5120];
    struct volume v = curve(0);
    struct request r = ask(READ, &v);
    size_t i, more;
    r.id = 3;
    r.exchange = exchange;
    for (i = 0; i < sizeof readings / sizeof readings[0]; i++)
        for (more = 0; more < 2; more++) {
            r.position = readings[i].position;
            r.length = readings[i].length;
            r.room = (size_t)r.length / 1024 * 1024 + 700 * more;
            gather(&v.files[0], (uint32_t)r.position, readings[i].moved, exchange != 0, wanted);
            FILLED(&r, readings[i].moved, wanted, readings[i].moved);
        }
}

/* Through a child table, and of a file that is write-protected, or being written. */
static void test_child(void) {
    static uint8_t wanted[11264];
    struct volume v = desk(1);
    struct request r;
    v.files[0].attribute = 16 + 4 + 2;
    r = ask(READ, &v);
    r.length = 11264;
    r.room = 11264;
    gather(&v.files[0], 0, 11264, 0, wanted);
    FILLED(&r, 11264, wanted, 11264);
    r.position = 10240;
    r.exchange = 1;
    gather(&v.files[0], 10240, 1024, 1, wanted);
    FILLED(&r, 1024, wanted, 1024);
}

/* "Position negative or no multiple of 1,024, or wanted length negative: 7"; "a shorter output buffer gives 7", also
   where less is moved than wanted. */
static void test_arguments(void) {
    static const int32_t positions[] = {-1, -1024, INT32_MIN, 1, 512, 1023, 1025, 6145, INT32_MAX};
    struct volume v = curve(0);
    struct request r = ask(READ, &v);
    size_t i;
    r.id = 3;
    for (i = 0; i < sizeof positions / sizeof positions[0]; i++) {
        r.position = positions[i];
        REFUSED(&r, 7);
    }
    r.position = 0;
    r.length = -1;
    REFUSED(&r, 7);
    r.length = INT32_MIN;
    REFUSED(&r, 7);
    r.length = 1024;
    r.room = 1023;
    REFUSED(&r, 7);
    r.room = 0;
    REFUSED(&r, 7);
    r.position = 4096;
    r.length = 2048;
    r.room = 1024;
    REFUSED(&r, 7);
    r.position = 0;
    r.length = INT32_MAX;
    r.room = 5120;
    REFUSED(&r, 7);
}

/* "Position at or past the end: 14", whatever the length; a variable file of no bytes ends at 0. */
static void test_ends(void) {
    static const int32_t positions[] = {5120, 6144, 9216, 10240, 1048576, INT32_MAX - 1023};
    struct volume v = curve(0);
    struct request r = ask(READ, &v);
    size_t i;
    r.id = 3;
    for (i = 0; i < sizeof positions / sizeof positions[0]; i++) {
        r.position = positions[i];
        r.length = 1024;
        REFUSED(&r, 14);
        r.length = 0;
        REFUSED(&r, 14);
    }
    v = desk(0);
    v.files[0].length = 0;
    r = ask(READ, &v);
    REFUSED(&r, 14);
}

static void test_bodies(void) {
    static const size_t lengths[] = {0, 1, 1024, 1048576, 2 * 1048576 - 1, 2 * 1048576 + 1, 2 * 1048576 + 1024};
    struct volume v = curve(0);
    struct request r = ask(READ, &v);
    size_t i;
    r.id = 3;
    for (i = 0; i < sizeof lengths / sizeof lengths[0]; i++) {
        r.body.len = lengths[i];
        REFUSED(&r, 15);
    }
}

void test_read(void) {
    struct volume v = curve(8);
    struct request r;
    group("isc_read: lengths and buffers");
    test_moved(0);
    group("isc_read: pairs exchanged");
    test_moved(1);
    test_moved(256);
    test_moved(0x80000000);
    group("isc_read: through a child table");
    test_child();
    group("isc_read: 7, position, length and buffer");
    test_arguments();
    group("isc_read: 14, at or past the end");
    test_ends();
    group("isc_read: 15, the body's length");
    test_bodies();
    group("isc_read: 9 and 10");
    r = ask(READ, &v);
    r.id = 3;
    REFUSED(&r, 10);
    v = curve(1);
    restand(&r, &v);
    REFUSED(&r, 9);
    group("isc_read: 8, ids");
    v = desk(1);
    r = ask(READ, &v);
    BAD_IDS(&r);
}
