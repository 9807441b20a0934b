/* isc_place_header, isc_show_header with isc_header_place and isc_header_number, and what temporary delete, recover and
   actual delete do with a header. The bytes that they find in the body, where a header is, are those of now_body and no
   file's id: what is written there is written "whatever stood there". */
#include "border.h"
#include <string.h>

enum { TABLES = 40, MOST = 32762 };

/* A volume with files of one sector each in zone 2, of type C; file i is files[i - 1]. */
static struct volume row(uint32_t zones, uint32_t files) {
    struct volume v = spread(zones, TABLES);
    uint32_t i;
    v.type[2] = TYPE_C;
    for (i = 1; i <= files; i++)
        run(put(&v, i, "CURVE", 1, 0), 1023 + i, 1);
    return v;
}

static void head(struct volume *v, uint32_t id, uint32_t start, uint32_t count) {
    v->files[id - 1].header.start = start;
    v->files[id - 1].header.count = count;
}

static struct request placing(const struct volume *v, uint32_t id, uint32_t length) {
    struct request r = ask(PLACE_HEADER, v);
    r.id = id;
    r.in.at = ink;
    r.in.len = length;
    return r;
}

/* The four bytes at a sector's start, in the body afterwards. */
static void put_id(uint32_t sector, uint32_t value) { put_number(then_body + 1024 * (sector - 1024), 4, value); }

/* Done: the header of `length` bytes gets `count` sectors from `start` on; `then` is `v` with its later zone types.
   "The date goes where every request that changes a file puts it. The parent's header pointer is the only other byte of
   the index table that changes." A replaced header's id becomes 0, its other bytes stay. */
static void placed(const struct volume *v, struct volume then, uint32_t id, uint32_t length, uint32_t start,
                   uint32_t count, int line) {
    struct request r = placing(v, id, length);
    struct file *f = &then.files[id - 1];
    memcpy(then_body, now_body, BODY_MOST);
    if (f->header.count > 0)
        put_id(f->header.start, 0);
    head(&then, id, start, count);
    f->changed = then.updated = DAY2;
    paper_header(then_body, f->header, id, ink, length);
    written_at(&r, &then, 0, __FILE__, line);
}

/* "A header is the fewest consecutive sectors, 1 to 32: file id (4 bytes), length L (2), L bytes, then nulls." On a
   volume without headers zone 3, which is open, becomes (2, 1024 - n, 0). */
static void test_lengths(void) {
    static const uint32_t lengths[][2] = {{0, 1},    {1, 1},    {1017, 1},   {1018, 1},   {1019, 2},   {2042, 2},
                                          {2043, 3}, {3066, 3}, {16378, 16}, {31738, 31}, {31739, 32}, {MOST, 32}};
    struct volume v = row(4, 1), then = v;
    size_t i;
    then.type[3] = TYPE_B;
    for (i = 0; i < sizeof lengths / sizeof lengths[0]; i++)
        placed(&v, then, 1, lengths[i][0], 2048, lengths[i][1], __LINE__);
    head(&then, 1, 2048, 32);
    paper_books(&then, now_books);
    if (memcmp(now_books + 1024 * v.zone_at + 12, "\0\2\3\340\0\0", 6) != 0)
        fail(__FILE__, __LINE__, "the test expects another zone entry than (2, 992, 0)");
}

/* "L is 0 to 32,762, else 7." */
static void test_too_long(void) {
    static const size_t lengths[] = {MOST + 1, 32767, 32768, 33000, 65535, 65536, 65537, 98304, 1048576, 4194304};
    struct volume v = row(4, 1);
    size_t i;
    for (i = 0; i < sizeof lengths / sizeof lengths[0]; i++) {
        struct request r = placing(&v, 1, (uint32_t)lengths[i]);
        REFUSED(&r, 7);
    }
}

/* "Else the lowest open zone": type 0, or "type 2-8 with every block free". */
static void test_open_zones(void) {
    struct volume v, then;
    uint8_t type;
    for (type = 0; type <= TYPE_H; type++)
        if (type != 1) {
            v = row(4, 1);
            v.type[3] = type;
            then = v;
            then.type[3] = TYPE_B;
            placed(&v, then, 1, 1019, 2048, 2, __LINE__);
        }
    /* Zone 2 is open, and the file in zone 3. */
    v = row(4, 1);
    v.files[0].runs[0].start = 2048;
    v.type[2] = TYPE_H;
    v.type[3] = TYPE_C;
    then = v;
    then.type[2] = TYPE_B;
    placed(&v, then, 1, 5, 1024, 1, __LINE__);
    /* Zone 3 has a D block in use; zone 4 is of type H and wholly free; zone 5 is of type 0. */
    v = row(6, 2);
    v.files[1].runs[0].start = 3068;
    v.files[1].runs[0].count = 4;
    v.type[3] = TYPE_D;
    v.type[4] = TYPE_H;
    then = v;
    then.type[4] = TYPE_B;
    placed(&v, then, 2, MOST, 3072, 32, __LINE__);
}

/* "Placing takes the lowest fitting run": in zone 3 the sectors 2048, 2050 and 2051, 2054 to 2056 are free between
   headers, and all from 2089 on. */
static void test_lowest_run(void) {
    static const uint32_t lengths[][3] = {{0, 2048, 1},    {1018, 2048, 1}, {1019, 2050, 2},
                                          {2043, 2054, 3}, {3067, 2089, 4}, {MOST, 2089, 32}};
    struct volume v = row(4, 4);
    size_t i;
    v.type[3] = TYPE_B;
    head(&v, 1, 2049, 1);
    head(&v, 2, 2052, 2);
    head(&v, 3, 2057, 32);
    for (i = 0; i < sizeof lengths / sizeof lengths[0]; i++)
        placed(&v, v, 4, lengths[i][0], lengths[i][1], lengths[i][2], __LINE__);
}

/* A zone of type B with headers of one sector in every 32nd, from `first` on, of 32 files from `id` on: no run of more
   than 31 sectors is free. */
static void comb(struct volume *v, uint32_t id, uint32_t first) {
    uint32_t i;
    v->type[first / 1024 + 1] = TYPE_B;
    for (i = 0; i < 32; i++)
        head(v, id + i, first + 32 * i + 31, 1);
}

/* "In the lowest B zone that isn't open", if the run fits there; "else the lowest open zone". */
static void test_lowest_zone(void) {
    struct volume v = row(6, 2), then;
    /* Zone 3 is open and lower, but zone 4 has a header; then zone 5 has it, and zone 4, of type B too, is open. */
    v.type[4] = v.type[5] = TYPE_B;
    head(&v, 1, 3072, 1);
    placed(&v, v, 2, 1, 3073, 1, __LINE__);
    head(&v, 1, 4096, 1);
    placed(&v, v, 2, 1, 4097, 1, __LINE__);
    /* 32 sectors do not fit into zone 3, but into zone 5; 31 fit. Zone 4 is open. */
    v = row(6, 34);
    comb(&v, 1, 2048);
    placed(&v, v, 33, 31738, 2048, 31, __LINE__);
    head(&v, 34, 4099, 1);
    v.type[5] = TYPE_B;
    placed(&v, v, 33, 31739, 4100, 32, __LINE__);
    placed(&v, v, 33, 31738, 2048, 31, __LINE__);
    /* They do not fit into zone 3, and zone 5 is open too: zone 4, which is the lower one. */
    head(&v, 34, 0, 0);
    then = v;
    then.type[4] = TYPE_B;
    placed(&v, then, 33, MOST, 3072, 32, __LINE__);
}

/* The run may end with the zone, and none goes on into the next one: zones 3 and 4 are of type B, zone 3's last 31
   sectors and zone 4's first 31 are free. */
static void test_zone_ends(void) {
    struct volume v = row(5, 34);
    uint32_t i;
    v.type[3] = v.type[4] = TYPE_B;
    for (i = 0; i < 31; i++)
        head(&v, 1 + i, 2048 + 32 * i, i == 30 ? 32 : 1);
    head(&v, 32, 2048 + 992, 1);
    head(&v, 33, 3072 + 31, 1);
    placed(&v, v, 34, MOST, 3104, 32, __LINE__);
    placed(&v, v, 34, 31738, 2049, 31, __LINE__);
    for (i = 0; i < 31; i++)
        head(&v, 1 + i, 2048 + 32 * i, 32);
    placed(&v, v, 34, 31738, 3041, 31, __LINE__);
    placed(&v, v, 34, MOST, 3104, 32, __LINE__);
}

/* "No B zone fitting and no open zone: 12", though other zones have free blocks. */
static void test_no_room(void) {
    struct volume v = desk(1);
    struct request r = placing(&v, 1, 0);
    uint32_t i;
    REFUSED(&r, 12);
    v = row(4, 33);
    comb(&v, 1, 2048);
    r = placing(&v, 33, 31739);
    REFUSED(&r, 12);
    placed(&v, v, 33, 31738, 2048, 31, __LINE__);
    for (i = 1; i <= 32; i++)
        head(&v, i, 2048 + 32 * (i - 1), 32);
    for (i = 0; i <= 33; i++) {
        r = placing(&v, 33, i * 992);
        REFUSED(&r, 12);
    }
    /* "12 is judged with [the old header] in place": its own run would do. */
    r = placing(&v, 32, 0);
    REFUSED(&r, 12);
    head(&v, 32, 3040, 31);
    placed(&v, v, 33, 1018, 3071, 1, __LINE__);
    placed(&v, v, 32, 1018, 3071, 1, __LINE__);
    r = placing(&v, 32, 1019);
    REFUSED(&r, 12);
}

/* "A replaced header gets its new place first, then the old id becomes 0 and its run free." On rack() file 2's header
   is (2048,1), file 1's (2049,2). */
static void test_replaced(void) {
    struct volume v = rack(), then;
    placed(&v, v, 1, 0, 2051, 1, __LINE__);
    placed(&v, v, 1, 1019, 2051, 2, __LINE__);
    placed(&v, v, 1, MOST, 2051, 32, __LINE__);
    placed(&v, v, 2, 0, 2051, 1, __LINE__);
    head(&v, 1, 2051, 2);
    placed(&v, v, 1, 1019, 2049, 2, __LINE__); /* the run that was freed */
    placed(&v, v, 1, 2043, 2053, 3, __LINE__);
    /* "A B zone left empty becomes (0,0,0)": file 1's header was alone in zone 4, file 2's is in zone 3. */
    v = row(5, 2);
    v.type[3] = v.type[4] = TYPE_B;
    head(&v, 1, 3075, 32);
    head(&v, 2, 2048, 1);
    then = v;
    then.type[4] = 0;
    placed(&v, then, 1, 1018, 2049, 1, __LINE__);
    placed(&v, v, 2, 1018, 2049, 1, __LINE__);
    /* Alone in the only B zone: it stays of type B, since the new run is taken first. */
    v = row(4, 1);
    v.type[3] = TYPE_B;
    head(&v, 1, 2048, 32);
    placed(&v, v, 1, MOST, 2080, 32, __LINE__);
    head(&v, 1, 2080, 32);
    placed(&v, v, 1, 0, 2048, 1, __LINE__);
}

/* Whatever file it is, its attribute, length, pointers and creation date stay. Then an id of two bytes, and a date that
   is earlier than the last. */
static void test_files(void) {
    static const uint32_t attributes[] = {0, 2, 8, 32, 64 + 2 + 8, 16, 16 + 2, 16 + 8 + 32};
    struct volume v = spread(4, 300), then;
    struct request r;
    size_t i;
    for (i = 0; i < sizeof attributes / sizeof attributes[0]; i++) {
        struct volume w = rack();
        w.files[0].attribute = 16 | attributes[i];
        placed(&w, w, 1, 100, 2051, 1, __LINE__);
        w.files[1].attribute = attributes[i] & ~16U;
        placed(&w, w, 2, 100, 2051, 1, __LINE__);
    }
    run(put(&v, 300, "FAR", 1, 0), 1024, 1);
    v.type[2] = TYPE_C;
    v.chain[0] = 299;
    v.files[0].changed = v.updated = DAY2;
    r = placing(&v, 300, 1000);
    r.date.at = DAY3;
    then = v;
    then.type[3] = TYPE_B;
    head(&then, 1, 2048, 1); /* files[0] */
    then.files[0].changed = then.updated = DAY3;
    memcpy(then_body, now_body, BODY_MOST);
    paper_header(then_body, then.files[0].header, 300, ink, 1000);
    WRITTEN(&r, &then, 0);
}

static void test_bodies(enum call call) {
    static const size_t lengths[] = {0, 1, 1024, 1048576, 2 * 1048576 - 1, 2 * 1048576 + 1, 3 * 1048576};
    struct volume v = rack();
    struct request r;
    size_t i;
    if (call == RECOVER || call == ACTUAL_DELETE)
        v.files[0].attribute |= 1;
    r = ask(call, &v);
    for (i = 0; i < sizeof lengths / sizeof lengths[0]; i++) {
        r.body.len = lengths[i];
        REFUSED(&r, 15);
    }
}

static void test_states(void) {
    struct volume v = rack();
    struct request r;
    group("isc_place_header: 9 and 10");
    v.files[0].attribute = 16 + 4;
    r = ask(PLACE_HEADER, &v);
    REFUSED(&r, 10);
    v.files[0].attribute = 16 + 4 + 1;
    r = ask(PLACE_HEADER, &v);
    REFUSED(&r, 9);
    group("isc_show_header: 9, 10 and 14; write protection does not matter");
    r.call = SHOW_HEADER;
    REFUSED(&r, 9);
    v.files[0].attribute = 16 + 8;
    r = ask(SHOW_HEADER, &v);
    REFUSED(&r, 10);
    v.files[0].attribute = 16 + 4;
    r = ask(SHOW_HEADER, &v);
    SHOWN(&r, 2049, 2);
    head(&v, 1, 0, 0);
    r = ask(SHOW_HEADER, &v);
    REFUSED(&r, 14);
    r.id = 2;
    SHOWN(&r, 2048, 1);
}

/* "Hands back the whole run as it lies in the body": of 1 to 32 sectors, at both ends of zone 2 and at the body's. */
static void test_shown(void) {
    uint32_t count;
    for (count = 1; count <= 32; count++) {
        struct volume v = row(4, 2);
        struct request r;
        v.files[0].runs[0].start = 3071;
        v.files[1].runs[0].start = 3070;
        v.type[2] = TYPE_B;
        v.type[3] = TYPE_C;
        head(&v, 1, 1024, count);
        head(&v, 2, 2048 - count, count);
        r = ask(SHOW_HEADER, &v);
        SHOWN(&r, 1024, count);
        r.id = 2;
        SHOWN(&r, 2048 - count, count);
        v = row(4, 1);
        v.type[3] = TYPE_B;
        head(&v, 1, 3072 - count, count);
        r = ask(SHOW_HEADER, &v);
        SHOWN(&r, 3072 - count, count);
    }
}

/* "Temporary delete writes minus the file's id into its first four bytes in the body, recover writes the id." */
static void test_marks(enum call call, uint32_t id, uint32_t value) {
    struct volume v = spread(4, 300), then;
    struct request r;
    run(put(&v, id, "MARKED", 1, call == RECOVER), 1024, 1);
    v.type[2] = TYPE_C;
    v.type[3] = TYPE_B;
    head(&v, 1, 2500, 3); /* files[0] */
    r = ask(call, &v);
    r.id = id;
    then = v;
    then.files[0].attribute = call == TEMPORARY_DELETE;
    then.files[0].changed = then.updated = DAY2;
    memcpy(then_body, now_body, BODY_MOST);
    put_id(2500, value);
    WRITTEN(&r, &then, 0);
}

/* "Actual delete writes 0 and frees the run." On rack() file 2's header stays in zone 3. */
static void test_freed(void) {
    struct volume v = rack(), then = rack();
    struct request r;
    v.files[0].attribute |= 1;
    r = ask(ACTUAL_DELETE, &v);
    then.files[0] = then.files[1];
    then.files_count = 1;
    then.chain[0] = 1;
    then.chain[1] = 4;
    then.chain[2] = 3;
    then.updated = DAY2;
    memcpy(then_body, now_body, BODY_MOST);
    put_id(2049, 0);
    WRITTEN(&r, &then, 0);
}

/* "A B zone left empty becomes (0,0,0)", as other zones do: here zones 2 and 3, of which file 2 had all that was in
   use. Zone 4, of type B and wholly free, had none of it, and stays. */
static void test_emptied(void) {
    struct volume v = row(6, 0), then;
    struct request r;
    v.type[4] = TYPE_B;
    v.type[5] = TYPE_C;
    run(put(&v, 1, "KEPT", 1, 0), 4096, 1);
    then = v;
    run(put(&v, 2, "GONE", 1, 1), 1030, 1);
    v.type[3] = TYPE_B;
    head(&v, 2, 3040, 32);
    r = ask(ACTUAL_DELETE, &v);
    r.id = 2;
    then.type[2] = 0;
    then.chain[0] = 2;
    then.updated = DAY2;
    memcpy(then_body, now_body, BODY_MOST);
    put_id(3040, 0);
    WRITTEN(&r, &then, 0);
}

/* A refused one of the three writes nothing into the header. */
static void test_kept(void) {
    struct volume v = rack();
    struct request r;
    v.files[0].attribute = 16 + 4;
    r = ask(TEMPORARY_DELETE, &v);
    REFUSED(&r, 10);
    v.files[0].attribute = 16;
    r = ask(RECOVER, &v);
    REFUSED(&r, 9);
    r = ask(ACTUAL_DELETE, &v);
    REFUSED(&r, 9);
    v.files[0].attribute = 16 + 1;
    r = ask(TEMPORARY_DELETE, &v);
    REFUSED(&r, 9);
}

/* "In every request but header placing and actual delete, a file's sectors stay those under its pointers." */
static void test_data_alone(void) {
    struct volume v = rack(), then = rack();
    struct request r = ask(LOCATE, &v);
    uint8_t entry[64];
    struct answer a;
    r.k = 10;
    DONE(&r, NULL, 1044);
    r.k = 11;
    REFUSED(&r, 14);
    r.call = SHOW;
    REFUSED(&r, 14);
    r = ask(GROW, &v);
    r.length = 11265;
    then.files[0].runs[10].count = 2;
    then.files[0].length = 11265;
    then.files[0].changed = then.updated = DAY2;
    DONE(&r, &then, 0);
    r = ask(SPACE, &v);
    memset(&a, 0, sizeof a);
    a.value[0] = 4 * 1024;
    a.value[1] = 2 * 1024 + 21 + 3;
    expect(&r, &a, __FILE__, __LINE__);
    /* "List's 64 bytes show the header pointer." */
    r = ask(LIST, &v);
    r.room = 64;
    memcpy(entry, now_books + 1024 * v.index_at, 64);
    memcpy(entry + ISC_ENTRY_HEADER, "\0\0\10\1\0\2", 6);
    FILLED(&r, 1, entry, 64);
}

/* Blocks are never taken from a zone of type B that is in use, and "a wholly free type B zone is open too". */
static void test_types(void) {
    struct volume v = rack(), then;
    struct request r = ask(CREATE_FIXED, &v);
    uint8_t type;
    for (type = TYPE_D; type <= TYPE_H; type++) {
        r.flag = 1 << (type - 1);
        REFUSED(&r, 12);
    }
    v = row(4, 1);
    v.type[3] = TYPE_B;
    then = v;
    then.type[3] = TYPE_H;
    run(put(&then, 2, "NEW", 1, 0), 2048, 1024);
    then.files[1].created = then.files[1].changed = then.updated = DAY2;
    r = ask(CREATE_FIXED, &v);
    r.flag = 128;
    DONE(&r, &then, 2);
}

static void test_deletes(void) {
    group("isc_temporary_delete: minus the id into the header");
    test_marks(TEMPORARY_DELETE, 1, 0xFFFFFFFF);
    test_marks(TEMPORARY_DELETE, 300, 0xFFFFFED4);
    group("isc_recover: the id into the header");
    test_marks(RECOVER, 1, 1);
    test_marks(RECOVER, 300, 300);
    group("isc_actual_delete: 0 into the header, its sectors free");
    test_freed();
    test_emptied();
    group("isc_temporary_delete, isc_recover, isc_actual_delete: refused, the header stays; 15, the body's length");
    test_kept();
    test_bodies(TEMPORARY_DELETE);
    test_bodies(RECOVER);
    test_bodies(ACTUAL_DELETE);
}

void test_place(void) {
    struct volume v = rack();
    struct request r;
    group("isc_place_header: lengths, and the first header of a volume");
    test_lengths();
    group("isc_place_header: the lowest open zone, of any type");
    test_open_zones();
    group("isc_place_header: the lowest run, in the lowest B zone that has one");
    test_lowest_run();
    test_lowest_zone();
    test_zone_ends();
    group("isc_place_header: 12 exactly when there is no room");
    test_no_room();
    group("isc_place_header: a replaced header");
    test_replaced();
    group("isc_place_header: files of every kind, dates");
    test_files();
    group("isc_place_header: 7, data and date");
    test_too_long();
    r = ask(PLACE_HEADER, &v);
    BAD_DATES(&r);
    group("isc_place_header: 8, ids");
    BAD_IDS(&r);
    group("isc_place_header and isc_show_header: 15, the body's length");
    test_bodies(PLACE_HEADER);
    test_bodies(SHOW_HEADER);
    group("isc_show_header: each length, at both ends of a zone");
    test_shown();
    group("isc_show_header: 8, ids");
    r = ask(SHOW_HEADER, &v);
    BAD_IDS(&r);
    test_states();
    test_deletes();
    group("headers: the other requests see the data alone");
    test_data_alone();
    test_types();
}
