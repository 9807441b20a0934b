/* A file is kept together: "before the usual choice, try the block that starts where the file's last pointer ends, if
   it is free, of the wanted type, in a zone that isn't open". In most of these tests a lower block is free (a hole),
   which the usual choice would take, so that the pointers tell which of the two was done. */
#include "border.h"

/* File 1 is variable and of `type`; it has the sectors from `start` on, and their zones are of its type. */
static struct volume shelf(uint32_t zones, uint8_t type, uint32_t start, uint32_t count) {
    struct volume v = spread(zones, 4);
    uint32_t z;
    run(put(&v, 1, "LOG", 0, 16), start, count);
    for (z = start / 1024 + 1; z <= (start + count - 1) / 1024 + 1; z++)
        v.type[z] = type;
    return v;
}

/* Sectors that are in the way: file 2's. */
static void occupy(struct volume *v, uint32_t start, uint32_t count) {
    if (v->files_count == 1)
        put(v, 2, "OTHER", 1, 0);
    run(&v->files[1], start, count);
}

static uint32_t bytes_of(const struct file *f) {
    uint32_t i, sectors = 0;
    for (i = 0; i < f->runs_count; i++)
        sectors += f->runs[i].count;
    return 1024 * sectors;
}

/* A request that lengthens a file which fills all its blocks, by grow or by a write of all that is added. */
static struct request lengthen(enum call call, struct volume *v, uint32_t file, uint32_t more) {
    struct request r;
    v->files[file].length = bytes_of(&v->files[file]);
    r = ask(call, v);
    r.id = v->files[file].id;
    r.position = (int32_t)v->files[file].length;
    r.length = (int32_t)(call == GROW ? v->files[file].length + more : more);
    r.in.len = more;
    return r;
}

/* Whether the body of the volume is one that the tests have. */
static int has_body(const struct volume *v) { return 1048576 * (v->zones - 2) <= BODY_MOST; }

/* The file gets the pointers that it has in `then`, by grow, and by the growth inside write, which fills them. */
static void grows_at(struct volume v, struct volume then, uint32_t file, int line) {
    uint32_t was = bytes_of(&v.files[file]), is = bytes_of(&then.files[file]);
    struct request r = lengthen(GROW, &v, file, is - was);
    grown(&then, file, is);
    done_at(&r, &then, 0, __FILE__, line);
    if (has_body(&v)) {
        r = lengthen(WRITE, &v, file, is - was);
        spill(&then.files[file], was, is - was, 0);
        written_at(&r, &then, is - was, __FILE__, line);
    }
}

#define GROWS(v, then) grows_at(v, then, 0, __LINE__)

/* So many sectors more are refused to file 1, by grow and by write. */
static void refuses_at(struct volume v, uint32_t sectors, uint32_t number, int line) {
    struct request r = lengthen(GROW, &v, 0, 1024 * sectors);
    refused_at(&r, number, __FILE__, line);
    if (has_body(&v)) {
        r = lengthen(WRITE, &v, 0, 1024 * sectors);
        refused_at(&r, number, __FILE__, line);
    }
}

#define REFUSES(v, sectors, number) refuses_at(v, sectors, number, __LINE__)

/* Two files, of a and b blocks of four sectors. Begun side by side, A has blocks 0, 2, 4, ... of zone 2 and B 1, 3, 5,
   ..., each block with a pointer of its own; begun apart, A has the first blocks of zone 2 and B those of zone 3. */
static struct volume two_files(int apart, uint32_t a, uint32_t b) {
    const uint32_t counts[2] = {a, b};
    struct volume v = mounted(4, 8, 5);
    uint32_t i, j;
    v.type[2] = TYPE_D;
    v.type[3] = apart ? TYPE_D : 0;
    for (i = 0; i < 2; i++) {
        struct file *f = put(&v, i + 1, i == 0 ? "A" : "B", 4096 * counts[i], 16);
        if (apart)
            run(f, 1024 * (i + 1), 4 * counts[i]);
        else {
            for (j = 0; j < counts[i]; j++)
                run(f, 1024 + 4 * (i + 2 * j), 4);
            f->children[0] = counts[i] > 10 ? 3 + i : 0;
        }
    }
    return v;
}

/* They grow in turn, a block each time. Side by side the block behind the one's end is the other's, so that the usual
   choice is left: the lowest free block, which is behind both. Apart, B's next is free though zone 2 has lower ones. */
static void test_in_turn(int apart) {
    uint32_t n;
    for (n = 1; n < 13; n++) {
        grows_at(two_files(apart, n, n), two_files(apart, n + 1, n), 0, __LINE__);
        grows_at(two_files(apart, n + 1, n), two_files(apart, n + 1, n + 1), 1, __LINE__);
    }
}

/* Block 0 of zone 2 is free, the file has block 1: it gets block 2, and with two more block 3. A zone of type H is one
   block, which is open where it is free: the file in zone 3 gets zone 2, the lowest open one, and then zone 4. */
static void test_hole(void) {
    struct volume v, then;
    uint8_t type;
    uint32_t blocks;
    for (type = TYPE_C; type < TYPE_H; type++)
        for (blocks = 1; blocks <= 2; blocks++) {
            v = shelf(3, type, 1024 + block_of(type), block_of(type));
            then = v;
            then.files[0].runs[0].count = (1 + blocks) * block_of(type);
            GROWS(v, then);
        }
    v = shelf(5, TYPE_H, 2048, 1024);
    v.type[4] = TYPE_H;
    then = v;
    then.type[2] = TYPE_H;
    run(&then.files[0], 1024, 1024);
    GROWS(v, then);
    run(&then.files[0], 3072, 1024);
    GROWS(v, then);
}

/* Zone 2 by blocks of four sectors: 0 other, 1 and 2 free, 3 other, 4 the file's (1040), 5 and 6 free, 7 other, free
   from 8 on. The file's next are 5, 6, which join; 7 is in use, so 1; then 2, which joins that; 3 is in use, so 8; then
   9, 10. */
static void test_several(void) {
    static const uint32_t gets[] = {1044, 1048, 1028, 1032, 1056, 1060, 1064};
    struct volume v = shelf(3, TYPE_D, 1040, 4), then;
    struct run *last;
    size_t i;
    occupy(&v, 1024, 4);
    occupy(&v, 1036, 4);
    occupy(&v, 1052, 4);
    then = v;
    for (i = 0; i < sizeof gets / sizeof gets[0]; i++) {
        last = &then.files[0].runs[then.files[0].runs_count - 1];
        if (gets[i] == last->start + last->count)
            last->count += 4;
        else
            run(&then.files[0], gets[i], 4);
        GROWS(v, then);
    }
}

/* "Where the file's last pointer ends": behind each of its pointers a block is free, and block 0 too. The last of 10
   pointers is the parent's tenth; the 11th is the first of a child, which the 27th fills; the 28th is in the next. */
static void test_last_pointer(void) {
    static const uint32_t counts[] = {2, 10, 11, 27, 28};
    struct volume v, then;
    size_t i;
    uint32_t j;
    for (i = 0; i < sizeof counts / sizeof counts[0]; i++) {
        v = shelf(3, TYPE_D, 1028, 4);
        for (j = 1; j < counts[i]; j++)
            run(&v.files[0], 1028 + 8 * j, 4);
        v.files[0].children[0] = counts[i] > 10 ? 4 : 0;
        v.files[0].children[1] = counts[i] > 27 ? 2 : 0;
        then = v;
        then.files[0].runs[counts[i] - 1].count = 8;
        GROWS(v, then);
    }
}

/* The file has zone 2 from 1028 on to its end; 1024 is free. */
static struct volume to_zone_end(uint32_t zones) { return shelf(zones, TYPE_D, 1028, 1020); }

/* The block behind the file is not to be had, so 1024 is taken. */
static struct volume back_to_hole(struct volume v) {
    run(&v.files[0], 1024, 4);
    return v;
}

/* "A zone boundary is no obstacle." Zone 3 is of type D, and block 1 of it, at 2052, is in use: the file's next is
   2048, which joins. The one behind that is in use, so 1024 is next; and then, zone 2 being full, 2056. */
static void test_zone_end(void) {
    struct volume v = to_zone_end(5), then;
    v.type[3] = TYPE_D;
    occupy(&v, 2052, 4);
    then = v;
    then.files[0].runs[0].count = 1024;
    GROWS(v, then);
    then = back_to_hole(then);
    GROWS(v, then);
    run(&then.files[0], 2056, 4);
    GROWS(v, then);
}

/* "In a zone that isn't open": zone 3 has the type, but every block of it is free. With 1024 taken zone 2 is full, and
   zone 3, now the lowest open one, gives its block 0. Then zone 2 is open and zone 3 the file's, up to its end: zone 4,
   of type D and wholly free, is passed over for the lower one, which gets the type. */
static void test_open(void) {
    struct volume v = to_zone_end(5), then;
    v.type[3] = TYPE_D;
    then = back_to_hole(v);
    GROWS(v, then);
    run(&then.files[0], 2048, 4);
    GROWS(v, then);
    v = shelf(5, TYPE_D, 2048, 1024);
    v.type[4] = TYPE_D;
    then = v;
    then.type[2] = TYPE_D;
    run(&then.files[0], 1024, 4);
    GROWS(v, then);
    then.files[0].runs[1].count = 8;
    GROWS(v, then);
}

/* "Of the wanted type": zone 3 is of another, its last block is in use and all before it are free. In a zone of type B
   that is the sector of a header. */
static void test_other_types(void) {
    uint8_t type;
    for (type = TYPE_B; type < TYPE_H; type++)
        if (type != TYPE_D) {
            struct volume v = to_zone_end(5);
            v.type[3] = type;
            if (type == TYPE_B) {
                v.files[0].header.start = 3071;
                v.files[0].header.count = 1;
            } else
                occupy(&v, 3072 - block_of(type), block_of(type));
            GROWS(v, back_to_hole(v));
        }
}

/* A withheld block is not free. The file has block 1, block 2 is withheld: it gets block 0, and then block 3, since
   behind block 0 is its own. At a zone's end the same with 2048 withheld. But a zone with a withheld block "is never
   open": with 2052 withheld, and no file in zone 3, its block 0 is taken. */
static void test_withheld_next(void) {
    struct volume v = shelf(4, TYPE_D, 1028, 4), then;
    withhold(&v, 1032);
    then = back_to_hole(v);
    GROWS(v, then);
    run(&then.files[0], 1036, 4);
    GROWS(v, then);
    v = to_zone_end(4);
    v.type[3] = TYPE_D;
    withhold(&v, 2048);
    GROWS(v, back_to_hole(v));
    v.withheld[0] = 2052;
    then = v;
    then.files[0].runs[0].count = 1024;
    GROWS(v, then);
}

/* Behind the file is zone Z, the backup of zone 1, whose sector bits are all set. The file has zone Z-1 but its block
   0, which it gets; with that the volume of three zones is full, and the others have open zones, of which zone 2 is the
   lowest. */
static void test_last_zone(void) {
    static const uint32_t zones[] = {3, 8, 256};
    size_t i;
    for (i = 0; i < sizeof zones / sizeof zones[0]; i++) {
        uint32_t start = 1024 * (zones[i] - 2);
        struct volume v = shelf(zones[i], TYPE_D, start + 4, 1020), then = v;
        run(&then.files[0], start, 4);
        GROWS(v, then);
        if (zones[i] == 3)
            REFUSES(v, 8, 12);
        else {
            run(&then.files[0], 1024, 4);
            then.type[2] = TYPE_D;
            GROWS(v, then);
        }
    }
}

/* "A block so taken joins the last pointer unless its count would pass 32,767; then it gets a pointer of its own." The
   first three blocks of zone 2 are free; the file has all from there on, a block less than a pointer can have. Its end
   is in zone 34, past block 0: 1027 + 32,766 = 33,793 for type C, 1792 + 32,256 = 34,048 for type G. The first block
   more joins; the next gets a pointer, though three lower ones are free; the third joins that. */
static void test_full_pointer(void) {
    uint8_t type;
    for (type = TYPE_C; type < TYPE_H; type++) {
        uint32_t size = block_of(type), most = 32767 / size * size, start = 1024 + 3 * size;
        struct volume v = shelf(36, type, start, most - size), then = v;
        then.files[0].runs[0].count = most;
        GROWS(v, then);
        run(&then.files[0], start + most, size);
        GROWS(v, then);
        then.files[0].runs[1].count = 2 * size;
        GROWS(v, then);
    }
}

/* A new file of `size` bytes, with the pointers of the last file of `then`. */
static void creates_at(const struct volume *v, const struct volume *then, int32_t size, int32_t flag, int line) {
    struct request r = ask(CREATE_FIXED, v);
    r.size = size;
    r.flag = flag;
    done_at(&r, then, then->files[then->files_count - 1].id, __FILE__, line);
}

#define CREATES(v, then, size, flag) creates_at(v, then, size, flag, __LINE__)

/* "A new file's first block is chosen as before." Block 1 of zone 2 is an older file's: the new one gets block 0, the
   lowest, and not block 2 behind the older one's end. Behind block 0 is one in use, so that its next is block 2. */
static void test_first_block(void) {
    struct volume v = shelf(3, TYPE_D, 1028, 4), then;
    struct request r = ask(CREATE_VARIABLE, &v);
    r.cell = 4096;
    then = v;
    run(made(&then, 2, "NEW", 0, 16), 1024, 4);
    DONE(&r, &then, 2);
    then = v;
    run(made(&then, 2, "NEW", 4096, 0), 1024, 4);
    CREATES(&v, &then, 4096, 8);
    run(&then.files[1], 1032, 4);
    then.files[1].length = 4097;
    CREATES(&v, &then, 4097, 8);
}

/* A create of two types is altered where the type changes at a zone's end. Zone 2 is of type C with 1024 free, zone 3
   of type D with only its last block free, 3068, and zone 4 of type C with 3073 in use. 5,000 bytes are D1 C1: 3068,
   and behind it 3072, not 1024; with a second sector 1024, since 3073 is in use. Where zone 4 is wholly free it is
   open, and where it is of type D it is of another type: 1024 both times. */
static void test_create_types(void) {
    struct volume v = shelf(5, TYPE_C, 1025, 1), then;
    v.files[0].length = 1;
    v.type[3] = TYPE_D;
    v.type[4] = TYPE_C;
    occupy(&v, 2048, 1020);
    occupy(&v, 3073, 1);
    then = v;
    run(made(&then, 3, "NEW", 5000, 0), 3068, 5);
    CREATES(&v, &then, 5000, 12);
    run(&then.files[2], 1024, 1);
    then.files[2].length = 5121;
    CREATES(&v, &then, 5121, 12);
    v.files[1].runs_count = 1;
    then = v;
    run(made(&then, 3, "NEW", 5000, 0), 3068, 4);
    run(&then.files[2], 1024, 1);
    CREATES(&v, &then, 5000, 12);
    v.type[4] = TYPE_D;
    occupy(&v, 4092, 4);
    then.files[1] = v.files[1];
    then.type[4] = TYPE_D;
    CREATES(&v, &then, 5000, 12);
}

/* A block of type H always ends at a zone's end. Zones 2 and 4 are of `type`, of each the last block is in use; zone 3
   is open. One block of type H and one of `type`: zone 3, and behind it block 0 of zone 4, not that of zone 2. */
static void test_behind_h(void) {
    uint8_t type;
    for (type = TYPE_C; type < TYPE_H; type++) {
        uint32_t size = block_of(type);
        struct volume v = shelf(5, type, 2048 - size, size), then;
        v.type[4] = type;
        occupy(&v, 4096 - size, size);
        then = v;
        then.type[3] = TYPE_H;
        run(made(&then, 3, "NEW", 1024 * (1024 + size), 0), 2048, 1024 + size);
        CREATES(&v, &then, 1024 * (1024 + (int32_t)size), 128 + (1 << (type - 1)));
    }
}

/* N = 2 and both tables are in use. File 1 has ten pointers, blocks 1, 3, ..., 19 of zone 2, file 2 the nine blocks
   between them; 0 is free, and so are those from 20 on. Block 20 joins the tenth pointer, where block 0 would need a
   table: done. With 22 in use, 20 and 21 are done and one more, block 0, is 13. */
static void test_tables_joined(void) {
    struct volume v = mounted(3, 2, 5), then;
    uint32_t i;
    put(&v, 1, "LOG", 0, 16);
    v.type[2] = TYPE_D;
    for (i = 0; i < 10; i++)
        run(&v.files[0], 1028 + 8 * i, 4);
    for (i = 0; i < 9; i++)
        occupy(&v, 1032 + 8 * i, 4);
    then = v;
    then.files[0].runs[9].count = 8;
    GROWS(v, then);
    occupy(&v, 1024 + 4 * 22, 4);
    occupy(&then, 1024 + 4 * 22, 4);
    then.files[0].runs[9].count = 12;
    GROWS(v, then);
    REFUSES(v, 12, 13);
    REFUSES(v, 900, 13);
}

/* File 1 has `before` blocks of zone 2 with a pointer each, 2, 4, ..., file 2 those between and behind them; 0 and 1
   are free. The next pointer of file 1 has 32,764 sectors: the next block cannot join. It ends in zone 34, past block
   0. */
static struct volume full_last(uint32_t indexes, uint32_t before) {
    struct volume v = mounted(36, indexes, 9);
    uint32_t i;
    put(&v, 1, "LOG", 0, 16);
    for (i = 0; i < before; i++) {
        run(&v.files[0], 1032 + 8 * i, 4);
        occupy(&v, 1036 + 8 * i, 4);
    }
    run(&v.files[0], 1032 + 8 * before, 32764);
    for (i = 2; i <= 34; i++)
        v.type[i] = TYPE_D;
    return v;
}

/* "13 follows the tables that the new choice needs." With nine pointers before the full one the block behind it needs
   the eleventh: 13 where no table is free. With eight, and the block after that in use, two blocks more are the one
   behind and block 0, two pointers more: 13, where the usual choice, blocks 0 and 1 under one pointer, would do; one
   block more is done. Where table 3 is free it becomes the child. */
static void test_tables_apart(void) {
    struct volume v = full_last(2, 9), then;
    uint32_t end;
    REFUSES(v, 4, 13);
    v = full_last(2, 8);
    end = 1032 + 8 * 8 + 32764;
    occupy(&v, end + 4, 4);
    REFUSES(v, 8, 13);
    then = v;
    run(&then.files[0], end, 4);
    GROWS(v, then);
    v.indexes = then.indexes = 3;
    run(&then.files[0], 1024, 4);
    then.files[0].children[0] = 3;
    GROWS(v, then);
}

/* N = 3, one table is free. In zone 3, of type D, ten blocks are free with others between them, the last of them 3068;
   zones 2 and 4 are of type C, and 1024 and 3072 free. D10 C1: 3072 joins the tenth pointer, and the parent is enough,
   where 1024 would need a child. D10 C2 needs it too, since 3073 is in use. */
static void test_create_tables(void) {
    struct volume v = shelf(5, TYPE_C, 1025, 1), then;
    struct request r;
    uint32_t i;
    v.indexes = 3;
    v.files[0].length = 1;
    v.type[3] = TYPE_D;
    v.type[4] = TYPE_C;
    run(&v.files[0], 3073, 1);
    occupy(&v, 2048, 4 * 237);
    for (i = 0; i < 9; i++)
        occupy(&v, 3000 + 8 * i, 4);
    then = v;
    made(&then, 3, "NEW", 40961, 0);
    for (i = 0; i < 10; i++)
        run(&then.files[2], 2996 + 8 * i, i < 9 ? 4 : 5);
    CREATES(&v, &then, 40961, 12);
    r = ask(CREATE_FIXED, &v);
    r.size = 40960 + 1025;
    r.flag = 12;
    REFUSED(&r, 13);
}

/* "Refusal 12 stays as it was." Free in zone 2: blocks 0, 1, 3 and 5; the file has block 2. Four blocks more are 3,
   which joins, 0 and 1, and 5: done; a fifth is 12. With zone 3 open they are followed by its 256, and one more is 12.
   */
static void test_room(void) {
    struct volume v, then;
    uint32_t zones;
    for (zones = 3; zones <= 4; zones++) {
        v = shelf(zones, TYPE_D, 1032, 4);
        occupy(&v, 1040, 4);
        occupy(&v, 1048, 1000);
        then = v;
        then.files[0].runs[0].count = 8;
        run(&then.files[0], 1024, 8);
        run(&then.files[0], 1044, 4);
        GROWS(v, then);
        if (zones == 4) {
            run(&then.files[0], 2048, 1024);
            then.type[3] = TYPE_D;
            GROWS(v, then);
        }
        REFUSES(v, 20 + 1024 * (zones - 3), 12);
    }
}

/* The same for a create: of type D the block 3068 is free, of type C the sectors 1024 and, behind 3068, 3072. D1 C2 are
   all three, D1 C3 is 12. */
static void test_create_room(void) {
    struct volume v = shelf(5, TYPE_C, 1025, 1023), then;
    struct request r;
    v.files[0].length = 1;
    v.type[3] = TYPE_D;
    v.type[4] = TYPE_C;
    occupy(&v, 2048, 1020);
    occupy(&v, 3073, 1023);
    then = v;
    run(made(&then, 3, "NEW", 6144, 0), 3068, 5);
    run(&then.files[2], 1024, 1);
    CREATES(&v, &then, 6144, 12);
    r = ask(CREATE_FIXED, &v);
    r.size = 6145;
    r.flag = 12;
    REFUSED(&r, 12);
}

void test_together(void) {
    group("kept together: two files in turn, side by side: as the usual choice");
    test_in_turn(0);
    group("kept together: two files in turn, each in a zone of its own: one pointer each");
    test_in_turn(1);
    group("kept together: behind a hole, of each type");
    test_hole();
    group("kept together: several blocks in one request, some of them behind one another");
    test_several();
    group("kept together: behind the last pointer, in the parent or in a child");
    test_last_pointer();
    group("kept together: on over a zone's end");
    test_zone_end();
    group("kept together: not into an open zone");
    test_open();
    group("kept together: not into a zone of another type, or of headers");
    test_other_types();
    group("kept together: no withheld block");
    test_withheld_next();
    group("kept together: not into zone Z");
    test_last_zone();
    group("kept together: a pointer of its own where 32,767 would be passed");
    test_full_pointer();
    group("kept together: a new file's first block is the usual choice");
    test_first_block();
    group("kept together: a create's next type behind a zone's end");
    test_create_types();
    test_behind_h();
    group("kept together: 13 by the tables that are needed so");
    test_tables_joined();
    test_tables_apart();
    test_create_tables();
    group("kept together: 12 exactly when there is no room");
    test_room();
    test_create_room();
}
