/* isc_broken_rule and isc_broken_text: books with known damage, and the rule, kind and place that the paper's words
   then name. "The lowest rule broken is named, in it the lowest place." */
#include "border.h"
#include <string.h>

enum { AT_NOTHING, AT_ZONE, AT_SECTOR, AT_INDEX, AT_COUNT, EDITS_MOST = 3 };

/* A number stored over what the books have there. */
struct edit {
    int place;
    uint32_t offset;
    unsigned bytes; /* 0 after the last */
    uint32_t value;
};

struct damage {
    uint32_t rule, kind, place;
    struct edit edits[EDITS_MOST];
};

/* Z = 6, N = 16. The zone table stands in sector 3, the sector table in 5, the index tables in 7 and 8. Zones 2 and 4
   are of type C, zone 3 is of type D, zone 5 is open; 984, 1018 and 253 blocks are free. Index tables:
     2, 9, 5   A, variable, 29 pointers to every second sector from 1024 on: 10 + 17 + 2
     4, 7      B, fixed, 11 pointers to every second sector from 1200 on: 10 + 1
     6         C, fixed: (2048,8), (2060,4), (3072,5)
     11        D, a directory, temporarily deleted: (3100,1)
   The others are free, in the chain 10, 3, 1, 8, 12, 13, 14, 15, 16. */
static struct volume shelf(void) {
    struct volume v = spread(6, 16);
    struct file *a = put(&v, 2, "A", 29696, 16), *b = put(&v, 4, "B", 11000, 0), *c = put(&v, 6, "C", 17000, 0);
    uint32_t i;
    for (i = 0; i < 29; i++)
        run(a, 1024 + 2 * i, 1);
    for (i = 0; i < 11; i++)
        run(b, 1200 + 2 * i, 1);
    run(c, 2048, 8);
    run(c, 2060, 4);
    run(c, 3072, 5);
    run(put(&v, 11, "D", 1, 32 + 1), 3100, 1);
    v.type[2] = v.type[4] = TYPE_C;
    v.type[3] = TYPE_D;
    a->children[0] = 9;
    a->children[1] = 5;
    b->children[0] = 7;
    v.chain[0] = 10;
    v.chain[1] = 3;
    return v;
}

/* As shelf(), but every table of the chains is full of pointers, so that no link is a gap: A has the tables 2, 5, 9 and
   12, B has 4 and 7. */
static struct volume full_shelf(void) {
    struct volume v = shelf();
    struct file *a = &v.files[0], *b = &v.files[1];
    a->children[0] = 5;
    a->children[1] = 9;
    a->children[2] = 12;
    while (a->runs_count < 10 + 3 * 17)
        run(a, 1024 + 2 * a->runs_count, 1);
    while (b->runs_count < 10 + 17)
        run(b, 1200 + 2 * b->runs_count, 1);
    return v;
}

static void spoil(const struct volume *v, const struct damage *d) {
    size_t i;
    for (i = 0; i < EDITS_MOST && d->edits[i].bytes > 0; i++)
        put_number(spot(v, now_books, d->edits[i].place, d->edits[i].offset), d->edits[i].bytes, d->edits[i].value);
}

/* Both functions; and where a rule is named, the report says 4 of the same books. */
static void names(struct request *r, const struct damage *d, const char *file, int line) {
    r->call = BROKEN_RULE;
    named_at(r, d->rule, d->kind, d->place, file, line);
    r->call = BROKEN_TEXT;
    r->room = 64;
    named_at(r, d->rule, d->kind, d->place, file, line);
    if (d->rule > 0) {
        r->call = REPORT;
        r->room = 192;
        refused_at(r, 4, file, line);
    }
}

/* Each damage by itself, on the volume mounted and not: the broken rule "needs no mounted volume". */
static void try_all(struct volume v, const struct damage *list, size_t count, const char *file) {
    size_t i;
    for (i = 0; i < 2 * count; i++) {
        struct request r;
        v.flag = i % 2;
        r = ask(BROKEN_RULE, &v);
        spoil(&v, &list[i / 2]);
        names(&r, &list[i / 2], file, (int)(i / 2));
    }
}

#define TRY(v, list) try_all(v, list, sizeof list / sizeof list[0], __FILE__ ":" #list)

/* No rule is named, and mount finds none: of the mounted volume it says 6, which is examined after 4. */
static void unbroken(const struct volume *v, int line) {
    static const struct damage none;
    struct volume on = *v;
    struct request r = ask(BROKEN_RULE, v);
    names(&r, &none, __FILE__, line);
    on.flag = 1;
    r = ask(MOUNT, &on);
    refused_at(&r, 6, __FILE__, line);
}

/* "`rule=none` alone if nothing fails": in fresh books and in used ones, with noise where nothing is examined. */
static void test_lawful(void) {
    struct volume v = fresh(3, 8, 5);
    unbroken(&v, __LINE__);
    v = mounted(3, 8, 5);
    unbroken(&v, __LINE__);
    v = fresh(256, 4096, 1024);
    unbroken(&v, __LINE__);
    v = desk(0);
    unbroken(&v, __LINE__);
    v = desk(1);
    unbroken(&v, __LINE__);
    v = curve(5);
    unbroken(&v, __LINE__);
    v = shelf();
    unbroken(&v, __LINE__);
    v.flag = 0;
    unbroken(&v, __LINE__);
    v = full_shelf();
    unbroken(&v, __LINE__);
}

/* "R1 names a sector": that of the lowest byte of a tail that is not null. The tables have 6 x 6 and 6 x 128 bytes. */
static void test_r1(void) {
    static const struct damage r1[] = {
        {1, AT_SECTOR, 3, {{ZONE_TABLE, 36, 1, 1}}},
        {1, AT_SECTOR, 3, {{ZONE_TABLE, 1023, 1, 128}}},
        {1, AT_SECTOR, 5, {{SECTOR_TABLE, 768, 1, 128}}},
        {1, AT_SECTOR, 5, {{SECTOR_TABLE, 1023, 1, 1}}},
        {1, AT_SECTOR, 3, {{SECTOR_TABLE, 900, 1, 1}, {ZONE_TABLE, 1000, 1, 1}}}, /* both: the lower */
    };
    TRY(shelf(), r1);
}

/* Tables of several sectors: Z = 201, so the zone table has 1,206 bytes, from sector 3 on, and the sector table 25,728,
   which is 25 sectors and 128 bytes, from sector 6 on. */
static void test_r1_far(void) {
    static const struct damage far[] = {
        {1, AT_SECTOR, 4, {{ZONE_TABLE, 1206, 1, 1}}},
        {1, AT_SECTOR, 4, {{ZONE_TABLE, 2047, 1, 1}}},
        {1, AT_SECTOR, 31, {{SECTOR_TABLE, 25728, 1, 1}}},
        {1, AT_SECTOR, 31, {{SECTOR_TABLE, 26623, 1, 1}}},
    };
    static const struct damage last[] = {{1, AT_SECTOR, 1022, {{SECTOR_TABLE, 32640, 1, 128}}}};
    struct volume v = fresh(255, 1, 1024);
    TRY(spread(201, 8), far);
    /* The highest sector that R1 can name: the sector table's 32nd, with the one index table in the last sector. */
    v.sector_at = 991;
    v.index_at = 1023;
    TRY(v, last);
}

/* "R2 a zone": the lowest whose entry or bits are wrong. Zone z's entry is at 6(z-1), its bits are at 128(z-1). */
static void test_r2(void) {
    static const struct damage r2[] = {
        /* "Zone 1 reads (1, -1, Z)" */
        {2, AT_ZONE, 1, {{ZONE_TABLE, 0, 2, 3}}},
        {2, AT_ZONE, 1, {{ZONE_TABLE, 2, 2, 0}}},
        {2, AT_ZONE, 1, {{ZONE_TABLE, 4, 2, 5}}},
        /* "zone Z reads (-1, -1, 1)" */
        {2, AT_ZONE, 6, {{ZONE_TABLE, 30, 2, 1}}},
        {2, AT_ZONE, 6, {{ZONE_TABLE, 32, 2, 1}}},
        {2, AT_ZONE, 6, {{ZONE_TABLE, 34, 2, 6}}},
        /* "and all their sector bits are set" */
        {2, AT_ZONE, 1, {{SECTOR_TABLE, 0, 1, 0x7F}}},
        {2, AT_ZONE, 1, {{SECTOR_TABLE, 127, 1, 0xFE}}},
        {2, AT_ZONE, 6, {{SECTOR_TABLE, 640, 1, 0x7F}}},
        {2, AT_ZONE, 6, {{SECTOR_TABLE, 767, 1, 0xFE}}},
        /* "Others: (0,0,0) with bits clear" */
        {2, AT_ZONE, 5, {{ZONE_TABLE, 26, 2, 1024}}},
        {2, AT_ZONE, 5, {{ZONE_TABLE, 28, 2, 1}}},
        {2, AT_ZONE, 5, {{SECTOR_TABLE, 512, 1, 0x80}}},
        {2, AT_ZONE, 5, {{SECTOR_TABLE, 639, 1, 0x01}}},
        {2, AT_ZONE, 3, {{ZONE_TABLE, 12, 2, 0}}},
        /* "or type 2-8 with third field 0" */
        {2, AT_ZONE, 3, {{ZONE_TABLE, 12, 2, 1}}},
        {2, AT_ZONE, 3, {{ZONE_TABLE, 12, 2, 9}}},
        {2, AT_ZONE, 3, {{ZONE_TABLE, 12, 2, 0xFFFF}}},
        {2, AT_ZONE, 4, {{ZONE_TABLE, 22, 2, 1}}},
        /* Several: the lowest, whether it is the entry that is wrong or the bits. */
        {2, AT_ZONE, 2, {{ZONE_TABLE, 22, 2, 1}, {ZONE_TABLE, 10, 2, 1}}},
        {2, AT_ZONE, 1, {{ZONE_TABLE, 30, 2, 1}, {SECTOR_TABLE, 64, 1, 0xFE}}},
        {2, AT_ZONE, 4, {{SECTOR_TABLE, 700, 1, 0xFE}, {ZONE_TABLE, 22, 2, 1}}},
        {2, AT_ZONE, 5, {{ZONE_TABLE, 30, 2, 1}, {SECTOR_TABLE, 600, 1, 1}}},
    };
    TRY(shelf(), r2);
}

/* "R3 a zone". Sectors 2048 to 2055 are byte 256 of the sector table, all set; 2400 to 2407 are byte 300, all clear. */
static void test_r3(void) {
    static const struct damage r3[] = {
        /* "the free count is the number of clear blocks" */
        {3, AT_ZONE, 2, {{ZONE_TABLE, 8, 2, 983}}},
        {3, AT_ZONE, 2, {{ZONE_TABLE, 8, 2, 985}}},
        {3, AT_ZONE, 3, {{ZONE_TABLE, 14, 2, 252}}},
        {3, AT_ZONE, 4, {{ZONE_TABLE, 20, 2, 0xFFFF}}},
        /* "each block is wholly set or wholly clear": blocks of 4 sectors in zone 3 */
        {3, AT_ZONE, 3, {{SECTOR_TABLE, 256, 1, 0x7F}}},
        {3, AT_ZONE, 3, {{SECTOR_TABLE, 300, 1, 0x01}}},
        {3, AT_ZONE, 3, {{SECTOR_TABLE, 300, 1, 0x01}, {ZONE_TABLE, 14, 2, 252}}},
        /* of type D, zone 2 would have a block of 1024 to 1027 with two bits set */
        {3, AT_ZONE, 2, {{ZONE_TABLE, 6, 2, 4}}},
        /* of type B, zone 3 would have 1,012 free sectors */
        {3, AT_ZONE, 3, {{ZONE_TABLE, 12, 2, 2}}},
        /* Several: the lowest. */
        {3, AT_ZONE, 3, {{ZONE_TABLE, 20, 2, 1017}, {SECTOR_TABLE, 256, 1, 0xEF}}},
        {3, AT_ZONE, 2, {{SECTOR_TABLE, 256, 1, 0x7F}, {ZONE_TABLE, 8, 2, 0}}},
    };
    TRY(shelf(), r3);
}

/* "R4 (own bytes) ... an index": "Index i begins with 0 (then its bytes 4-123 are zero), i or -i." */
static void test_r4_own(void) {
    static const struct damage own[] = {
        {4, AT_INDEX, 3, {{INDEX + 3, 4, 1, 1}}},
        {4, AT_INDEX, 3, {{INDEX + 3, 123, 1, 128}}},
        {4, AT_INDEX, 16, {{INDEX + 16, 0, 4, 15}}},
        {4, AT_INDEX, 16, {{INDEX + 16, 0, 4, 0xFFFFFFF1}}}, /* -15 */
        {4, AT_INDEX, 16, {{INDEX + 16, 0, 4, 0x80000010}}},
        {4, AT_INDEX, 16, {{INDEX + 16, 0, 4, 0x00100000}}},
        {4, AT_INDEX, 6, {{INDEX + 6, 0, 4, 7}}},
        {4, AT_INDEX, 6, {{INDEX + 6, 0, 4, 0}}},
        {4, AT_INDEX, 9, {{INDEX + 9, 0, 4, 0}}},
        {4, AT_INDEX, 9, {{INDEX + 9, 0, 4, 0xFFFFFFFB}}}, /* -5 */
        {4, AT_INDEX, 3, {{INDEX + 12, 50, 1, 1}, {INDEX + 3, 50, 1, 1}}},
        /* "The chain is named only where every table's own bytes are right." */
        {4, AT_INDEX, 12, {{SECTOR_1, 26, 4, 0}, {INDEX + 12, 50, 1, 1}}},
        {4, AT_INDEX, 16, {{INDEX + 10, 124, 4, 10}, {INDEX + 16, 123, 1, 1}}},
    };
    TRY(shelf(), own);
}

/* "R4's chain [is] kind `count`, place 0": "The free chain starts from sector 1 and meets every free index once,
   nothing else." */
static void test_r4_chain(void) {
    static const struct damage chain[] = {
        {4, AT_COUNT, 0, {{SECTOR_1, 26, 4, 0}}},           /* meets none */
        {4, AT_COUNT, 0, {{SECTOR_1, 26, 4, 3}}},           /* passes over table 10 */
        {4, AT_COUNT, 0, {{INDEX + 3, 124, 4, 8}}},         /* passes over table 1 */
        {4, AT_COUNT, 0, {{INDEX + 15, 124, 4, 0}}},        /* ends before table 16 */
        {4, AT_COUNT, 0, {{INDEX + 16, 124, 4, 10}}},       /* a circle of all */
        {4, AT_COUNT, 0, {{INDEX + 16, 124, 4, 16}}},       /* a circle of one */
        {4, AT_COUNT, 0, {{SECTOR_1, 26, 4, 6}}},           /* a parent */
        {4, AT_COUNT, 0, {{INDEX + 16, 124, 4, 7}}},        /* a child behind the last */
        {4, AT_COUNT, 0, {{INDEX + 16, 124, 4, 17}}},       /* above N */
        {4, AT_COUNT, 0, {{SECTOR_1, 26, 4, 0xFFFFFFFF}}},  /* no number of a table */
        {4, AT_COUNT, 0, {{INDEX + 13, 124, 4, 0x8000000E}}},
        {4, AT_COUNT, 0, {{INDEX + 16, 0, 4, 16}}},         /* table 16 is a parent now, and in the chain */
        {4, AT_COUNT, 0, {{INDEX + 16, 0, 4, 0xFFFFFFF0}}}, /* or a child */
    };
    static const struct damage freed = {4, AT_COUNT, 0, {{0, 0, 0, 0}}};
    struct volume v = shelf();
    struct request r;
    TRY(v, chain);
    /* File 11's table, all zeros: a free table with the right bytes, which the chain does not meet. */
    r = ask(BROKEN_RULE, &v);
    memset(spot(&v, now_books, INDEX + 11, 0), 0, 128);
    names(&r, &freed, __FILE__, __LINE__);
}

/* "R5 (the failing child": one that stands not once in the chains, names another parent, or has no used pointer. */
static void test_r5_children(void) {
    static const struct damage children[] = {
        /* in no chain */
        {5, AT_INDEX, 7, {{INDEX + 4, 124, 4, 0}}},
        {5, AT_INDEX, 5, {{INDEX + 9, 124, 4, 0}}},
        {5, AT_INDEX, 5, {{INDEX + 2, 124, 4, 0}}}, /* 9 and 5 */
        /* in two chains: 9 and 5, while 7 is in none; then 5 alone, while 7 has a gap */
        {5, AT_INDEX, 5, {{INDEX + 4, 124, 4, 9}}},
        {5, AT_INDEX, 5, {{INDEX + 7, 124, 4, 5}}},
        /* a circle: of 9 and 5, and of 7 alone */
        {5, AT_INDEX, 5, {{INDEX + 5, 124, 4, 9}}},
        {5, AT_INDEX, 7, {{INDEX + 7, 124, 4, 7}}},
        /* another parent: a file, none, itself, the child before it, a number of no table */
        {5, AT_INDEX, 7, {{INDEX + 7, 4, 4, 2}}},
        {5, AT_INDEX, 7, {{INDEX + 7, 4, 4, 0}}},
        {5, AT_INDEX, 9, {{INDEX + 9, 4, 4, 9}}},
        {5, AT_INDEX, 5, {{INDEX + 5, 4, 4, 9}}},
        {5, AT_INDEX, 5, {{INDEX + 5, 4, 4, 0x80000002}}},
        /* no pointer */
        {5, AT_INDEX, 7, {{INDEX + 7, 22, 4, 0}, {INDEX + 7, 26, 2, 0}}},
        /* several: the lowest */
        {5, AT_INDEX, 5, {{INDEX + 7, 4, 4, 2}, {INDEX + 5, 4, 4, 4}}},
        {5, AT_INDEX, 7, {{INDEX + 9, 4, 4, 4}, {INDEX + 4, 124, 4, 0}}},
    };
    TRY(shelf(), children);
}

/* "or the table with a bad link": one that is not 0 and not the number of a child. Where it is 4's, child 7 is in no
   chain then, but 4 is lower. */
static void test_r5_links(void) {
    static const struct damage links[] = {
        {5, AT_INDEX, 4, {{INDEX + 4, 124, 4, 3}}},  /* free */
        {5, AT_INDEX, 4, {{INDEX + 4, 124, 4, 6}}},  /* a parent */
        {5, AT_INDEX, 4, {{INDEX + 4, 124, 4, 4}}},  /* itself */
        {5, AT_INDEX, 4, {{INDEX + 4, 124, 4, 17}}}, /* above N */
        {5, AT_INDEX, 4, {{INDEX + 4, 124, 4, 0xFFFFFFF9}}}, /* -7, as child 7 begins */
        {5, AT_INDEX, 4, {{INDEX + 4, 124, 4, 0x80000007}}},
        {5, AT_INDEX, 4, {{INDEX + 4, 124, 4, 0x00010007}}},
        {5, AT_INDEX, 2, {{INDEX + 2, 124, 4, 16}}},
        {5, AT_INDEX, 6, {{INDEX + 6, 124, 4, 3}}},
        {5, AT_INDEX, 11, {{INDEX + 11, 124, 4, 17}}}, /* a deleted file's too */
        {5, AT_INDEX, 5, {{INDEX + 9, 124, 4, 11}}},   /* 9's link is bad, but 5 is in no chain then */
        {5, AT_INDEX, 4, {{INDEX + 7, 124, 4, 3}, {INDEX + 4, 124, 4, 3}}},
    };
    TRY(shelf(), links);
}

/* "or a gap": "All tables before the last in a chain are full of pointers." The last pointer of a table is at 118. */
static void test_r5_gaps(void) {
    static const struct damage gaps[] = {
        {5, AT_INDEX, 4, {{INDEX + 4, 118, 4, 0}, {INDEX + 4, 122, 2, 0}}},
        {5, AT_INDEX, 9, {{INDEX + 9, 118, 4, 0}, {INDEX + 9, 122, 2, 0}}},
        /* the first pointer, which R6 names too */
        {5, AT_INDEX, 4, {{INDEX + 4, 64, 4, 0}, {INDEX + 4, 68, 2, 0}}},
        /* child 7, under file 6 now and naming it: file 6 has three pointers */
        {5, AT_INDEX, 6, {{INDEX + 4, 124, 4, 0}, {INDEX + 6, 124, 4, 7}, {INDEX + 7, 4, 4, 6}}},
        {5, AT_INDEX, 4, {{INDEX + 7, 4, 4, 2}, {INDEX + 4, 118, 4, 0}, {INDEX + 4, 122, 2, 0}}},
    };
    TRY(shelf(), gaps);
}

/* In full tables, where no link is a gap: A's chain is 2, 5, 9, 12 and B's 4, 7. */
static void test_r5_full(void) {
    static const struct damage full[] = {
        /* a circle meets its tables for ever, and those before it once */
        {5, AT_INDEX, 9, {{INDEX + 12, 124, 4, 9}}},
        {5, AT_INDEX, 12, {{INDEX + 12, 124, 4, 12}}},
        {5, AT_INDEX, 5, {{INDEX + 12, 124, 4, 5}}},
        {5, AT_INDEX, 7, {{INDEX + 7, 124, 4, 7}}},
        /* a circle that no parent leads to: 9 and 12 are in no chain */
        {5, AT_INDEX, 9, {{INDEX + 5, 124, 4, 0}, {INDEX + 12, 124, 4, 9}}},
        /* two chains that meet: 9 and 12 stand in both */
        {5, AT_INDEX, 9, {{INDEX + 7, 124, 4, 9}}},
        {5, AT_INDEX, 12, {{INDEX + 7, 124, 4, 12}}},
        /* B's chain ends in A's circle */
        {5, AT_INDEX, 9, {{INDEX + 12, 124, 4, 9}, {INDEX + 7, 124, 4, 12}}},
        /* a bad link at the end of a chain: a parent, its own parent, free, above N */
        {5, AT_INDEX, 7, {{INDEX + 7, 124, 4, 6}}},
        {5, AT_INDEX, 7, {{INDEX + 7, 124, 4, 4}}},
        {5, AT_INDEX, 7, {{INDEX + 7, 124, 4, 3}}},
        {5, AT_INDEX, 12, {{INDEX + 12, 124, 4, 17}}},
        {5, AT_INDEX, 12, {{INDEX + 12, 124, 4, 0xFFFFFFFF}}},
    };
    /* Nothing says that the numbers of a chain ascend: 2, 9, 5, 12 is as lawful. */
    static const struct damage turned[] = {
        {0, AT_NOTHING, 0, {{INDEX + 2, 124, 4, 9}, {INDEX + 9, 124, 4, 5}, {INDEX + 5, 124, 4, 12}}}};
    TRY(full_shelf(), full);
    TRY(full_shelf(), turned);
}

/* N = 4, and the one chain is 1, 4, 3, 2, of full tables. A walk of N links has met some tables of a circle only once;
   they fail all the same. */
static void test_r5_tight(void) {
    static const struct damage tight[] = {
        {5, AT_INDEX, 2, {{INDEX + 2, 124, 4, 4}}}, /* a circle of 4, 3, 2 */
        {5, AT_INDEX, 2, {{INDEX + 2, 124, 4, 3}}}, /* of 3, 2 */
        {5, AT_INDEX, 2, {{INDEX + 2, 124, 4, 2}}},
        {5, AT_INDEX, 2, {{INDEX + 3, 124, 4, 4}}}, /* of 4, 3, with 2 in no chain */
        {5, AT_INDEX, 3, {{INDEX + 4, 124, 4, 2}}}, /* 3, with its link to 2, is in no chain */
    };
    struct volume v = spread(3, 4);
    struct file *f = put(&v, 1, "A", 1, 0);
    v.type[2] = TYPE_C;
    while (f->runs_count < 10 + 3 * 17)
        run(f, 1024 + 2 * f->runs_count, 1);
    f->children[0] = 4;
    f->children[1] = 3;
    f->children[2] = 2;
    unbroken(&v, __LINE__);
    TRY(v, tight);
}

/* "R6 an index". A pointer that is not zero is used, since "unused ones are zero". */
static void test_r6(void) {
    static const struct damage r6[] = {
        /* "Used pointers come first" */
        {6, AT_INDEX, 6, {{INDEX + 6, 64, 4, 0}, {INDEX + 6, 68, 2, 0}}},
        {6, AT_INDEX, 6, {{INDEX + 6, 70, 4, 0}, {INDEX + 6, 74, 2, 0}}},
        {6, AT_INDEX, 5, {{INDEX + 5, 22, 4, 0}, {INDEX + 5, 26, 2, 0}}},
        /* data in a zone of type B: zone 3, with 1,012 free sectors, and zone 2, whose blocks have one sector too */
        {6, AT_INDEX, 6, {{ZONE_TABLE, 12, 2, 2}, {ZONE_TABLE, 14, 2, 1012}}},
        {6, AT_INDEX, 2, {{ZONE_TABLE, 6, 2, 2}}},
        /* "A parent has one at least"; a header pointer is six zero bytes, or a run in a zone of type B */
        {6, AT_INDEX, 11, {{INDEX + 11, 64, 4, 0}, {INDEX + 11, 68, 2, 0}}},
        {6, AT_INDEX, 6, {{INDEX + 6, 58, 4, 1}}},
        {6, AT_INDEX, 2, {{INDEX + 2, 62, 2, 0x8000}}},
        /* "a count of 1 to 32,767" */
        {6, AT_INDEX, 6, {{INDEX + 6, 80, 2, 0}}},
        {6, AT_INDEX, 7, {{INDEX + 7, 26, 2, 0}}},
        {6, AT_INDEX, 6, {{INDEX + 6, 80, 2, 0x8005}}},
        {6, AT_INDEX, 5, {{INDEX + 5, 32, 2, 0xFFFF}}},
        /* "lies in zones of type 3-8": in zone 1, in zone Z, past it, in an open zone, from zone 4 into it */
        {6, AT_INDEX, 7, {{INDEX + 7, 22, 4, 0}}},
        {6, AT_INDEX, 11, {{INDEX + 11, 64, 4, 1023}}},
        {6, AT_INDEX, 11, {{INDEX + 11, 64, 4, 5120}}},
        {6, AT_INDEX, 11, {{INDEX + 11, 64, 4, 6144}}},
        {6, AT_INDEX, 11, {{INDEX + 11, 64, 4, 0xFFFFFFFF}}},
        {6, AT_INDEX, 11, {{INDEX + 11, 64, 4, 4096}}},
        {6, AT_INDEX, 6, {{INDEX + 6, 80, 2, 1025}}},
        /* "its part in each zone is whole blocks" */
        {6, AT_INDEX, 6, {{INDEX + 6, 68, 2, 7}}},
        {6, AT_INDEX, 6, {{INDEX + 6, 64, 4, 2049}}},
        {6, AT_INDEX, 6, {{INDEX + 6, 64, 4, 2046}}}, /* 2046 to 2053: of zone 3 one block and a half */
        /* several: the lowest, parent or child */
        {6, AT_INDEX, 5, {{INDEX + 11, 62, 2, 1}, {INDEX + 5, 26, 2, 0}}},
        {6, AT_INDEX, 4, {{INDEX + 5, 26, 2, 0}, {INDEX + 4, 58, 4, 1}}},
    };
    TRY(shelf(), r6);
}

/* "R7 [names] a sector": under two pointers, or whose bit is not "under a pointer". The counts of R3 are made true. */
static void test_r7(void) {
    static const struct damage r7[] = {
        /* under two pointers: alone; of two files, with 1200 and 3100 set under none; of one file */
        {7, AT_SECTOR, 1220, {{INDEX + 7, 28, 4, 1220}, {INDEX + 7, 32, 2, 1}}},
        {7, AT_SECTOR, 1024, {{INDEX + 4, 64, 4, 1024}}},
        {7, AT_SECTOR, 3074, {{INDEX + 11, 64, 4, 3074}}},
        {7, AT_SECTOR, 2048, {{INDEX + 6, 70, 4, 2048}}},
        {7, AT_SECTOR, 2052, {{INDEX + 6, 70, 4, 2052}}},
        /* set and under none: sector 1500 is 0x08 of byte 187, 4095 is 0x01 of byte 511 */
        {7, AT_SECTOR, 1500, {{SECTOR_TABLE, 187, 1, 0x08}, {ZONE_TABLE, 8, 2, 983}}},
        {7, AT_SECTOR, 4095, {{SECTOR_TABLE, 511, 1, 0x01}, {ZONE_TABLE, 20, 2, 1017}}},
        {7, AT_SECTOR, 2052, {{INDEX + 6, 68, 2, 4}}},
        {7, AT_SECTOR, 3100, {{INDEX + 11, 64, 4, 3101}}},
        /* clear and under one: sectors 1200 to 1207 are byte 150, 0xAA, and 1204 is 0x08 of it */
        {7, AT_SECTOR, 1204, {{SECTOR_TABLE, 150, 1, 0xA2}, {ZONE_TABLE, 8, 2, 985}}},
        {7, AT_SECTOR, 3099, {{INDEX + 11, 64, 4, 3099}}},
        {7, AT_SECTOR, 2056, {{INDEX + 6, 68, 2, 12}}},
        {7, AT_SECTOR, 2044, {{INDEX + 6, 64, 4, 2044}}}, /* four sectors of zone 2, then a block of zone 3 */
        /* several: the lowest; one bit less and one more leave the free count as it was */
        {7, AT_SECTOR, 1204, {{SECTOR_TABLE, 187, 1, 0x08}, {SECTOR_TABLE, 150, 1, 0xA2}}},
        {7, AT_SECTOR, 1024, {{SECTOR_TABLE, 150, 1, 0xA2}, {ZONE_TABLE, 8, 2, 985}, {INDEX + 4, 64, 4, 1024}}},
    };
    TRY(shelf(), r7);
}

/* shelf() with zone 5 of type B: 989 of its sectors are free. The headers: of file 2 (4096,1), of file 11, which is
   deleted, (4097,2), of file 4 (4100,32). */
static struct volume headed_shelf(void) {
    struct volume v = shelf();
    static const struct run places[] = {{4096, 1}, {4100, 32}, {0, 0}, {4097, 2}};
    size_t i;
    for (i = 0; i < 4; i++)
        v.files[i].header = places[i];
    v.type[5] = TYPE_B;
    return v;
}

/* R6 of a header pointer: "a count of 1 to 32 with its whole run within one zone of type 2". */
static void test_r6_headers(void) {
    static const struct damage headers[] = {
        {6, AT_INDEX, 4, {{INDEX + 4, 62, 2, 33}}},
        {6, AT_INDEX, 4, {{INDEX + 4, 62, 2, 0}}},
        {6, AT_INDEX, 2, {{INDEX + 2, 62, 2, 0x8001}}},
        {6, AT_INDEX, 11, {{INDEX + 11, 62, 2, 0xFFFF}}},
        /* in zone 1, in zones of type C and D, in zone Z, past it */
        {6, AT_INDEX, 4, {{INDEX + 4, 58, 4, 0}}},
        {6, AT_INDEX, 4, {{INDEX + 4, 58, 4, 1500}}},
        {6, AT_INDEX, 4, {{INDEX + 4, 58, 4, 2100}}},
        {6, AT_INDEX, 4, {{INDEX + 4, 58, 4, 5120}}},
        {6, AT_INDEX, 4, {{INDEX + 4, 58, 4, 6144}}},
        {6, AT_INDEX, 4, {{INDEX + 4, 58, 4, 0xFFFFFFFF}}},
        {6, AT_INDEX, 4, {{INDEX + 4, 58, 4, 0xFFFFFFE0}}},
        /* into zone 5 from the one before, and out of it */
        {6, AT_INDEX, 4, {{INDEX + 4, 58, 4, 4095}}},
        {6, AT_INDEX, 4, {{INDEX + 4, 58, 4, 5089}}},
        /* data in zone 5 */
        {6, AT_INDEX, 11, {{INDEX + 11, 64, 4, 4200}}},
        /* several: the lowest */
        {6, AT_INDEX, 4, {{INDEX + 11, 62, 2, 0}, {INDEX + 4, 62, 2, 33}}},
    };
    TRY(headed_shelf(), headers);
}

/* The other rules, where there are headers. Sectors 4096 to 4103 are byte 512 of the sector table, 0xEF. */
static void test_headers(void) {
    static const struct damage headers[] = {
        {0, AT_NOTHING, 0, {{ZONE_TABLE, 24, 2, 2}}},
        {2, AT_ZONE, 5, {{ZONE_TABLE, 28, 2, 1}}},
        {3, AT_ZONE, 5, {{ZONE_TABLE, 26, 2, 988}}},
        {3, AT_ZONE, 5, {{SECTOR_TABLE, 512, 1, 0xFF}}},
        /* R7: set and under none; clear and under a header */
        {7, AT_SECTOR, 4099, {{SECTOR_TABLE, 512, 1, 0xFF}, {ZONE_TABLE, 26, 2, 988}}},
        {7, AT_SECTOR, 4100, {{SECTOR_TABLE, 512, 1, 0xE7}, {ZONE_TABLE, 26, 2, 990}}},
        {7, AT_SECTOR, 4131, {{INDEX + 4, 62, 2, 31}}},
        {7, AT_SECTOR, 4100, {{INDEX + 4, 58, 4, 5088}}},
        {7, AT_SECTOR, 4100, {{INDEX + 4, 58, 4, 0}, {INDEX + 4, 62, 2, 0}}},
        /* under two headers */
        {7, AT_SECTOR, 4096, {{INDEX + 11, 58, 4, 4096}}},
        {7, AT_SECTOR, 4100, {{INDEX + 11, 62, 2, 5}, {SECTOR_TABLE, 512, 1, 0xFF}, {ZONE_TABLE, 26, 2, 988}}},
        /* R8: file 11 has one sector, and its header's two are no more of it */
        {8, AT_INDEX, 11, {{INDEX + 11, 40, 4, 1025}}},
    };
    struct volume v = headed_shelf();
    unbroken(&v, __LINE__);
    TRY(v, headers);
}

/* "R8 an index": that of the file. */
static void test_r8(void) {
    static const struct damage r8[] = {
        /* "Names are 1 to 24 non-null bytes, then nulls" */
        {8, AT_INDEX, 6, {{INDEX + 6, 4, 1, 0}}},
        {8, AT_INDEX, 6, {{INDEX + 6, 6, 1, 'X'}}},
        {8, AT_INDEX, 11, {{INDEX + 11, 27, 1, 'X'}}},
        /* "Byte length is at most 1,024 x the file's sectors": 17 of file 6, 29 of file 2 with its children */
        {8, AT_INDEX, 6, {{INDEX + 6, 40, 4, 17409}}},
        {8, AT_INDEX, 2, {{INDEX + 2, 40, 4, 29697}}},
        /* "at least 0, and at least 1 if fixed" */
        {8, AT_INDEX, 2, {{INDEX + 2, 40, 4, 0xFFFFFFFF}}},
        {8, AT_INDEX, 4, {{INDEX + 4, 40, 4, 0}}},
        /* "A variable file has one zone type": file 6 has D and C */
        {8, AT_INDEX, 6, {{INDEX + 6, 44, 2, 16}}},
        /* "No other attribute weight; not both 32 and 64" */
        {8, AT_INDEX, 4, {{INDEX + 4, 44, 2, 128}}},
        {8, AT_INDEX, 4, {{INDEX + 4, 44, 2, 0x8000}}},
        {8, AT_INDEX, 4, {{INDEX + 4, 44, 2, 96}}},
        /* "Both dates valid": the year of one, the month of the other */
        {8, AT_INDEX, 11, {{INDEX + 11, 28, 2, 0}}},
        {8, AT_INDEX, 2, {{INDEX + 2, 36, 1, 13}}},
        /* several: the lowest */
        {8, AT_INDEX, 4, {{INDEX + 11, 4, 1, 0}, {INDEX + 4, 33, 1, 60}}},
        {8, AT_INDEX, 2, {{INDEX + 6, 4, 1, 0}, {INDEX + 2, 44, 2, 128 + 16}}},
    };
    TRY(shelf(), r8);
}

/* "R9 [is] kind `count`, place 0". Three files are active, one is deleted, nine tables are free; the one directory is
   deleted, and "system and directory counts take active files only". */
static void test_r9(void) {
    static const struct damage r9[] = {
        {9, AT_COUNT, 0, {{SECTOR_1, 4, 4, 4}}},  {9, AT_COUNT, 0, {{SECTOR_1, 8, 4, 0}}},
        {9, AT_COUNT, 0, {{SECTOR_1, 12, 4, 8}}}, {9, AT_COUNT, 0, {{SECTOR_1, 16, 2, 1}}},
        {9, AT_COUNT, 0, {{SECTOR_1, 18, 2, 1}}}, {9, AT_COUNT, 0, {{SECTOR_1, 12, 4, 0xFFFFFFFF}}},
        {9, AT_COUNT, 0, {{SECTOR_1, 30, 2, 2}}}, {9, AT_COUNT, 0, {{SECTOR_1, 30, 2, 0xFFFF}}},
    };
    TRY(shelf(), r9);
}

/* The highest places of the largest volume: Z = 256, N = 4096. Free table 4096 is the chain's last; file 4095 holds the
   last sector before zone Z. */
static void test_largest(void) {
    static const struct damage high[] = {
        {2, AT_ZONE, 256, {{ZONE_TABLE, 6 * 255, 2, 0}}},
        {3, AT_ZONE, 255, {{ZONE_TABLE, 6 * 254 + 2, 2, 0}}},
        {4, AT_INDEX, 4096, {{INDEX + 4096, 4, 1, 1}}},
        {5, AT_INDEX, 4095, {{INDEX + 4095, 124, 4, 4096}}},
        {7, AT_SECTOR, 261119, {{INDEX + 4095, 68, 2, 1}}},
        {8, AT_INDEX, 4095, {{INDEX + 4095, 4, 1, 0}}},
    };
    struct volume v = fresh(256, 4096, 1024);
    v.type[255] = TYPE_C;
    run(put(&v, 4095, "LAST", 1, 0), 261118, 2);
    unbroken(&v, __LINE__);
    TRY(v, high);
}

/* One damage for each rule, and both of R4's, in the order in which they are named. */
static const struct damage ranks[] = {
    {1, AT_SECTOR, 5, {{SECTOR_TABLE, 1000, 1, 1}}},
    {2, AT_ZONE, 5, {{ZONE_TABLE, 28, 2, 1}}},
    {3, AT_ZONE, 4, {{ZONE_TABLE, 20, 2, 1017}}},
    {4, AT_INDEX, 12, {{INDEX + 12, 50, 1, 1}}},
    {4, AT_COUNT, 0, {{SECTOR_1, 26, 4, 3}}},
    {5, AT_INDEX, 7, {{INDEX + 7, 4, 4, 2}}},
    {6, AT_INDEX, 6, {{INDEX + 6, 62, 2, 1}}},
    {7, AT_SECTOR, 3099, {{INDEX + 11, 64, 4, 3099}}},
    {8, AT_INDEX, 2, {{INDEX + 2, 44, 2, 128 + 16}}},
    {9, AT_COUNT, 0, {{SECTOR_1, 4, 4, 2}}},
};

enum { RANKS = sizeof ranks / sizeof ranks[0] };

/* "The lowest rule broken is named": of each two, and of all from each on. */
static void test_ranks(void) {
    struct volume v = shelf();
    struct request r;
    int i, j;
    for (i = 0; i < RANKS; i++) {
        for (j = i; j < RANKS; j++) {
            r = ask(BROKEN_RULE, &v);
            spoil(&v, &ranks[j]);
            spoil(&v, &ranks[i]);
            names(&r, &ranks[i], __FILE__ ":ranks", 100 * i + j);
        }
        r = ask(BROKEN_RULE, &v);
        for (j = i; j < RANKS; j++)
            spoil(&v, &ranks[j]);
        names(&r, &ranks[i], __FILE__ ":ranks from", i);
    }
}

/* "Answers 1 to 3 are reported as `refused=`", whatever rules are broken beside. */
static void test_refusals(void) {
    struct volume v = shelf();
    struct request r;
    int i, number;
    for (i = 0; i < 2 * RANKS; i++)
        for (number = 1; number <= 3; number++) {
            r = ask(i % 2 == 0 ? BROKEN_RULE : BROKEN_TEXT, &v);
            spoil(&v, &ranks[i / 2]);
            if (number == 1)
                r.books.len--;
            else
                put_number(now_books + (number == 2 ? 4 : 130), 4, 2);
            REFUSED(&r, (uint32_t)number);
        }
}

/* What is past the lines stays, however long the text. "text_len < 64: 7, before anything else", with nothing written:
   on lawful books, on damaged ones, and where there are none. */
static void test_rooms(void) {
    static const size_t enough[] = {64, 65, 192, 1024}, little[] = {0, 1, 10, 30, 63};
    struct volume v = shelf();
    struct request r = ask(BROKEN_TEXT, &v);
    size_t i;
    int damaged;
    for (damaged = 0; damaged < 2; damaged++) {
        if (damaged)
            spoil(&v, &ranks[7]);
        for (i = 0; i < sizeof enough / sizeof enough[0]; i++) {
            r.room = enough[i];
            named_at(&r, damaged ? 7 : 0, damaged ? AT_SECTOR : 0, damaged ? 3099 : 0, __FILE__, __LINE__);
        }
        for (i = 0; i < sizeof little / sizeof little[0]; i++) {
            r.room = little[i];
            r.books.len = 1024 * v.sectors;
            REFUSED(&r, 7);
            r.books.len = 0;
            REFUSED(&r, 7);
        }
        r.books.len = 1024 * v.sectors;
    }
}

void test_broken(void) {
    group("broken rule: none, in lawful books");
    test_lawful();
    group("broken rule: R1, a tail, by its sector");
    test_r1();
    test_r1_far();
    group("broken rule: R2, by the zone");
    test_r2();
    group("broken rule: R3, by the zone");
    test_r3();
    group("broken rule: R4, a table's own bytes");
    test_r4_own();
    group("broken rule: R4, the free chain");
    test_r4_chain();
    group("broken rule: R5, a child");
    test_r5_children();
    group("broken rule: R5, a bad link");
    test_r5_links();
    group("broken rule: R5, a gap");
    test_r5_gaps();
    group("broken rule: R5, circles and links of full tables");
    test_r5_full();
    test_r5_tight();
    group("broken rule: R6, by the index table");
    test_r6();
    group("broken rule: R6, a header's place");
    test_r6_headers();
    group("broken rule: the others, with headers");
    test_headers();
    group("broken rule: R7, by the sector");
    test_r7();
    group("broken rule: R8, by the file");
    test_r8();
    group("broken rule: R9, a count");
    test_r9();
    group("broken rule: the largest volume");
    test_largest();
    group("broken rule: the lowest of several");
    test_ranks();
    group("broken rule: 1, 2 and 3 before all rules");
    test_refusals();
    group("isc_broken_text: the lines alone are written, and 7 for a text under 64 bytes, before all else");
    test_rooms();
}
