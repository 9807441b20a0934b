/* The withheld list: which lists are refused, what R7 says with one, and that no request takes a withheld block or
   gives its zone back. "A list of withheld blocks, strictly ascending by first sector, at most 512." Each other number
   beside a bad list is in order.c. */
#include "border.h"
#include <string.h>

enum { LONGEST = 5, TOO_MANY = WITHHELD_MOST + 1 };

/* Z = 6, N = 16. Zone 2 is of type C, zone 3 of type D, zone 4 of type B, zone 5 is open. Withheld: sector 1025 between
   two of file 1, and of zone 3 the blocks 2052 to 2055, next to file 2's, and 3068 to 3071, its last. */
static struct volume worn(void) {
    struct volume v = spread(6, 16);
    struct file *log = put(&v, 1, "LOG", 2048, 16), *curve = put(&v, 2, "CURVE", 5000, 0);
    run(log, 1024, 1);
    run(log, 1026, 1);
    run(curve, 2048, 4);
    run(curve, 2056, 4);
    curve->header.start = 3072;
    curve->header.count = 2;
    v.type[2] = TYPE_C;
    v.type[3] = TYPE_D;
    v.type[4] = TYPE_B;
    withhold(&v, 1025);
    withhold(&v, 2052);
    withhold(&v, 3068);
    return v;
}

/* A volume of three zones without files, whose zone 2 is of this type. */
static struct volume typed(uint8_t type) {
    struct volume v = mounted(3, 8, 5);
    v.type[2] = type;
    return v;
}

static struct request with(enum call call, const struct volume *v, const uint32_t *list, size_t len) {
    struct request r = ask(call, v);
    r.withheld = list;
    r.withheld_len = len;
    return r;
}

/* The broken rule, of both functions that name it; and report and space, which say 4 then. */
static void names_at(const struct volume *v, const uint32_t *list, size_t len, uint32_t rule, uint32_t kind,
                     uint32_t place, int line) {
    struct request r = with(BROKEN_RULE, v, list, len);
    named_at(&r, rule, kind, place, __FILE__, line);
    r.call = BROKEN_TEXT;
    r.room = 64;
    named_at(&r, rule, kind, place, __FILE__, line);
    if (rule > 0) {
        r.call = REPORT;
        r.room = 192;
        refused_at(&r, 4, __FILE__, line);
        r.call = SPACE;
        refused_at(&r, 4, __FILE__, line);
    }
}

#define NAMES(v, list, len, rule, kind, place) names_at(v, list, len, rule, kind, place, __LINE__)

/* No rule is broken with the volume's own list: of the mounted volume, mount says 6, which is examined after 4. */
static void lawful_at(const struct volume *v, int line) {
    struct request r = ask(MOUNT, v);
    refused_at(&r, 6, __FILE__, line);
    names_at(v, v->withheld, v->withheld_count, 0, ISC_AT_NOTHING, 0, line);
}

#define LAWFUL(v) lawful_at(v, __LINE__)

/* Ascending sectors from 1024 on: in zones of type C each of them starts a block. */
static const uint32_t *many(void) {
    static uint32_t list[TOO_MANY];
    uint32_t i;
    for (i = 0; i < TOO_MANY; i++)
        list[i] = 1024 + i;
    return list;
}

static const struct {
    size_t len;
    uint32_t list[LONGEST];
} bad[] = {
    /* "strictly ascending": equal neighbours, descending ones, in the middle and at the end */
    {2, {1025, 1025}},
    {2, {1026, 1025}},
    {2, {2052, 1025}},
    {4, {1025, 2052, 2052, 3068}},
    {3, {1025, 3068, 2052}},
    /* "each starting a block": sectors of the D zone that start none, as the first and as the last entry */
    {1, {2049}},
    {1, {2050}},
    {1, {2055}},
    {1, {3071}},
    {3, {1025, 2052, 3069}},
    /* "of a type 3-8 zone": zone 1, the open zone, the B zone with its header and past it, zone Z */
    {1, {0}},
    {1, {1023}},
    {1, {3072}},
    {1, {3080}},
    {1, {4096}},
    {1, {5119}},
    {1, {5120}},
    {1, {6143}},
    {4, {1025, 2052, 3068, 3072}},
    /* "a sector of 1024Z or more"; the last ones would start blocks if a bit or two were lost */
    {1, {6144}},
    {1, {7168}},
    {2, {1025, 6144}},
    {1, {0x10401}},
    {1, {0x40401}},
    {1, {0x80000401}},
    {1, {0xFFFFFFFF}},
};

/* Each bad list: 7 by itself, and where a rule is broken too: "examined between 3 and 4". */
static void test_bad(enum call call) {
    struct volume v = worn();
    size_t i;
    for (i = 0; i < sizeof bad / sizeof bad[0]; i++) {
        struct request r = with(call, &v, bad[i].list, bad[i].len);
        refused_at(&r, 7, __FILE__ ":bad", (int)i);
        now_books[1024 + 7]++;
        refused_at(&r, 7, __FILE__ ":bad, with a broken rule", (int)i);
    }
}

/* Of every function: too many, equal neighbours, a sector that starts no block; no lent byte is altered, and the values
   are zeros. The headers' functions need a file that has one, so it is file 2. */
static void test_each(enum call call) {
    struct volume v = worn();
    const uint32_t equal[] = {1025, 1025}, inside[] = {1025, 2053};
    struct request r;
    v.flag = call != MOUNT;
    if (call == RECOVER || call == ACTUAL_DELETE)
        v.files[1].attribute |= 1;
    r = with(call, &v, many(), TOO_MANY);
    r.id = 2;
    REFUSED(&r, 7);
    r.withheld = equal;
    r.withheld_len = 2;
    REFUSED(&r, 7);
    r.withheld = inside;
    REFUSED(&r, 7);
}

/* 1, 2 and 3 come before the list, also before its length, which needs no books to be judged. */
static void test_before(void) {
    struct volume v = worn();
    int call, number;
    for (call = MOUNT; call < CALLS; call++)
        for (number = 1; number <= 3; number++) {
            struct request r = with((enum call)call, &v, many(), TOO_MANY);
            if (number == 1)
                r.books.len--;
            else
                put_number(now_books + (number == 2 ? 4 : 130), 4, 2);
            REFUSED(&r, (uint32_t)number);
        }
}

/* "A freshly formatted card has no zone of type 3-8, so a list that isn't empty is 7 there." */
static void test_fresh(void) {
    static const uint32_t sectors[] = {0, 1, 1023, 1024, 1025, 2047, 2048, 3071, 3072};
    struct volume v = fresh(3, 8, 5), then = mounted(3, 8, 5);
    struct request r;
    size_t i;
    for (i = 0; i < sizeof sectors / sizeof sectors[0]; i++) {
        r = with(MOUNT, &v, &sectors[i], 1);
        REFUSED(&r, 7);
        r = with(REPORT, &v, &sectors[i], 1);
        REFUSED(&r, 7);
        r = with(BROKEN_TEXT, &v, &sectors[i], 1);
        REFUSED(&r, 7);
    }
    r = ask(MOUNT, &v);
    DONE(&r, &then, 0);
}

/* "At most 512": 512 withheld sectors of zone 2 are lawful, 513 are 7, as they are where a rule is broken. The same 512
   are 4 where their bits are clear, so that it was not the count. */
static void test_most(void) {
    struct volume v = typed(TYPE_C), none = typed(TYPE_C);
    struct request r;
    uint32_t i;
    for (i = 0; i < WITHHELD_MOST; i++)
        withhold(&v, 1024 + i);
    LAWFUL(&v);
    r = with(SPACE, &v, many(), TOO_MANY);
    REFUSED(&r, 7);
    now_books[1024 + 7]++;
    REFUSED(&r, 7);
    r.withheld_len = WITHHELD_MOST;
    REFUSED(&r, 4);
    NAMES(&v, many() + 1, WITHHELD_MOST, 7, ISC_AT_SECTOR, 1024);
    NAMES(&none, many(), WITHHELD_MOST, 7, ISC_AT_SECTOR, 1024);
    NAMES(&none, many(), 0, 0, ISC_AT_NOTHING, 0);
}

/* "By the zone table as it reads, before any rule is examined": under another type zone 2 of worn() breaks R2 or R3,
   but a list that does not fit the type is refused before that. One that fits passes, and R3 is named. */
static void test_as_it_reads(void) {
    static const uint32_t refused[][2] = {
        {0, 1025}, {1, 1025}, {2, 1025}, {9, 1025}, {0xFFFF, 1025}, {0x103, 1025}, {0x300, 1025}, {4, 1025}, {8, 1028}};
    static const uint32_t passed[][2] = {{4, 1028}, {5, 1040}, {6, 1088}, {7, 1280}, {8, 1024}};
    struct volume v = worn();
    struct request r;
    size_t i;
    for (i = 0; i < sizeof refused / sizeof refused[0]; i++) {
        r = with(SPACE, &v, &refused[i][1], 1);
        put_number(spot(&v, now_books, ZONE_TABLE, 6), 2, refused[i][0]);
        refused_at(&r, 7, __FILE__ ":refused", (int)i);
    }
    for (i = 0; i < sizeof passed / sizeof passed[0]; i++) {
        r = with(BROKEN_RULE, &v, &passed[i][1], 1);
        put_number(spot(&v, now_books, ZONE_TABLE, 6), 2, passed[i][0]);
        named_at(&r, 3, ISC_AT_ZONE, 2, __FILE__ ":passed", (int)i);
    }
}

/* "If zone 1 or Z reads as type 3-8 the list passes and R2 gives 4." Z is 3; zone Z's entry is at 12. */
static void test_own_zones(void) {
    static const uint32_t tables[] = {7}, backup[] = {2052}, inside[] = {2053};
    struct volume v = mounted(3, 8, 5);
    struct request r = with(BROKEN_RULE, &v, tables, 1);
    put_number(spot(&v, now_books, ZONE_TABLE, 0), 2, TYPE_C);
    named_at(&r, 2, ISC_AT_ZONE, 1, __FILE__, __LINE__);
    r.call = SPACE;
    REFUSED(&r, 4);
    r = with(BROKEN_RULE, &v, backup, 1);
    put_number(spot(&v, now_books, ZONE_TABLE, 12), 2, TYPE_D);
    named_at(&r, 2, ISC_AT_ZONE, 3, __FILE__, __LINE__);
    r.call = SPACE;
    REFUSED(&r, 4);
    r.withheld = inside;
    REFUSED(&r, 7);
}

/* A free block, withheld by hand: its bits are set and the free count is lowered by one. With the list the books are
   lawful; without it R7 fails at the block's first sector. Zone 2 is of type D; sectors 1032 to 1035 are the high half
   of byte 129 of the sector table. */
static void test_by_hand(void) {
    static const uint32_t list[] = {1032};
    struct volume v = mounted(3, 8, 5);
    struct request r;
    v.type[2] = TYPE_D;
    run(put(&v, 1, "OLD", 1, 0), 1024, 4);
    r = with(BROKEN_RULE, &v, list, 1);
    if (get_number(spot(&v, now_books, ZONE_TABLE, 8), 2) != 255)
        fail(__FILE__, __LINE__, "the test expects 255 free blocks");
    put_number(spot(&v, now_books, ZONE_TABLE, 8), 2, 254);
    *spot(&v, now_books, SECTOR_TABLE, 129) = 0xF0;
    named_at(&r, 0, ISC_AT_NOTHING, 0, __FILE__, __LINE__);
    r.withheld_len = 0;
    named_at(&r, 7, ISC_AT_SECTOR, 1032, __FILE__, __LINE__);
    r.call = SPACE;
    REFUSED(&r, 4);
    r.call = REPORT;
    r.room = 192;
    REFUSED(&r, 4);
}

/* Of each type the zone's first, its middle and its last block, without a file in the zone; and all its blocks, or 512
   of them: "set bits are the owned sectors and the withheld ones". A zone of type H has one block. */
static void test_types(void) {
    uint8_t type;
    for (type = TYPE_C; type <= TYPE_H; type++) {
        uint32_t size = 1U << 2 * (type - TYPE_C), blocks = 1024 / size, i;
        const uint32_t some[] = {0, blocks / 2, blocks - 1};
        struct volume v = typed(type);
        for (i = 0; i < blocks && i < WITHHELD_MOST; i++)
            withhold(&v, 1024 + i * size);
        LAWFUL(&v);
        for (i = 0; i < 3; i++) {
            v = typed(type);
            withhold(&v, 1024 + some[i] * size);
            LAWFUL(&v);
            NAMES(&v, v.withheld, 0, 7, ISC_AT_SECTOR, 1024 + some[i] * size);
        }
    }
}

/* R7: "a sector's bit is set exactly if it is owned or withheld, and never both". */
static void test_r7(void) {
    static const uint32_t own[] = {1025, 2052, 3068}, fewer[] = {1025, 3068}, other[] = {1027, 2052, 3068};
    static const uint32_t owned[] = {1025, 2052, 2056, 3068}, clear[] = {1025, 2052, 2060, 3068};
    static const uint32_t first[] = {1024, 1025, 2052, 3068}, all[] = {1026, 2044, 2048};
    struct volume v = worn();
    LAWFUL(&v);
    NAMES(&v, own, 3, 0, ISC_AT_NOTHING, 0);
    NAMES(&v, own, 2, 7, ISC_AT_SECTOR, 3068); /* set, and neither owned nor withheld */
    NAMES(&v, fewer, 2, 7, ISC_AT_SECTOR, 2052);
    NAMES(&v, own, 0, 7, ISC_AT_SECTOR, 1025);
    NAMES(&v, owned, 4, 7, ISC_AT_SECTOR, 2056); /* owned and withheld */
    NAMES(&v, first, 4, 7, ISC_AT_SECTOR, 1024);
    NAMES(&v, clear, 4, 7, ISC_AT_SECTOR, 2060); /* withheld, and clear */
    NAMES(&v, other, 3, 7, ISC_AT_SECTOR, 1025); /* 1025 without the list, 1027 clear: the lower */
    NAMES(&v, all, 3, 7, ISC_AT_SECTOR, 1025);
}

/* "The lowest rule broken is named": R3 and R6 before a list that does not fit, R8 and R9 after it. */
static void test_ranks(void) {
    static const uint32_t none[1] = {0};
    static const struct {
        int place;
        uint32_t offset, value, rule, kind, where;
    } damages[] = {{ZONE_TABLE, 14, 200, 3, ISC_AT_ZONE, 3},
                   {INDEX + 2, 62, 33, 6, ISC_AT_INDEX, 2},
                   {INDEX + 2, 44, 128, 7, ISC_AT_SECTOR, 1025},
                   {SECTOR_1, 16, 7, 7, ISC_AT_SECTOR, 1025}};
    struct volume v = worn();
    size_t i;
    for (i = 0; i < sizeof damages / sizeof damages[0]; i++) {
        struct request r = with(BROKEN_RULE, &v, none, 0);
        put_number(spot(&v, now_books, damages[i].place, damages[i].offset), 2, damages[i].value);
        named_at(&r, damages[i].rule, damages[i].kind, damages[i].where, __FILE__ ":damages", (int)i);
    }
}

/* Creates pass over withheld blocks: on worn() zone 2 has 1027 and up free, zone 3 has 2060 and up to 3067. */
static void test_creates(void) {
    struct volume v = worn(), then = worn();
    struct request r = ask(CREATE_FIXED, &v);
    r.size = 3 * 1024;
    run(made(&then, 3, "NEW", 3 * 1024, 0), 1027, 3);
    DONE(&r, &then, 3);
    r.flag = 8;
    r.size = 252 * 4096; /* all that are free of zone 3 */
    then = worn();
    run(made(&then, 3, "NEW", 252 * 4096, 0), 2060, 1008);
    DONE(&r, &then, 3);
    /* With one block more the open zone 5 gives it; with zone 5 full the withheld ones do not. */
    r.size++;
    run(&then.files[2], 4096, 4);
    then.files[2].length = (uint32_t)r.size;
    then.type[5] = TYPE_D;
    DONE(&r, &then, 3);
    run(put(&v, 4, "FULL", 1, 0), 4096, 1024);
    v.type[5] = TYPE_H;
    v.chain[0] = 3;
    restand(&r, &v);
    REFUSED(&r, 12);
    r.call = CREATE_VARIABLE;
    r.cell = 1048576;
    REFUSED(&r, 12);
    r.cell = 1024;
    then = v;
    run(made(&then, 3, "NEW", 0, 16), 1027, 1);
    then.chain[0] = 0;
    DONE(&r, &then, 3);
}

/* The lowest free block is behind withheld ones: at the zone's start, and around a free one. */
static void test_around(void) {
    struct volume v = typed(TYPE_C), then;
    struct request r;
    withhold(&v, 1024);
    withhold(&v, 1025);
    withhold(&v, 1027);
    then = v;
    r = ask(CREATE_FIXED, &v);
    r.size = 2 * 1024;
    run(made(&then, 1, "NEW", 2 * 1024, 0), 1026, 1);
    run(&then.files[0], 1028, 1);
    DONE(&r, &then, 1);
    r.size = 1021 * 1024;
    then.files[0].length = 1021 * 1024;
    then.files[0].runs[1].count = 1020;
    DONE(&r, &then, 1);
    r.size++;
    REFUSED(&r, 12);
}

/* "A zone with a withheld block is never open": the only zone that could be given to another type is not, for a file or
   for a header. */
static void test_never_open(void) {
    struct volume v = typed(TYPE_C), then;
    struct request r;
    uint8_t type;
    withhold(&v, 2047);
    r = ask(CREATE_FIXED, &v);
    for (type = TYPE_D; type <= TYPE_H; type++) {
        r.flag = 1 << (type - 1);
        REFUSED(&r, 12);
    }
    r.flag = 4;
    then = v;
    run(made(&then, 1, "NEW", 1, 0), 1024, 1);
    DONE(&r, &then, 1);
    r = ask(PLACE_HEADER, &then);
    REFUSED(&r, 12);
    v = typed(TYPE_H);
    withhold(&v, 1024);
    r = ask(CREATE_FIXED, &v);
    for (type = TYPE_C; type <= TYPE_H; type++) {
        r.flag = 1 << (type - 1);
        REFUSED(&r, 12);
    }
}

/* Grow and the growth inside write: file 1 has 1024 and 1026, and gets 1027, which joins. Then 1027 is withheld too. */
static void test_grows(enum call call) {
    struct volume v = worn(), then = worn();
    struct request r;
    int more;
    for (more = 0; more < 2; more++) {
        if (more) {
            memmove(v.withheld + 2, v.withheld + 1, 2 * sizeof v.withheld[0]);
            v.withheld[1] = 1027;
            v.withheld_count = 4;
            then = v;
            run(&then.files[0], 1028, 1);
        } else
            then.files[0].runs[1].count = 2;
        then.files[0].length = call == GROW ? 2049 : 3072;
        then.files[0].changed = then.updated = DAY2;
        r = ask(call, &v);
        r.length = call == GROW ? 2049 : 1024;
        r.position = 2048;
        memcpy(then_body, now_body, BODY_MOST);
        if (call == WRITE)
            memcpy(then_body + 1024 * (3 + more), ink, 1024);
        WRITTEN(&r, &then, call == GROW ? 0 : 1024);
    }
}

/* "A zone with a withheld block keeps its type": the last file of zones 2 and 3 goes. Zone 2, of type D with one
   withheld block, is (4, 255, 0) then; zone 3, without any, is (0, 0, 0). */
static void test_last_file(void) {
    static const uint8_t entries[12] = {0, 4, 0, 255, 0, 0, 0, 0, 0, 0, 0, 0};
    struct volume v = spread(4, 4), then;
    struct request r;
    v.type[2] = TYPE_D;
    withhold(&v, 1028);
    then = v;
    v.type[3] = TYPE_C;
    run(put(&v, 1, "GONE", 1, 1), 1024, 4);
    run(&v.files[0], 1032, 4);
    run(&v.files[0], 2048, 1);
    then.updated = DAY2;
    r = ask(ACTUAL_DELETE, &v);
    memcpy(then_body, now_body, BODY_MOST);
    WRITTEN(&r, &then, 0);
    LAWFUL(&then);
    if (memcmp(spot(&then, now_books, ZONE_TABLE, 6), entries, sizeof entries) != 0)
        fail(__FILE__, __LINE__, "the test expects other zone entries than (4, 255, 0) and (0, 0, 0)");
    r = ask(CREATE_FIXED, &then);
    r.flag = 128;
    then.type[3] = TYPE_H;
    run(made(&then, 1, "NEW", 1, 0), 2048, 1024);
    DONE(&r, &then, 1);
}

/* "Space counts them as used"; report's `used` and `open_zones` too. On worn() 2 + 8 sectors are files', 2 a header's,
   1 + 4 + 4 are withheld; zone 5 is open. Then a volume whose one zone has a withheld block and no file. */
static void test_counted(void) {
    static const char lines[] = "zones=6\nsectors=6144\nused=2069\nindexes=16\nfree_indexes=14\nactive=2\ndeleted=0\n"
                                "system=0\ndirectory=0\nopen_zones=1\nmounted=1\n";
    static const char empty[] = "zones=3\nsectors=3072\nused=2064\nindexes=8\nfree_indexes=8\nactive=0\ndeleted=0\n"
                                "system=0\ndirectory=0\nopen_zones=0\nmounted=1\n";
    struct volume v = worn();
    struct request r = ask(SPACE, &v);
    struct answer a;
    memset(&a, 0, sizeof a);
    a.value[0] = 6 * 1024;
    a.value[1] = 2 * 1024 + 2 + 8 + 2 + 1 + 4 + 4;
    expect(&r, &a, __FILE__, __LINE__);
    r = ask(REPORT, &v);
    FILLED(&r, sizeof lines - 1, lines, sizeof lines - 1);
    v = typed(TYPE_E);
    withhold(&v, 1040);
    r = ask(REPORT, &v);
    FILLED(&r, sizeof empty - 1, empty, sizeof empty - 1);
}

/* The requests that take no block, done with a list: they answer as they do without one. */
static void test_others(void) {
    static const uint32_t found[] = {1};
    struct volume v = worn(), then = worn();
    struct request r = ask(LOCATE, &v);
    r.k = 1;
    DONE(&r, NULL, 1026);
    r.call = SHOW;
    SHOWN(&r, 1026, 1);
    r = ask(SEARCH, &v);
    FILLED(&r, 1, found, sizeof found);
    r = ask(LIST, &v);
    r.room = 64;
    FILLED(&r, 1, now_books + 1024 * v.index_at, 64);
    r = ask(READ, &v);
    r.position = 1024;
    FILLED(&r, 1024, now_body + 2 * 1024, 1024);
    r = ask(SHOW_HEADER, &v);
    r.id = 2;
    SHOWN(&r, 3072, 2);
    then.flag = 0;
    r = ask(DISMOUNT, &v);
    DONE(&r, &then, 0);
    r = ask(MOUNT, &then);
    DONE(&r, &v, 0);
    then = worn();
    then.files[0].attribute = 16 + 4;
    then.files[0].changed = then.updated = DAY2;
    r = ask(SET_PROTECTION, &v);
    r.protection = 4;
    DONE(&r, &then, 0);
}

/* The requests about headers and deletes, done with a list. */
static void test_headers(void) {
    struct volume v = worn(), then = worn();
    struct request r = ask(TEMPORARY_DELETE, &v);
    r.id = 2;
    then.files[1].attribute = 1;
    then.files[1].changed = then.updated = DAY2;
    memcpy(then_body, now_body, BODY_MOST);
    put_number(then_body + 1024 * (3072 - 1024), 4, 0xFFFFFFFE);
    WRITTEN(&r, &then, 0);
    v = then;
    then.files[1].attribute = 0;
    r = ask(RECOVER, &v);
    r.id = 2;
    put_number(then_body + 1024 * (3072 - 1024), 4, 2);
    WRITTEN(&r, &then, 0);
    v = worn();
    then = worn();
    r = ask(PLACE_HEADER, &v);
    r.in.len = 5;
    then.files[0].header.start = 3074;
    then.files[0].header.count = 1;
    then.files[0].changed = then.updated = DAY2;
    memcpy(then_body, now_body, BODY_MOST);
    paper_header(then_body, then.files[0].header, 1, ink, 5);
    WRITTEN(&r, &then, 0);
}

static void test_lists(void) {
    int call;
    group("withheld list: not ascending, no block's start, in no zone of type C to H, past the volume: 7, before 4");
    test_bad(SPACE);
    test_bad(MOUNT);
    test_bad(REPORT);
    test_bad(BROKEN_RULE);
    test_bad(BROKEN_TEXT);
    group("withheld list: 7 of every function");
    for (call = MOUNT; call < CALLS; call++)
        test_each((enum call)call);
    group("withheld list: 1, 2 and 3 before 513 entries");
    test_before();
    group("withheld list: 7 on a fresh card, unless it is empty");
    test_fresh();
    group("withheld list: 512 taken, 513 refused");
    test_most();
    group("withheld list: the zone types as they read, before R2 and R3");
    test_as_it_reads();
    test_own_zones();
}

void test_withheld(void) {
    test_lists();
    group("withheld blocks: lawful with the list, R7 without it");
    test_by_hand();
    test_types();
    group("withheld blocks: R7 at the lowest sector, among the other rules");
    test_r7();
    test_ranks();
    group("withheld blocks: creates pass over them");
    test_creates();
    test_around();
    group("withheld blocks: their zone is never open");
    test_never_open();
    group("withheld blocks: grow and write pass over them");
    test_grows(GROW);
    test_grows(WRITE);
    group("withheld blocks: their zone keeps its type when the last file goes");
    test_last_file();
    group("withheld blocks: counted as used");
    test_counted();
    group("withheld blocks: the other requests with a list");
    test_others();
    test_headers();
}
