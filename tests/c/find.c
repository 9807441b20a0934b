/* isc_search, isc_list, isc_locate and isc_space. */
#include "border.h"
#include <string.h>

/* Six names, in tables 1 to 7; file 3 is temporarily deleted, table 4 is free, table 8 is file 1's child. Names on the
   volume may hold `*` and `?` (R8 forbids only nulls). */
static struct volume shelf(void) {
    static const char *names[] = {"LOG", "CURVE 60A", "CURVE 25A", NULL, "A*B", "A", "ABCDEFGHIJKLMNOPQRSTUVWX"};
    struct volume v = spread(3, 9);
    uint32_t i;
    v.type[2] = TYPE_C;
    for (i = 0; i < 7; i++)
        if (names[i] != NULL) {
            struct file *f = put(&v, i + 1, names[i], 1 + i, i == 2 ? 1 : i == 1 ? 12 : i == 4 ? 32 + 2 : 0);
            f->noise = 1;
            f->changed = DAY3;
            run(f, 1100 + 2 * i, 1);
        }
    for (i = 1; i < 11; i++)
        run(&v.files[0], 1200 + 4 * i, 1 + i % 3);
    v.files[0].children[0] = 8;
    return v;
}

struct finding {
    const char *pattern;
    uint32_t count, ids[6];
};

/* "`*` is one character, `?` any string, also none." */
static const struct finding findings[] = {
    {"LOG", 1, {1}},
    {"log", 0, {0}},
    {"LO", 0, {0}},
    {"LOGS", 0, {0}},
    {"?", 5, {1, 2, 5, 6, 7}},
    {"????????????????????????", 5, {1, 2, 5, 6, 7}},
    {"*", 1, {6}},
    {"***", 2, {1, 5}},
    {"CURVE?", 1, {2}},
    {"CURVE **A", 1, {2}},
    {"CURVE 25A", 0, {0}},
    {"?A", 2, {2, 6}},
    {"A?", 3, {5, 6, 7}},
    {"?A?", 4, {2, 5, 6, 7}},
    {"A*?", 2, {5, 7}},
    {"A*B", 1, {5}},
    {"?*B", 1, {5}},
    {"?O?", 2, {1, 7}},
    {"?E?0?", 1, {2}},
    {"*?G", 1, {1}},
    {"ABCDEFGHIJKLMNOPQRSTUVWX", 1, {7}},
    {"************************", 1, {7}},
    {"?***********************", 1, {7}},
    {"?X", 1, {7}},
    {"X?", 0, {0}},
};

static void test_search(void) {
    struct volume v = shelf();
    struct request r = ask(SEARCH, &v);
    size_t i;
    for (i = 0; i < sizeof findings / sizeof findings[0]; i++) {
        const struct finding *f = &findings[i];
        r.name = text(f->pattern);
        for (r.room = 0; r.room <= 7; r.room++)
            FILLED(&r, f->count, f->ids, sizeof(uint32_t) * (r.room < f->count ? r.room : f->count));
    }
}

/* "The pattern is 1 to 24 non-null bytes, else 7." */
static void test_patterns(void) {
    static const char nulls[] = "\0LOG\0";
    struct volume v = shelf();
    struct request r = ask(SEARCH, &v);
    r.name = text("");
    REFUSED(&r, 7);
    r.name = text("?????????????????????????");
    REFUSED(&r, 7);
    r.name.at = (const uint8_t *)nulls;
    r.name.len = 1;
    REFUSED(&r, 7);
    r.name.len = 4;
    REFUSED(&r, 7);
    r.name.at++;
    REFUSED(&r, 7);
    r.room = 0;
    REFUSED(&r, 7);
}

/* "The first 64 bytes of each active parent from a given id up, as many as fit whole, and how many." */
static void test_list(void) {
    static const uint32_t active[] = {1, 2, 5, 6, 7};
    static const uint32_t froms[] = {1, 2, 3, 5, 6, 7, 8, 9, 10, 11, 256, 0x80000001, 0xFFFFFFFF};
    static const size_t rooms[] = {0, 1, 63, 64, 65, 127, 128, 200, 320, 1000};
    struct volume v = shelf();
    struct request r = ask(LIST, &v);
    size_t i, j;
    for (i = 0; i < sizeof froms / sizeof froms[0]; i++)
        for (j = 0; j < sizeof rooms / sizeof rooms[0]; j++) {
            uint8_t wanted[5 * 64];
            uint32_t count = 0, file;
            for (file = 0; file < 5; file++)
                if (active[file] >= froms[i] && 64 * (count + 1) <= rooms[j])
                    memcpy(wanted + 64 * count++, now_books + 1024 * v.index_at + 128 * (active[file] - 1), 64);
            r.from = froms[i];
            r.room = rooms[j];
            FILLED(&r, count, wanted, 64 * count);
        }
}

/* The fields stand in an entry where the header says. */
static void test_entry(void) {
    struct volume v = shelf();
    struct request r = ask(LIST, &v);
    uint8_t entry[64];
    memset(entry, 0, 64);
    put_number(entry + ISC_ENTRY_ID, 4, 5);
    memcpy(entry + ISC_ENTRY_NAME, "A*B", 3);
    memcpy(entry + ISC_ENTRY_CREATED, DAY1, 6);
    memcpy(entry + ISC_ENTRY_CHANGED, DAY3, 6);
    put_number(entry + ISC_ENTRY_LENGTH, 4, 5);
    put_number(entry + ISC_ENTRY_ATTRIBUTE, 2, ISC_WEIGHT_DIRECTORY + ISC_WEIGHT_WRITING);
    memset(entry + 46, 0xE3, 12);
    r.from = 3;
    r.room = 64;
    FILLED(&r, 1, entry, 64);
}

/* "The volume sector of the file's k-th sector (k unsigned, from 0), 14 past its last under a pointer": tables along the
   chain, pointers in each, sectors under each. */
static void test_locate(void) {
    static const uint32_t past[] = {0, 1, 255, 256, 0x7FFFFFFF - 21, 0x80000000 - 21, 0xFFFFFFFF - 21};
    struct volume v = shelf();
    struct request r = ask(LOCATE, &v);
    uint32_t i, j;
    for (i = 0; i < v.files[0].runs_count; i++)
        for (j = 0; j < v.files[0].runs[i].count; j++) {
            DONE(&r, NULL, v.files[0].runs[i].start + j);
            r.k++;
        }
    if (r.k != 21)
        fail(__FILE__, __LINE__, "the test expects 21 sectors");
    for (i = 0; i < sizeof past / sizeof past[0]; i++) {
        r.k = 21 + past[i];
        REFUSED(&r, 14);
    }
    r.id = 2; /* read- and write-protected: "only requests said here to give 10 give it" */
    r.k = 0;
    DONE(&r, NULL, 1102);
    r.id = 3;
    REFUSED(&r, 9);
}

/* "1024Z and the number of set bits." */
static void test_space(void) {
    struct volume v = shelf();
    struct request r = ask(SPACE, &v);
    struct answer a;
    memset(&a, 0, sizeof a);
    a.value[0] = 3 * 1024;
    a.value[1] = 2 * 1024 + 21 + 5;
    expect(&r, &a, __FILE__, __LINE__);
    v = fresh(256, 1, 1024);
    v.flag = 1;
    r = ask(SPACE, &v);
    a.value[0] = 256 * 1024;
    a.value[1] = 2 * 1024;
    expect(&r, &a, __FILE__, __LINE__);
}

void test_find(void) {
    struct volume v = desk(1);
    struct request r;
    group("isc_search: patterns, into lists of 0 to 7 ids");
    test_search();
    group("isc_search: 7, patterns");
    test_patterns();
    group("isc_list: from each id, into buffers of several lengths");
    test_list();
    group("isc_list: the fields of an entry");
    test_entry();
    group("isc_list: 7, from 0");
    r = ask(LIST, &v);
    r.from = 0;
    REFUSED(&r, 7);
    r.room = 0;
    REFUSED(&r, 7);
    group("isc_locate: each sector, 14 past the last, 9");
    test_locate();
    group("isc_locate: 8, ids");
    r = ask(LOCATE, &v);
    BAD_IDS(&r);
    group("isc_space: sectors and set bits");
    test_space();
}
