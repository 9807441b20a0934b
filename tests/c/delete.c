/* isc_temporary_delete, isc_recover, isc_actual_delete and isc_set_protection. */
#include "border.h"

static void dated(struct volume *then, uint32_t file) { then->files[file].changed = then->updated = DAY2; }

/* Weight 1 is set or cleared; "system and directory counts take active files only" (R9). The weights given stand
   beside 16, variable size. */
static void test_weight(enum call call, uint32_t others) {
    struct volume v = desk(1), then = desk(1);
    struct request r;
    v.files[0].attribute = 16 + others + (call == RECOVER);
    then.files[0].attribute = 16 + others + (call == TEMPORARY_DELETE);
    dated(&then, 0);
    r = ask(call, &v);
    DONE(&r, &then, 0);
}

static void test_marks(void) {
    struct volume v = desk(1);
    struct request r;
    group("isc_temporary_delete: weight 1, counts and dates");
    test_weight(TEMPORARY_DELETE, 0);
    test_weight(TEMPORARY_DELETE, 32 + 2);
    test_weight(TEMPORARY_DELETE, 64 + 8);
    group("isc_temporary_delete: 10 if write-protected, 9 if deleted");
    v.files[0].attribute = 16 + 4;
    r = ask(TEMPORARY_DELETE, &v);
    REFUSED(&r, 10);
    v.files[0].attribute = 16 + 1;
    r = ask(TEMPORARY_DELETE, &v);
    REFUSED(&r, 9);
    group("isc_recover: undoes it, protected or not");
    test_weight(RECOVER, 0);
    test_weight(RECOVER, 32 + 4);
    test_weight(RECOVER, 64 + 12 + 2);
    group("isc_recover: 9 if active");
    v.files[0].attribute = 16;
    r = ask(RECOVER, &v);
    REFUSED(&r, 9);
    group("isc_actual_delete: 9 if active");
    r = ask(ACTUAL_DELETE, &v);
    REFUSED(&r, 9);
}

/* "The free chain becomes the file's tables in order, then the old chain"; a free table is "all zeros but 124-127". */
static void test_tables_back(void) {
    struct volume v = desk(1), then = desk(1);
    struct request r;
    v.files[0].attribute = 16 + 12 + 1;
    r = ask(ACTUAL_DELETE, &v);
    then.files[0] = then.files[1];
    then.files_count = 1;
    then.updated = DAY2;
    then.chain[0] = 1;
    then.chain[1] = 4;
    then.chain[2] = 3;
    DONE(&r, &then, 0);
}

/* "A zone left empty becomes (0,0,0)": zones 2 and 4 do. Zone 3 keeps another file's block, and zone 5, of type E and
   wholly free, had none of the file's sectors. */
static void test_zones_back(void) {
    struct volume v = spread(6, 4), then;
    struct file *f;
    struct request r;
    v.type[2] = TYPE_H;
    v.type[3] = TYPE_D;
    v.type[4] = TYPE_C;
    v.type[5] = TYPE_E;
    run(put(&v, 3, "KEPT", 1, 32), 2052, 4);
    then = v;
    f = put(&v, 2, "GONE", 1, 1);
    run(f, 1024, 1028);
    run(f, 2056, 12);
    run(f, 3072, 1);
    r = ask(ACTUAL_DELETE, &v);
    r.id = 2;
    then.type[2] = then.type[4] = 0;
    then.chain[0] = 2;
    then.updated = DAY2;
    DONE(&r, &then, 0);
}

/* "Set protection takes 0, 4, 8 or 12, else 7, and replaces weights 4 and 8." */
static void test_protection(void) {
    static const uint32_t bad[] = {1, 2, 3, 5, 7, 11, 13, 16, 20, 32, 256, 260, 0x10004, 0x80000004, 0xFFFFFFFF};
    uint32_t before, after;
    struct request r;
    size_t i;
    group("isc_set_protection: each over each");
    for (before = 0; before <= 12; before += 4)
        for (after = 0; after <= 12; after += 4) {
            struct volume v = desk(1), then = desk(1);
            v.files[0].attribute = 16 + 2 + 64 + before;
            then.files[0].attribute = 16 + 2 + 64 + after;
            dated(&then, 0);
            r = ask(SET_PROTECTION, &v);
            r.protection = after;
            DONE(&r, &then, 0);
        }
    group("isc_set_protection: 7, protections");
    for (i = 0; i < sizeof bad / sizeof bad[0]; i++) {
        r.protection = bad[i];
        REFUSED(&r, 7);
    }
}

/* A date that is earlier than the last "is stored as given". */
static void test_earlier(void) {
    struct volume v = desk(1), then = desk(1);
    struct request r;
    group("an earlier date is stored as given");
    v.updated = v.files[0].changed = DAY2;
    then.files[0].attribute = 16 + 4;
    then.files[0].changed = then.updated = DAY3;
    r = ask(SET_PROTECTION, &v);
    r.protection = 4;
    r.date.at = DAY3;
    DONE(&r, &then, 0);
}

static void test_arguments(void) {
    static const char *names[] = {"isc_temporary_delete: 7, dates, and 8, ids", "isc_recover: 7, dates, and 8, ids",
                                  "isc_actual_delete: 7, dates, and 8, ids", "isc_set_protection: 7, dates, and 8, ids"};
    int call;
    for (call = TEMPORARY_DELETE; call <= SET_PROTECTION; call++) {
        struct volume v = desk(1);
        struct request r;
        if (call == RECOVER || call == ACTUAL_DELETE)
            v.files[0].attribute |= 1;
        group(names[call - TEMPORARY_DELETE]);
        r = ask((enum call)call, &v);
        BAD_DATES(&r);
        BAD_IDS(&r);
    }
}

void test_delete(void) {
    test_marks();
    group("isc_actual_delete: tables go back in order, zeroed");
    test_tables_back();
    group("isc_actual_delete: blocks go back, emptied zones are (0,0,0)");
    test_zones_back();
    test_protection();
    test_earlier();
    test_arguments();
}
