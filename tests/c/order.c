/* The order of the numbers: for each function, each number that it can answer by itself, and each two of them
   together, of which the first "that applies is given". */
#include "border.h"
#include <string.h>

/* A request on desk(0), one about headers on rack(), and what is spoilt in its books. */
struct scene {
    struct volume v;
    struct request r;
    int length, mark, limits, worn, rule, full, tables;
};

/* The 7 of the withheld list, "examined between 3 and 4". */
enum { WORN = 107 };

/* The table of numbers, in its order, as far as a function can answer them; the 7 of a short text comes first. */
static const int numbers[CALLS][16] = {
    {1, 3, 7},
    {1, 2, 3, WORN, 4, 6},
    {1, 2, 3, WORN, 4, 5},
    {1, 2, 3, WORN, 4, 5, 7, 12, 13},
    {1, 2, 3, WORN, 4, 5, 7, 12, 13},
    {1, 2, 3, WORN, 4, 5, 7, 8, 9, 10, 11, 12, 13},
    {1, 2, 3, WORN, 4, 5, 7, 15, 8, 9, 10},
    {1, 2, 3, WORN, 4, 5, 7, 15, 8, 9},
    {1, 2, 3, WORN, 4, 5, 7, 15, 8, 9},
    {1, 2, 3, WORN, 4, 5, 7, 8, 9},
    {1, 2, 3, WORN, 4, 5, 7},
    {1, 2, 3, WORN, 4, 5, 7},
    {1, 2, 3, WORN, 4, 5, 8, 9, 14},
    {1, 2, 3, WORN, 4, 5},
    {7, 1, 2, 3, WORN, 4},
    {1, 2, 3, WORN},
    {7, 1, 2, 3, WORN},
    {1, 2, 3, WORN, 4, 5, 7, 15, 8, 9, 10, 14},
    {1, 2, 3, WORN, 4, 5, 7, 15, 8, 9, 10, 14, 12, 13},
    {1, 2, 3, WORN, 4, 5, 15, 8, 9, 10, 14},
    {1, 2, 3, WORN, 4, 5, 7, 15, 8, 9, 10, 12},
    {1, 2, 3, WORN, 4, 5, 15, 8, 9, 10, 14},
};

static void spoil_argument(struct request *r) {
    r->date = text("\x07\xD0\x0D\x01\x01\x01"); /* month 13 */
    r->from = 0;
    r->length = r->call == READ ? -1 : r->length;
    r->room = r->call == REPORT ? 191 : r->call == BROKEN_TEXT ? 63 : r->room;
    if (r->call == SEARCH)
        r->name.len = 0;
}

static void spoil_position(struct request *r) {
    r->k = 10;
    if (r->call == READ)
        r->position = 10240;
    if (r->call == WRITE)
        r->position = 11264;
}

/* The protection that keeps a file from being read, or from being written. */
static uint32_t protection_against(enum call call) {
    return call == READ || call == SHOW || call == SHOW_HEADER ? 8 : 4;
}

static void spoil(struct scene *s, int number) {
    struct file *log = &s->v.files[0];
    switch (number) {
    case 1: s->length = 1; break;
    case 2: s->mark = 1; break;
    case 3: s->limits = 1; break;
    case WORN: s->worn = 1; break;
    case 4: s->rule = 1; break;
    case 5: s->v.flag = 0; break;
    case 6: s->v.flag = 1; break;
    case 7: spoil_argument(&s->r); break;
    case 15: s->r.body.len--; break;
    case 8: s->r.id = 0; break;
    case 9: log->attribute ^= 1; break;
    case 10: log->attribute |= protection_against(s->r.call); break;
    case 11: log->attribute &= ~16U; break;
    case 14:
        spoil_position(&s->r);
        memset(&log->header, 0, sizeof log->header);
        break;
    case 12: s->full = 1; break;
    case 13: s->tables = 1; break;
    }
}

/* Zone 3 of rack() goes to a file of type H, so that no zone is of type B and none is open. */
static void drop_headers(struct scene *s) {
    memset(&s->v.files[0].header, 0, sizeof s->v.files[0].header);
    memset(&s->v.files[1].header, 0, sizeof s->v.files[1].header);
    run(put(&s->v, 3, "THIRD", 1, 0), 2048, 1024);
    s->v.type[3] = TYPE_H;
    s->v.chain[0] = 0;
}

/* Zone 2 ends with sector 2047. Without `full` its sectors from 1044, or 1046, on stay free. */
static void crowd(struct scene *s) {
    struct file *curve = &s->v.files[1];
    if (s->r.call == PLACE_HEADER) {
        if (s->full)
            drop_headers(s);
    } else if (s->tables) {
        run(put(&s->v, 3, "THIRD", 1, 0), 1044, 1);
        run(put(&s->v, 4, "FOURTH", 1, 0), 1045, s->full ? 1003 : 1);
        s->v.chain[0] = 0;
    } else if (s->full)
        curve->runs[9].count = 1005;
}

static struct scene begin(enum call call) {
    struct scene s;
    memset(&s, 0, sizeof s);
    s.v = call == PLACE_HEADER || call == SHOW_HEADER ? rack() : desk(0);
    s.v.flag = call != MOUNT;
    if (call == RECOVER || call == ACTUAL_DELETE)
        s.v.files[0].attribute |= 1;
    s.r = ask(call, &s.v);
    return s;
}

static void refuse(struct scene *s, int number) {
    static const uint32_t sector_0[] = {0}; /* of zone 1, which is of no type from C to H */
    size_t body = s->r.body.len;
    crowd(s);
    restand(&s->r, &s->v);
    s->r.body.len = body;
    if (s->mark)
        now_books[0] = 0x48;
    if (s->limits) {
        put_number(now_books + 130, 4, 2);
        s->r.zones = 2;
    }
    if (s->worn) {
        s->r.withheld = sector_0;
        s->r.withheld_len = 1;
    }
    if (s->rule)
        now_books[1024 + 7]++;
    if (s->length)
        s->r.books.len++;
    REFUSED(&s->r, number == WORN ? 7 : (uint32_t)number);
}

static void test_numbers(enum call call) {
    int i, j;
    for (i = 0; numbers[call][i] != 0; i++)
        for (j = i; numbers[call][j] != 0; j++) {
            struct scene s = begin(call);
            spoil(&s, numbers[call][i]);
            if (j != i)
                spoil(&s, numbers[call][j]);
            refuse(&s, numbers[call][i]);
        }
}

void test_order(void) {
    static char names[CALLS][60];
    int call;
    for (call = 0; call < CALLS; call++) {
        strcpy(names[call], call_name((enum call)call));
        strcat(names[call], ": each number, and the first of each two");
        group(names[call]);
        test_numbers((enum call)call);
    }
}
