/* Requests that are done on the volume of desk(), for the tests to alter, and short ways to say what is expected. */
#include "border.h"
#include <stdio.h>
#include <string.h>

static uint8_t then_books[BOOKS_MOST];
static uint32_t now_withheld[WITHHELD_MOST];

struct slice text(const char *words) {
    struct slice s;
    s.at = (const uint8_t *)words;
    s.len = strlen(words);
    return s;
}

static struct slice slice_of(const uint8_t *at, size_t len) {
    struct slice s;
    s.at = at;
    s.len = len;
    return s;
}

/* Lends the books and the withheld list of another volume; the body has "1,048,576 x (Z-2) bytes". */
void restand(struct request *r, const struct volume *v) {
    paper_books(v, now_books);
    r->books = slice_of(now_books, 1024 * (size_t)v->sectors);
    memcpy(now_withheld, v->withheld, sizeof now_withheld);
    r->withheld = now_withheld;
    r->withheld_len = v->withheld_count;
    r->body = slice_of(now_body, 1048576 * (size_t)(v->zones - 2));
}

/* What the body holds, and what is written. */
static void fill_once(void) {
    static int filled;
    size_t i;
    for (i = 0; !filled && i < BODY_MOST; i++) {
        now_body[i] = (uint8_t)(i * 7 + i / 256 * 3 + i / 65536);
        ink[i] = (uint8_t)(i * 11 + i / 256 * 5 + 1);
    }
    filled = 1;
}

struct request ask(enum call call, const struct volume *v) {
    struct request r;
    size_t i;
    memset(&r, 0, sizeof r);
    r.call = call;
    restand(&r, v);
    fill_once();
    for (i = 0; i < 4; i++)
        r.texts[i] = text("");
    r.zones = (int32_t)v->zones;
    r.indexes = (int32_t)v->indexes;
    r.name = call == SEARCH ? text("LOG") : text("NEW");
    r.date = slice_of(DAY2, 6);
    r.in = slice_of(ink, 1024);
    r.size = 1;
    r.flag = 4;
    r.cell = 1024;
    r.id = 1;
    r.from = 1;
    r.position = call == WRITE ? 10240 : 0;
    r.length = call == GROW ? 10241 : 1024;
    r.room = call == SEARCH ? 2 : call == LIST ? 128 : call == REPORT ? 192 : call == BROKEN_TEXT ? 64 : 1024;
    return r;
}

/* "Each request that changes a file takes a date, stored as its change date (in a create as creation date too) and as
   latest update." */
struct file *made(struct volume *then, uint32_t id, const char *name, uint32_t length, uint32_t attribute) {
    struct file *f = put(then, id, name, length, attribute);
    f->created = f->changed = then->updated = DAY2;
    return f;
}

void grown(struct volume *then, uint32_t file, uint32_t length) {
    then->files[file].length = length;
    then->files[file].changed = then->updated = DAY2;
}

/* "Each written sector is filled where it lies in the body", and no other byte of it. */
void spill(const struct file *f, uint32_t position, uint32_t bytes, int exchange) {
    uint32_t i, j, at = 0, b;
    memcpy(then_body, now_body, BODY_MOST);
    for (i = 0; i < f->runs_count; i++)
        for (j = 0; j < f->runs[i].count; j++, at += 1024)
            for (b = 0; b < 1024 && at >= position && at < position + bytes; b++)
                then_body[1024 * (f->runs[i].start + j - 1024) + b] = ink[at - position + (exchange ? b ^ 1U : b)];
}

/* The report and the text of the broken rule are done where the text is long enough, and say the refusal in their
   lines. */
static int says(const struct request *r) {
    return (r->call == REPORT && r->room >= 192) || (r->call == BROKEN_TEXT && r->room >= 64);
}

/* "Every refusal returns zeros beside its number and alters no lent byte." */
void refused_at(const struct request *r, uint32_t number, const char *file, int line) {
    struct answer a;
    char words[20];
    memset(&a, 0, sizeof a);
    a.number = number;
    if (says(r)) {
        a.number = 0;
        a.value[0] = (uint32_t)snprintf(words, sizeof words, "refused=%u\n", number);
        a.filled = text(words);
    }
    expect(r, &a, file, line);
}

/* Done; `then` is the volume afterwards, null if no byte changes. */
void done_at(const struct request *r, const struct volume *then, uint32_t value, const char *file, int line) {
    struct answer a;
    memset(&a, 0, sizeof a);
    a.value[0] = value;
    if (then != NULL) {
        paper_books(then, then_books);
        a.books = then_books;
    }
    expect(r, &a, file, line);
}

void filled_at(const struct request *r, uint32_t value, const void *bytes, size_t len, const char *file, int line) {
    struct answer a;
    memset(&a, 0, sizeof a);
    a.value[0] = value;
    a.filled = slice_of(bytes, len);
    expect(r, &a, file, line);
}

/* Done, with then_body as the body afterwards. */
void written_at(const struct request *r, const struct volume *then, uint32_t moved, const char *file, int line) {
    struct answer a;
    memset(&a, 0, sizeof a);
    a.value[0] = moved;
    a.body = then_body;
    if (then != NULL) {
        paper_books(then, then_books);
        a.books = then_books;
    }
    expect(r, &a, file, line);
}

/* Done: "hands back that sector as it lies in the body", which begins with sector 1024; or the sectors of a header. */
void shown_at(const struct request *r, uint32_t sector, uint32_t count, const char *file, int line) {
    struct answer a;
    memset(&a, 0, sizeof a);
    a.value[0] = 1024 * (sector - 1024);
    a.value[1] = 1024 * count;
    expect(r, &a, file, line);
}

/* Done: the broken rule, or with zeros none. "Output: `rule=`, `kind=`, `place=`, one a line; `rule=none` alone if
   nothing fails." */
void named_at(const struct request *r, uint32_t rule, uint32_t kind, uint32_t place, const char *file, int line) {
    static const char *const kinds[] = {"", "zone", "sector", "index", "count"};
    struct answer a;
    char words[64] = "rule=none\n";
    memset(&a, 0, sizeof a);
    if (r->call == BROKEN_RULE) {
        a.value[0] = rule;
        a.value[1] = kind;
        a.value[2] = place;
    } else {
        if (rule != 0)
            snprintf(words, sizeof words, "rule=R%u\nkind=%s\nplace=%u\n", rule, kinds[kind], place);
        a.filled = text(words);
        a.value[0] = (uint32_t)a.filled.len;
    }
    expect(r, &a, file, line);
}

/* "Valid: year 1-9999, month 1-12, day 1-31, hour 0-23, minute 0-59." A slice that is not six bytes is 7 too. */
void bad_dates_at(const struct request *r, const char *file, int line) {
    static const uint8_t dates[][6] = {
        {0, 0, 1, 1, 0, 0},  {0x27, 0x10, 1, 1, 0, 0}, {0x80, 1, 1, 1, 0, 0}, {7, 208, 0, 1, 0, 0},
        {7, 208, 13, 1, 0, 0}, {7, 208, 1, 0, 0, 0},   {7, 208, 1, 32, 0, 0}, {7, 208, 1, 1, 24, 0},
        {7, 208, 1, 1, 0, 60}, {7, 208, 1, 1, 0, 255}, {7, 208, 255, 1, 0, 0}};
    static const uint8_t seven[7] = {7, 208, 1, 1, 0, 0, 0};
    struct request bad = *r;
    size_t i;
    for (i = 0; i < sizeof dates / sizeof dates[0]; i++) {
        bad.date = slice_of(dates[i], 6);
        refused_at(&bad, 7, file, line);
    }
    for (i = 0; i <= 7; i++)
        if (i != 6) {
            bad.date = slice_of(seven, i);
            refused_at(&bad, 7, file, line);
        }
}

/* "Id outside 1..N, or not a parent": on desk(1) N is 4, table 3 is free and table 4 a child. */
void bad_ids_at(const struct request *r, const char *file, int line) {
    static const uint32_t ids[] = {0, 3, 4, 5, 256, 257, 0x10001, 0x80000001, 0xFFFFFFFC, 0xFFFFFFFF};
    struct request bad = *r;
    size_t i;
    for (i = 0; i < sizeof ids / sizeof ids[0]; i++) {
        bad.id = ids[i];
        refused_at(&bad, 8, file, line);
    }
}
