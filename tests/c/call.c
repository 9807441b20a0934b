/* Makes one call: lends every slice and every value freshly, calls the library, and compares the number, the values
   and every byte of what was lent with the answer that the test expects. */
#include "border.h"
#include <string.h>

size_t odd;
uint8_t now_books[BOOKS_MOST], now_body[BODY_MOST], then_body[BODY_MOST], ink[BODY_MOST];

/* What is lent for a call. */
struct loan {
    struct lent books, withheld, body, name, date, in, texts[4], fill, value[VALUES_MOST];
    const uint32_t *list; /* the withheld one, as the functions take it */
    size_t list_len;
    const char *file;
    int line;
};

static uint32_t *value_of(const struct loan *l, int i) { return (uint32_t *)(void *)l->value[i].at; }

static uint32_t call_format(const struct request *r, struct loan *l) {
    return isc_format(l->books.at, l->books.len, r->zones, r->indexes, l->texts[0].at, l->texts[0].len, l->texts[1].at,
                      l->texts[1].len, r->volume_id, l->texts[2].at, l->texts[2].len, l->texts[3].at, l->texts[3].len,
                      l->date.at, l->date.len);
}

static uint32_t call_mount(const struct request *r, struct loan *l) {
    (void)r;
    return isc_mount(l->books.at, l->books.len, l->list, l->list_len);
}

static uint32_t call_dismount(const struct request *r, struct loan *l) {
    (void)r;
    return isc_dismount(l->books.at, l->books.len, l->list, l->list_len);
}

static uint32_t call_create_fixed(const struct request *r, struct loan *l) {
    return isc_create_fixed(l->books.at, l->books.len, l->list, l->list_len, l->name.at, l->name.len, r->size, r->flag,
                            r->kind, l->date.at, l->date.len, value_of(l, 0));
}

static uint32_t call_create_variable(const struct request *r, struct loan *l) {
    return isc_create_variable(l->books.at, l->books.len, l->list, l->list_len, l->name.at, l->name.len, r->cell,
                               r->kind, l->date.at, l->date.len, value_of(l, 0));
}

static uint32_t call_grow(const struct request *r, struct loan *l) {
    return isc_grow(l->books.at, l->books.len, l->list, l->list_len, r->id, r->length, l->date.at, l->date.len);
}

static uint32_t call_temporary_delete(const struct request *r, struct loan *l) {
    return isc_temporary_delete(l->books.at, l->books.len, l->list, l->list_len, l->body.at, l->body.len, r->id,
                                l->date.at, l->date.len);
}

static uint32_t call_recover(const struct request *r, struct loan *l) {
    return isc_recover(l->books.at, l->books.len, l->list, l->list_len, l->body.at, l->body.len, r->id, l->date.at,
                       l->date.len);
}

static uint32_t call_actual_delete(const struct request *r, struct loan *l) {
    return isc_actual_delete(l->books.at, l->books.len, l->list, l->list_len, l->body.at, l->body.len, r->id,
                             l->date.at, l->date.len);
}

static uint32_t call_set_protection(const struct request *r, struct loan *l) {
    return isc_set_protection(l->books.at, l->books.len, l->list, l->list_len, r->id, r->protection, l->date.at,
                              l->date.len);
}

static uint32_t call_search(const struct request *r, struct loan *l) {
    return isc_search(l->books.at, l->books.len, l->list, l->list_len, l->name.at, l->name.len,
                      (uint32_t *)(void *)l->fill.at, r->room, value_of(l, 0));
}

static uint32_t call_list(const struct request *r, struct loan *l) {
    return isc_list(l->books.at, l->books.len, l->list, l->list_len, r->from, l->fill.at, l->fill.len, value_of(l, 0));
}

static uint32_t call_locate(const struct request *r, struct loan *l) {
    return isc_locate(l->books.at, l->books.len, l->list, l->list_len, r->id, r->k, value_of(l, 0));
}

static uint32_t call_space(const struct request *r, struct loan *l) {
    (void)r;
    return isc_space(l->books.at, l->books.len, l->list, l->list_len, value_of(l, 0), value_of(l, 1));
}

static uint32_t call_report(const struct request *r, struct loan *l) {
    (void)r;
    return isc_report(l->books.at, l->books.len, l->list, l->list_len, l->fill.at, l->fill.len, value_of(l, 0));
}

static uint32_t call_broken_rule(const struct request *r, struct loan *l) {
    (void)r;
    return isc_broken_rule(l->books.at, l->books.len, l->list, l->list_len, value_of(l, 0), value_of(l, 1),
                           value_of(l, 2));
}

static uint32_t call_broken_text(const struct request *r, struct loan *l) {
    (void)r;
    return isc_broken_text(l->books.at, l->books.len, l->list, l->list_len, l->fill.at, l->fill.len, value_of(l, 0));
}

static uint32_t call_read(const struct request *r, struct loan *l) {
    return isc_read(l->books.at, l->books.len, l->list, l->list_len, l->body.at, l->body.len, r->id, r->position,
                    r->length, r->exchange, l->fill.at, l->fill.len, value_of(l, 0));
}

static uint32_t call_write(const struct request *r, struct loan *l) {
    return isc_write(l->books.at, l->books.len, l->list, l->list_len, l->body.at, l->body.len, r->id, r->position,
                     r->length, r->exchange, l->in.at, l->in.len, l->date.at, l->date.len, value_of(l, 0));
}

/* Both shows are three functions: the place, the part that isc.h makes of it, and the number. */
static void take_place(struct loan *l, const char *name, isc_place place, isc_part part) {
    if (part.at != l->body.at + place.at || part.len != place.len)
        fail(l->file, l->line, "%s: not the part of the body at its place", name);
    if (place.at > UINT32_MAX || place.len > UINT32_MAX)
        fail(l->file, l->line, "%s: outside the body", name);
    *value_of(l, 0) = (uint32_t)place.at;
    *value_of(l, 1) = (uint32_t)place.len;
}

static uint32_t call_show(const struct request *r, struct loan *l) {
    take_place(l, "isc_show",
               isc_show_place(l->books.at, l->books.len, l->list, l->list_len, l->body.at, l->body.len, r->id, r->k),
               isc_show(l->books.at, l->books.len, l->list, l->list_len, l->body.at, l->body.len, r->id, r->k));
    return isc_show_number(l->books.at, l->books.len, l->list, l->list_len, l->body.at, l->body.len, r->id, r->k);
}

static uint32_t call_place_header(const struct request *r, struct loan *l) {
    return isc_place_header(l->books.at, l->books.len, l->list, l->list_len, l->body.at, l->body.len, r->id, l->in.at,
                            l->in.len, l->date.at, l->date.len);
}

static uint32_t call_show_header(const struct request *r, struct loan *l) {
    take_place(l, "isc_show_header",
               isc_header_place(l->books.at, l->books.len, l->list, l->list_len, l->body.at, l->body.len, r->id),
               isc_show_header(l->books.at, l->books.len, l->list, l->list_len, l->body.at, l->body.len, r->id));
    return isc_header_number(l->books.at, l->books.len, l->list, l->list_len, l->body.at, l->body.len, r->id);
}

/* Which slices a call takes, beside the books and the withheld list, and which of them it may write. */
enum { BOOKS_WRITTEN = 1, BODY = 2, BODY_WRITTEN = 4, NAME = 8, DATE = 16, IN = 32, TEXTS = 64 };

static const struct {
    const char *name;
    uint32_t (*make)(const struct request *, struct loan *);
    int takes, values;
    size_t unit; /* bytes of an element that it fills, 0 if it fills nothing */
} calls[CALLS] = {
    {"isc_format", call_format, BOOKS_WRITTEN | TEXTS | DATE, 0, 0},
    {"isc_mount", call_mount, BOOKS_WRITTEN, 0, 0},
    {"isc_dismount", call_dismount, BOOKS_WRITTEN, 0, 0},
    {"isc_create_fixed", call_create_fixed, BOOKS_WRITTEN | NAME | DATE, 1, 0},
    {"isc_create_variable", call_create_variable, BOOKS_WRITTEN | NAME | DATE, 1, 0},
    {"isc_grow", call_grow, BOOKS_WRITTEN | DATE, 0, 0},
    {"isc_temporary_delete", call_temporary_delete, BOOKS_WRITTEN | BODY | BODY_WRITTEN | DATE, 0, 0},
    {"isc_recover", call_recover, BOOKS_WRITTEN | BODY | BODY_WRITTEN | DATE, 0, 0},
    {"isc_actual_delete", call_actual_delete, BOOKS_WRITTEN | BODY | BODY_WRITTEN | DATE, 0, 0},
    {"isc_set_protection", call_set_protection, BOOKS_WRITTEN | DATE, 0, 0},
    {"isc_search", call_search, NAME, 1, 4},
    {"isc_list", call_list, 0, 1, 1},
    {"isc_locate", call_locate, 0, 1, 0},
    {"isc_space", call_space, 0, 2, 0},
    {"isc_report", call_report, 0, 1, 1},
    {"isc_broken_rule", call_broken_rule, 0, 3, 0},
    {"isc_broken_text", call_broken_text, 0, 1, 1},
    {"isc_read", call_read, BODY, 1, 1},
    {"isc_write", call_write, BOOKS_WRITTEN | BODY | BODY_WRITTEN | IN | DATE, 1, 0},
    {"isc_show", call_show, BODY, 2, 0},
    {"isc_place_header", call_place_header, BOOKS_WRITTEN | BODY | BODY_WRITTEN | IN | DATE, 0, 0},
    {"isc_show_header", call_show_header, BODY, 2, 0},
};

const char *call_name(enum call call) { return calls[call].name; }

/* The withheld list, also an empty one, ends where an untouchable page begins: there its numbers are aligned. */
static void lend_withheld(const struct request *r, struct loan *l) {
    l->withheld = lend_copy(r->withheld, sizeof(uint32_t) * r->withheld_len, 0);
    read_only(&l->withheld);
    l->list = (const uint32_t *)(void *)l->withheld.at;
    l->list_len = r->withheld_len;
}

/* A slice that the call does not take is lent empty. */
static struct lent lend_slice(struct slice s, int taken, int written) {
    struct lent lent;
    memset(&lent, 0, sizeof lent);
    if (taken) {
        lent = lend_copy(s.at, s.len, odd);
        if (!written)
            read_only(&lent);
    }
    return lent;
}

static void lend_all(const struct request *r, struct loan *l) {
    int i, takes = calls[r->call].takes;
    l->books = lend_slice(r->books, 1, takes & BOOKS_WRITTEN);
    lend_withheld(r, l);
    l->body = lend_slice(r->body, takes & BODY, takes & BODY_WRITTEN);
    l->name = lend_slice(r->name, takes & NAME, 0);
    l->date = lend_slice(r->date, takes & DATE, 0);
    l->in = lend_slice(r->in, takes & IN, 0);
    for (i = 0; i < 4; i++)
        l->texts[i] = lend_slice(r->texts[i], takes & TEXTS, 0);
    memset(&l->fill, 0, sizeof l->fill);
    if (calls[r->call].unit > 0) {
        l->fill = lend(r->room * calls[r->call].unit, calls[r->call].unit == 1 ? odd : 0);
        memset(l->fill.at, FILL, l->fill.len);
    }
    for (i = 0; i < VALUES_MOST; i++) {
        l->value[i] = lend(sizeof(uint32_t), 0);
        *value_of(l, i) = 0xA5A5A5A5;
    }
}

static void take_all_back(const struct request *r, struct loan *l) {
    struct lent *all[11 + VALUES_MOST];
    int i, count = 0;
    all[count++] = &l->books;
    all[count++] = &l->withheld;
    all[count++] = &l->body;
    all[count++] = &l->name;
    all[count++] = &l->date;
    all[count++] = &l->in;
    all[count++] = &l->fill;
    for (i = 0; i < 4; i++)
        all[count++] = &l->texts[i];
    for (i = 0; i < VALUES_MOST; i++)
        all[count++] = &l->value[i];
    for (i = 0; i < count; i++)
        if (all[i]->map != NULL && !take_back(all[i]))
            fail(l->file, l->line, "%s: a byte around a lent slice altered", calls[r->call].name);
}

/* Compares a lent buffer with what it should hold. */
static void same_bytes(const struct request *r, const struct loan *l, const char *what, struct slice got,
                       const uint8_t *wanted) {
    size_t i;
    if (got.len == 0 || memcmp(got.at, wanted, got.len) == 0)
        return;
    for (i = 0; got.at[i] == wanted[i]; i++)
        ;
    fail(l->file, l->line, "%s: byte %zu of the %s is %d, not %d", calls[r->call].name, i, what, got.at[i], wanted[i]);
}

static void compare_fill(const struct request *r, const struct answer *a, const struct loan *l) {
    size_t i;
    struct slice got;
    if (a->filled.len > l->fill.len) {
        fail(l->file, l->line, "the test expects %zu bytes where %zu are lent", a->filled.len, l->fill.len);
        return;
    }
    got.at = l->fill.at;
    got.len = a->filled.len;
    same_bytes(r, l, "lent buffer", got, a->filled.at);
    for (i = a->filled.len; i < l->fill.len; i++)
        if (l->fill.at[i] != FILL) {
            fail(l->file, l->line, "%s: byte %zu of the lent buffer is past what is filled, and altered",
                 calls[r->call].name, i);
            return;
        }
}

void expect(const struct request *r, const struct answer *a, const char *file, int line) {
    struct loan l;
    struct slice books, body;
    uint32_t number;
    int i;
    l.file = file;
    l.line = line;
    lend_all(r, &l);
    number = calls[r->call].make(r, &l);
    if (number != a->number)
        fail(file, line, "%s: number %u, not %u", calls[r->call].name, number, a->number);
    for (i = 0; i < calls[r->call].values; i++)
        if (*value_of(&l, i) != a->value[i])
            fail(file, line, "%s: value %u, not %u", calls[r->call].name, *value_of(&l, i), a->value[i]);
    books.at = l.books.at;
    books.len = l.books.len;
    body.at = l.body.at;
    body.len = l.body.len;
    same_bytes(r, &l, "books", books, a->books != NULL ? a->books : r->books.at);
    same_bytes(r, &l, "body", body, a->body != NULL ? a->body : r->body.at);
    compare_fill(r, a, &l);
    take_all_back(r, &l);
}
