/* What the tests of the C border share. A test describes a volume (struct volume), from which the books' bytes
   are made by the paper's layouts alone; it fills in a request, and says the number, the values and the later
   content of every lent buffer. Each slice is lent freshly, with an untouchable page behind and before it. */
#ifndef BORDER_H
#define BORDER_H

#include "isc.h"

/* check.c: groups of checks. */
void group(const char *name); /* begins a group, and prints how the one before ended */
void fail(const char *file, int line, const char *format, ...);
void merge(int on); /* while it is on, further groups belong to the current one */
int summary(void); /* ends the last group and prints the sums; the program's exit code */

/* lend.c: memory that ends at an untouchable page. */
struct lent {
    uint8_t *at;
    size_t len;
    uint8_t *map;
    size_t map_len;
};
struct lent lend(size_t len, size_t gap); /* gap: the bytes between its end and the untouchable page */
struct lent lend_copy(const void *content, size_t len, size_t gap);
void read_only(const struct lent *lent);
int take_back(const struct lent *lent); /* 1 if the bytes around it are as they were */

/* paper.c: volumes, and their books as the paper lays them out. */
enum { RUNS_MOST = 64, FILES_MOST = 36, CHAIN_MOST = 8, CHILDREN_MOST = 4, WITHHELD_MOST = 512 };
enum { TYPE_B = 2, TYPE_C, TYPE_D, TYPE_E, TYPE_F, TYPE_G, TYPE_H };

struct run {
    uint32_t start, count;
};

struct file {
    uint32_t id;
    const char *name;
    const uint8_t *created, *changed;
    uint32_t length, attribute;
    uint32_t children[CHILDREN_MOST]; /* the child tables in order; 0 ends them */
    uint32_t runs_count;
    struct run runs[RUNS_MOST];
    struct run header; /* count 0: none */
    int noise, child_noise; /* the unexamined bytes of its parent table, of its child tables, are not zero */
};

struct volume {
    uint32_t zones, indexes, sectors, flag; /* sectors: S */
    uint32_t zone_at, sector_at, index_at;  /* the tables' start sectors */
    const char *texts[4];                   /* application, volume name, owner, owner's code */
    uint32_t volume_id;
    const uint8_t *initialized, *updated;
    uint8_t type[ISC_ZONES_MOST + 1]; /* of zones 2 to Z-1; 0 or TYPE_B to TYPE_H */
    uint32_t files_count;
    struct file files[FILES_MOST];
    uint32_t chain[CHAIN_MOST]; /* the free chain's head; the other free tables follow, ascending */
    uint32_t withheld_count;
    uint32_t withheld[WITHHELD_MOST]; /* the first sectors of its withheld blocks, ascending */
    int noise;                  /* bytes that the paper does not name are not zero */
};

extern const uint8_t DAY1[6], DAY2[6], DAY3[6];

struct volume fresh(uint32_t zones, uint32_t indexes, uint32_t sectors);
struct volume mounted(uint32_t zones, uint32_t indexes, uint32_t sectors);
struct volume spread(uint32_t zones, uint32_t indexes);
struct file *put(struct volume *v, uint32_t id, const char *name, uint32_t length, uint32_t attribute);
void run(struct file *f, uint32_t start, uint32_t count);
void withhold(struct volume *v, uint32_t start);
struct volume desk(int child);
struct volume curve(uint32_t attribute);
struct volume rack(void);
uint32_t block_of(uint32_t type); /* its sectors */
void paper_books(const struct volume *v, uint8_t *books);
void put_number(uint8_t *at, unsigned bytes, uint32_t value);
uint32_t get_number(const uint8_t *at, unsigned bytes);
void paper_header(uint8_t *body, struct run place, uint32_t id, const uint8_t *data, uint32_t length);

/* Where a test alters books: in sector 0, sector 1, the zone table, the sector table, or index table INDEX + 1, ... */
enum place { SECTOR_0, SECTOR_1, ZONE_TABLE, SECTOR_TABLE, INDEX };
uint8_t *spot(const struct volume *v, uint8_t *books, int place, uint32_t offset);

/* call.c: one request, lent, called and compared. */
enum call {
    FORMAT, MOUNT, DISMOUNT, CREATE_FIXED, CREATE_VARIABLE, GROW, TEMPORARY_DELETE, RECOVER, ACTUAL_DELETE,
    SET_PROTECTION, SEARCH, LIST, LOCATE, SPACE, REPORT, BROKEN_RULE, BROKEN_TEXT, READ, WRITE, SHOW,
    PLACE_HEADER, SHOW_HEADER, CALLS
};
enum { BOOKS_MOST = 1025 * 1024, BODY_MOST = 4 * 1048576 + 1024, FILL = 0x55, VALUES_MOST = 3 };

struct slice {
    const uint8_t *at;
    size_t len;
};

struct request {
    enum call call;
    struct slice books, body;
    const uint32_t *withheld; /* the list, of withheld_len numbers */
    size_t withheld_len;
    struct slice name; /* of a create, or the pattern of a search */
    struct slice date, in; /* in: the data of a write or of a header */
    struct slice texts[4]; /* of format, in its order */
    size_t room;           /* how much is lent to be filled: elements of ids, bytes of entries, text or out */
    int32_t zones, indexes, size, flag, cell, position, length;
    uint32_t volume_id, kind, id, protection, from, k, exchange;
};

struct answer {
    uint32_t number;
    uint32_t value[VALUES_MOST]; /* of show and show header: the place's at and len */
    const uint8_t *books;        /* afterwards; null if they stay as they were */
    const uint8_t *body;
    struct slice filled; /* what then begins the lent buffer; the rest of it stays */
};

extern size_t odd; /* the gap with which slices of bytes are lent */
extern uint8_t now_books[BOOKS_MOST], now_body[BODY_MOST], then_body[BODY_MOST], ink[BODY_MOST];

const char *call_name(enum call call);
void expect(const struct request *r, const struct answer *a, const char *file, int line);

/* ask.c: requests that are done on desk(), to be altered by the tests, and short ways to say what is there afterwards
   and an answer. */
struct slice text(const char *words);
struct request ask(enum call call, const struct volume *v);
void restand(struct request *r, const struct volume *v);
struct file *made(struct volume *then, uint32_t id, const char *name, uint32_t length, uint32_t attribute);
void grown(struct volume *then, uint32_t file, uint32_t length);
void spill(const struct file *f, uint32_t position, uint32_t bytes, int exchange);
void refused_at(const struct request *r, uint32_t number, const char *file, int line);
void done_at(const struct request *r, const struct volume *then, uint32_t value, const char *file, int line);
void filled_at(const struct request *r, uint32_t value, const void *bytes, size_t len, const char *file, int line);
void written_at(const struct request *r, const struct volume *then, uint32_t moved, const char *file, int line);
void shown_at(const struct request *r, uint32_t sector, uint32_t count, const char *file, int line);
void named_at(const struct request *r, uint32_t rule, uint32_t kind, uint32_t place, const char *file, int line);
void bad_dates_at(const struct request *r, const char *file, int line);
void bad_ids_at(const struct request *r, const char *file, int line);

#define REFUSED(r, number) refused_at(r, number, __FILE__, __LINE__)
#define DONE(r, then, value) done_at(r, then, value, __FILE__, __LINE__)
#define FILLED(r, value, bytes, len) filled_at(r, value, bytes, len, __FILE__, __LINE__)
#define WRITTEN(r, then, moved) written_at(r, then, moved, __FILE__, __LINE__)
#define SHOWN(r, sector, count) shown_at(r, sector, count, __FILE__, __LINE__)
#define BAD_DATES(r) bad_dates_at(r, __FILE__, __LINE__)
#define BAD_IDS(r) bad_ids_at(r, __FILE__, __LINE__)

/* The topics, one a file. */
void test_books(void);
void test_rules(void);
void test_order(void);
void test_format(void);
void test_create(void);
void test_grow(void);
void test_delete(void);
void test_find(void);
void test_report(void);
void test_broken(void);
void test_read(void);
void test_write(void);
void test_show(void);
void test_place(void);
void test_withheld(void);
void test_together(void);
void test_cards(void);
void test_words(void);

#endif
