/* The books of a described volume, byte for byte, by the paper's "Layouts" and book rules. Nothing here comes from
   the library: the expected content of every lent buffer is made of these functions. */
#include "border.h"
#include <string.h>

const uint8_t DAY1[6] = {7, 208, 1, 2, 3, 4};        /* 2 January 2000, 3:04 */
const uint8_t DAY2[6] = {7, 209, 12, 31, 23, 59};    /* 31 December 2001, 23:59 */
const uint8_t DAY3[6] = {0x07, 0xCF, 2, 31, 0, 0};   /* 31 February 1999: valid, and earlier than the others */

enum { NOISE = 0xE3 };

/* "Integers are most significant byte first." */
void put_number(uint8_t *at, unsigned bytes, uint32_t value) {
    while (bytes > 0) {
        bytes--;
        at[bytes] = (uint8_t)value;
        value >>= 8;
    }
}

uint32_t get_number(const uint8_t *at, unsigned bytes) {
    uint32_t value = 0;
    unsigned i;
    for (i = 0; i < bytes; i++)
        value = value << 8 | at[i];
    return value;
}

/* "Tables from sector 2 on without gaps, free chain 1, 2, ..., N, flag 0." R1: "They take ceil(6Z/1024), ceil(Z/8),
   ceil(N/8) sectors." */
struct volume fresh(uint32_t zones, uint32_t indexes, uint32_t sectors) {
    struct volume v;
    unsigned i;
    memset(&v, 0, sizeof v);
    v.zones = zones;
    v.indexes = indexes;
    v.sectors = sectors;
    v.zone_at = 2;
    v.sector_at = v.zone_at + (6 * zones + 1023) / 1024;
    v.index_at = v.sector_at + (zones + 7) / 8;
    v.initialized = v.updated = DAY1;
    for (i = 0; i < 4; i++)
        v.texts[i] = "";
    return v;
}

struct volume mounted(uint32_t zones, uint32_t indexes, uint32_t sectors) {
    struct volume v = fresh(zones, indexes, sectors);
    v.flag = 1;
    return v;
}

/* A mounted volume with a gap before each table and after the last, and noise in all bytes that the paper does not
   name: "Bytes not named ... are not examined; bytes not named are not changed." */
struct volume spread(uint32_t zones, uint32_t indexes) {
    struct volume v = fresh(zones, indexes, 0);
    v.zone_at += 1;
    v.sector_at += 2;
    v.index_at += 3;
    v.sectors = v.index_at + (indexes + 7) / 8 + 1;
    v.flag = 1;
    v.noise = 1;
    v.texts[1] = "RELAYS";
    v.volume_id = 0xFEDCBA98;
    return v;
}

struct file *put(struct volume *v, uint32_t id, const char *name, uint32_t length, uint32_t attribute) {
    struct file *f = &v->files[v->files_count++];
    memset(f, 0, sizeof *f);
    f->id = id;
    f->name = name;
    f->length = length;
    f->attribute = attribute;
    f->created = f->changed = DAY1;
    return f;
}

void run(struct file *f, uint32_t start, uint32_t count) {
    f->runs[f->runs_count].start = start;
    f->runs[f->runs_count].count = count;
    f->runs_count++;
}

void withhold(struct volume *v, uint32_t start) { v->withheld[v->withheld_count++] = start; }

/* Z = 3, N = 4. File 1 is variable, file 2 fixed; zone 2 is of type C and they hold its sectors from 1024 on in turn,
   ten each, so that file 1 needs a child table for its next. Tables 4 and 3 are free, in this order; with `child`
   file 1 has the sector 1044 too, and table 4 is its child. */
struct volume desk(int child) {
    struct volume v = spread(3, 4);
    struct file *log = put(&v, 1, "LOG", 10240, 16), *curve = put(&v, 2, "CURVE", 10240, 0);
    uint32_t i;
    v.type[2] = TYPE_C;
    for (i = 0; i < 10; i++) {
        run(log, 1024 + 2 * i, 1);
        run(curve, 1025 + 2 * i, 1);
    }
    log->noise = curve->noise = 1;
    v.chain[0] = child ? 3 : 4;
    if (child) {
        run(log, 1044, 1);
        log->children[0] = 4;
        log->child_noise = 1;
        log->length = 11264;
    }
    return v;
}

/* Z = 4, N = 4. File 3 is fixed, of 5,000 bytes on ten sectors of zones 2 and 3: its end is 5,120. */
struct volume curve(uint32_t attribute) {
    struct volume v = spread(4, 4);
    struct file *f = put(&v, 3, "CURVE", 5000, attribute);
    v.type[2] = TYPE_D;
    v.type[3] = TYPE_C;
    run(f, 1032, 4);
    run(f, 2050, 1);
    run(f, 2052, 3);
    run(f, 2051, 1);
    run(f, 2999, 1);
    f->noise = 1;
    return v;
}

/* desk(1) with one zone more, of type B: the header of file 2 is its first sector, that of file 1 its next two. The
   tables stand in the same places for four zones. */
struct volume rack(void) {
    struct volume v = desk(1);
    v.zones = 4;
    v.type[3] = TYPE_B;
    v.files[0].header.start = 2049;
    v.files[0].header.count = 2;
    v.files[1].header.start = 2048;
    v.files[1].header.count = 1;
    return v;
}

static void put_text(uint8_t *at, size_t field, const char *words) {
    memset(at, 0, field);
    memcpy(at, words, strlen(words));
}

/* Sector 0 (000, 4.1.1). */
static void put_sector_0(const struct volume *v, uint8_t *at) {
    memcpy(at, "\x49\x53\x26\x43" "01.0", 8);
    put_text(at + 8, 16, v->texts[0]);
    put_text(at + 24, 32, v->texts[1]);
    put_number(at + 56, 4, v->volume_id);
    put_text(at + 60, 32, v->texts[2]);
    put_text(at + 92, 32, v->texts[3]);
    memcpy(at + 124, v->initialized, 6);
    put_number(at + 130, 4, v->zones);
    put_number(at + 134, 2, 1024);
    put_number(at + 136, 2, 1024);
    put_number(at + 138, 4, v->zone_at);
    put_number(at + 142, 4, v->sector_at);
    put_number(at + 146, 4, v->index_at);
    put_number(at + 150, 2, 128);
}

static uint32_t tables_of(const struct file *f) {
    uint32_t i, tables = 1;
    for (i = 0; i < CHILDREN_MOST && f->children[i] != 0; i++)
        tables++;
    return tables;
}

/* Sector 1 (4.1.2). R9: "system and directory counts take active files only." */
static void put_sector_1(const struct volume *v, uint8_t *at) {
    uint32_t i, deleted = 0, tables = 0, systems = 0, directories = 0;
    for (i = 0; i < v->files_count; i++) {
        const struct file *f = &v->files[i];
        deleted += f->attribute & 1;
        tables += tables_of(f);
        systems += (f->attribute & 65) == 64;
        directories += (f->attribute & 33) == 32;
    }
    put_number(at, 4, v->indexes);
    put_number(at + 4, 4, v->files_count - deleted);
    put_number(at + 8, 4, deleted);
    put_number(at + 12, 4, v->indexes - tables);
    put_number(at + 16, 2, systems);
    put_number(at + 18, 2, directories);
    memcpy(at + 20, v->updated, 6);
    put_number(at + 30, 2, v->flag);
}

/* "Types 3 to 8 are C to H, with blocks of 1, 4, 16, 64, 256, 1024 sectors." "Zone type 2 (B): free field = free
   sectors." */
uint32_t block_of(uint32_t type) { return type == TYPE_B ? 1 : 1U << 2 * (type - TYPE_C); }

/* R3: "the free count is the number of clear blocks"; "zone z holds sectors 1024(z-1) to 1024z-1". */
static uint32_t clear_blocks(const uint8_t *bits, uint32_t z, uint32_t type) {
    uint32_t block = block_of(type), start, i, sum = 0;
    for (start = 1024 * (z - 1); start < 1024 * z; start += block) {
        int clear = 1;
        for (i = start; i < start + block; i++)
            clear = clear && (bits[i / 8] & 0x80 >> i % 8) == 0;
        sum += (uint32_t)clear;
    }
    return sum;
}

/* Zone table, R2 and R3. */
static void put_zones(const struct volume *v, const uint8_t *bits, uint8_t *at) {
    uint32_t z;
    for (z = 1; z <= v->zones; z++) {
        uint8_t *entry = at + 6 * (z - 1);
        uint32_t type = v->type[z], free_blocks = 0, third = 0;
        if (z == 1 || z == v->zones) {
            type = z == 1 ? 1 : 0xFFFF;
            free_blocks = 0xFFFF;
            third = z == 1 ? v->zones : 1;
        } else if (type != 0)
            free_blocks = clear_blocks(bits, z, type);
        put_number(entry, 2, type);
        put_number(entry + 2, 2, free_blocks);
        put_number(entry + 4, 2, third);
    }
}

/* "One bit a sector, 1 = in use, sector n in byte n/8, lowest n at the highest bit." */
static void set_bits(uint8_t *at, uint32_t start, uint32_t count) {
    for (; count > 0; start++, count--)
        at[start / 8] |= (uint8_t)(0x80 >> start % 8);
}

/* R7: "set bits are the owned sectors and the withheld ones", and those of zones 1 and Z. */
static void put_bits(const struct volume *v, uint8_t *at) {
    uint32_t i, j;
    set_bits(at, 0, 1024);
    set_bits(at, 1024 * (v->zones - 1), 1024);
    for (i = 0; i < v->files_count; i++) {
        for (j = 0; j < v->files[i].runs_count; j++)
            set_bits(at, v->files[i].runs[j].start, v->files[i].runs[j].count);
        set_bits(at, v->files[i].header.start, v->files[i].header.count);
    }
    for (i = 0; i < v->withheld_count; i++)
        set_bits(at, v->withheld[i], block_of(v->type[v->withheld[i] / 1024 + 1]));
}

static void put_run(uint8_t *at, struct run r) {
    put_number(at, 4, r.start);
    put_number(at + 4, 2, r.count);
}

static uint8_t *table_at(uint8_t *tables, uint32_t index) { return tables + 128 * (index - 1); }

uint8_t *spot(const struct volume *v, uint8_t *books, int place, uint32_t offset) {
    const uint32_t sectors[] = {0, 1, v->zone_at, v->sector_at};
    if (place > INDEX)
        return table_at(books + 1024 * v->index_at, (uint32_t)(place - INDEX)) + offset;
    return books + 1024 * sectors[place] + offset;
}

/* "Child: minus its own number 0-3, parent 4-7, zeros 8-21, seventeen pointers 22-123, next child 124-127." */
static void put_child(const struct file *f, uint32_t c, uint8_t *at) {
    uint32_t j;
    put_number(at, 4, 0U - f->children[c]);
    put_number(at + 4, 4, f->id);
    if (f->child_noise)
        memset(at + 8, NOISE, 14);
    for (j = 10 + 17 * c; j < f->runs_count && j < 10 + 17 * (c + 1); j++)
        put_run(at + 22 + 6 * (j - 10 - 17 * c), f->runs[j]);
    put_number(at + 124, 4, c + 1 < CHILDREN_MOST ? f->children[c + 1] : 0);
}

/* "Parent index: id 0-3, name 4-27 padded with nulls, created 28-33, changed 34-39, byte length 40-43, attribute
   44-45, zeros 46-57, header pointer 58-63, ten pointers 64-123, first child 124-127." */
static void put_file(const struct file *f, uint8_t *tables) {
    uint8_t *at = table_at(tables, f->id);
    uint32_t j;
    put_number(at, 4, f->id);
    put_text(at + 4, 24, f->name);
    memcpy(at + 28, f->created, 6);
    memcpy(at + 34, f->changed, 6);
    put_number(at + 40, 4, f->length);
    put_number(at + 44, 2, f->attribute);
    if (f->noise)
        memset(at + 46, NOISE, 12);
    put_run(at + 58, f->header);
    for (j = 0; j < f->runs_count && j < 10; j++)
        put_run(at + 64 + 6 * j, f->runs[j]);
    put_number(at + 124, 4, f->children[0]);
    for (j = 0; j < CHILDREN_MOST && f->children[j] != 0; j++)
        put_child(f, j, table_at(tables, f->children[j]));
}

static int in_head(const struct volume *v, uint32_t index) {
    uint32_t i;
    for (i = 0; i < CHAIN_MOST; i++)
        if (v->chain[i] == index)
            return 1;
    return 0;
}

/* "A free index is all zeros but 124-127, the next free one. 0 ends any chain." The chain starts from sector 1. */
static void put_chain(const struct volume *v, uint8_t *first, uint8_t *tables) {
    uint8_t *link = first;
    uint32_t i;
    for (i = 0; i < CHAIN_MOST && v->chain[i] != 0; i++) {
        put_number(link, 4, v->chain[i]);
        link = table_at(tables, v->chain[i]) + 124;
    }
    for (i = 1; i <= v->indexes; i++)
        if (get_number(table_at(tables, i), 4) == 0 && !in_head(v, i)) {
            put_number(link, 4, i);
            link = table_at(tables, i) + 124;
        }
}

/* Noise in sectors 0 and 1 past the named bytes, between and after the tables, and after the last index table: R1
   asks for null tails of the first two tables only. */
static void put_noise(const struct volume *v, uint8_t *books) {
    uint32_t zones_end = v->zone_at + (6 * v->zones + 1023) / 1024, sectors_end = v->sector_at + (v->zones + 7) / 8;
    uint32_t tables_end = 1024 * v->index_at + 128 * v->indexes;
    memset(books + 152, NOISE, 1024 - 152);
    memset(books + 1024 + 32, NOISE, 1024 - 32);
    memset(books + 2048, NOISE, 1024 * (v->zone_at - 2));
    memset(books + 1024 * zones_end, NOISE, 1024 * (v->sector_at - zones_end));
    memset(books + 1024 * sectors_end, NOISE, 1024 * (v->index_at - sectors_end));
    memset(books + tables_end, NOISE, 1024 * v->sectors - tables_end);
}

void paper_books(const struct volume *v, uint8_t *books) {
    uint8_t *tables = books + 1024 * v->index_at;
    uint32_t i;
    memset(books, 0, 1024 * v->sectors);
    put_sector_0(v, books);
    put_sector_1(v, books + 1024);
    put_bits(v, books + 1024 * v->sector_at);
    put_zones(v, books + 1024 * v->sector_at, books + 1024 * v->zone_at);
    for (i = 0; i < v->files_count; i++)
        put_file(&v->files[i], tables);
    put_chain(v, books + 1024 + 26, tables);
    if (v->noise)
        put_noise(v, books);
}

/* "File id (4 bytes), length L (2), L bytes, then nulls", over all sectors of the header; the body begins with sector
   1024. */
void paper_header(uint8_t *body, struct run place, uint32_t id, const uint8_t *data, uint32_t length) {
    uint8_t *at = body + 1024 * (size_t)(place.start - 1024);
    memset(at, 0, 1024 * (size_t)place.count);
    put_number(at, 4, id);
    put_number(at + 4, 2, length);
    memcpy(at + 6, data, length);
}
