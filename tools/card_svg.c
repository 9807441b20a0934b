/* A picture of which file has which sector, and which are withheld: a row for each zone, a column for each sector, a
   colour for each file, and below them a legend. */
#include "card_svg.h"
#include "card_books.h"
#include "card_text.h"

enum {
    LEFT = 64,     /* of the first sector */
    TOP = 44,      /* of the first row */
    ROW = 14,      /* from row to row */
    BAR = 11,      /* height of a row's sectors */
    COLUMNS = 4,   /* of the legend */
    COLUMN = 270,  /* from column to column */
    WIDTH = LEFT + ISC_ZONE_SECTORS + 16
};

/* A text with the characters that mean something in XML replaced. */
static void put_text(FILE *out, const char *text) {
    for (; *text != '\0'; text++) {
        switch (*text) {
        case '&': fputs("&amp;", out); break;
        case '<': fputs("&lt;", out); break;
        case '>': fputs("&gt;", out); break;
        case '"': fputs("&quot;", out); break;
        default: fputc(*text, out);
        }
    }
}

static void put_name(FILE *out, const uint8_t *field, size_t most) {
    char shown[TEXT_SHOWN];
    text_show(field, most, shown);
    put_text(out, shown);
}

/* A colour that is far from those of the ids next to it: each goes on by the golden angle, in one of three shades. */
static void put_colour(FILE *out, uint32_t id) {
    static const int shades[3][2] = {{50, 200}, {100, 230}, {20, 150}};
    int low = shades[id % 3][0], high = shades[id % 3][1];
    int hue = (int)(id * 137u % 360u), step = (high - low) * (hue % 60) / 60;
    int rising = low + step, falling = high - step;
    const int colours[6][3] = {{high, rising, low}, {falling, high, low}, {low, high, rising},
                               {low, falling, high}, {rising, low, high}, {high, low, falling}};
    const int *colour = colours[hue / 60];
    fprintf(out, "#%02x%02x%02x", (unsigned)colour[0], (unsigned)colour[1], (unsigned)colour[2]);
}

/* The fill of a file's rectangles: a temporarily deleted one is paler. */
static void put_fill(FILE *out, const uint8_t *table) {
    fputs(" fill=\"", out);
    put_colour(out, books_u32(table + ISC_ENTRY_ID));
    fputs((books_u16(table + ISC_ENTRY_ATTRIBUTE) & ISC_WEIGHT_DELETED) != 0 ? "\" fill-opacity=\"0.4\"" : "\"", out);
}

static void put_place(FILE *out, uint32_t sector, uint32_t count) {
    fprintf(out, "<rect x=\"%u\" y=\"%u\" width=\"%u\" height=\"%d\"", (unsigned)(LEFT + sector % ISC_ZONE_SECTORS),
            (unsigned)(TOP + ROW * (sector / ISC_ZONE_SECTORS)), (unsigned)count, BAR);
}

/* A run within one zone; `what` follows the file's name. */
static void put_run(FILE *out, const uint8_t *table, const char *what, uint32_t sector, uint32_t count) {
    put_place(out, sector, count);
    put_fill(out, table);
    fprintf(out, "><title>%u ", (unsigned)books_u32(table + ISC_ENTRY_ID));
    put_name(out, table + ISC_ENTRY_NAME, ISC_NAME_MOST);
    fprintf(out, "%s: sectors %u to %u</title></rect>\n", what, (unsigned)sector, (unsigned)(sector + count - 1));
}

/* A run of data may go on from zone to zone, and so from row to row; a header lies in one. */
static void draw_file(FILE *out, const uint8_t *books, uint32_t id) {
    const uint8_t *table = books_index(books, id);
    struct run_walk walk;
    uint32_t start, count;
    runs_start(&walk, books, id);
    while (runs_next(&walk, &start, &count)) {
        while (count > 0) {
            uint32_t row = ISC_ZONE_SECTORS - start % ISC_ZONE_SECTORS;
            uint32_t part = count < row ? count : row;
            put_run(out, table, "", start, part);
            start += part;
            count -= part;
        }
    }
    if (books_header(table, &start, &count))
        put_run(out, table, ", header", start, count);
}

static void draw_zones(FILE *out, const struct volume *volume) {
    uint32_t zones = books_zones(volume->books), zone;
    for (zone = 1; zone <= zones; zone++) {
        int own = zone == 1 || zone == zones;
        fprintf(out, "<text x=\"%d\" y=\"%u\" text-anchor=\"end\">%u %c</text>\n", LEFT - 6,
                (unsigned)(TOP + ROW * (zone - 1) + BAR - 2), (unsigned)zone, books_zone_letter(volume->books, zone));
        put_place(out, ISC_ZONE_SECTORS * (zone - 1), ISC_ZONE_SECTORS);
        fprintf(out, " fill=\"%s\"/>\n", own ? "#c8c8c8" : "#f0f0f0");
    }
    put_place(out, 0, (uint32_t)(volume->books_len / ISC_SECTOR));
    fputs(" fill=\"#404040\"><title>the books</title></rect>\n", out);
    put_place(out, ISC_ZONE_SECTORS * (zones - 1), (uint32_t)(volume->books_len / ISC_SECTOR));
    fputs(" fill=\"#404040\"><title>the backup of the books</title></rect>\n", out);
}

/* Withheld blocks are black, which is no file's colour. A block lies in one zone. */
static void draw_withheld(FILE *out, const struct volume *volume) {
    size_t i;
    for (i = 0; i < volume->withheld.count; i++) {
        uint32_t start = volume->withheld.at[i], count = books_block(volume->books, start / ISC_ZONE_SECTORS + 1);
        put_place(out, start, count);
        fprintf(out, " fill=\"black\"><title>withheld: sectors %u to %u</title></rect>\n", (unsigned)start,
                (unsigned)(start + count - 1));
    }
}

/* The square at place `n` of the legend, which its fill follows, and its text, which the words follow. */
static void put_square(FILE *out, uint32_t n, uint32_t top) {
    fprintf(out, "<rect x=\"%u\" y=\"%u\" width=\"12\" height=\"%d\"", (unsigned)(16 + COLUMN * (n % COLUMNS)),
            (unsigned)(top + ROW * (n / COLUMNS)), BAR);
}

static void put_words(FILE *out, uint32_t n, uint32_t top) {
    fprintf(out, "/>\n<text x=\"%u\" y=\"%u\">", (unsigned)(16 + 18 + COLUMN * (n % COLUMNS)),
            (unsigned)(top + ROW * (n / COLUMNS) + BAR - 2));
}

/* One file of the legend, at place `n`. */
static void draw_key(FILE *out, const uint8_t *table, uint32_t n, uint32_t top) {
    int deleted = (books_u16(table + ISC_ENTRY_ATTRIBUTE) & ISC_WEIGHT_DELETED) != 0;
    put_square(out, n, top);
    put_fill(out, table);
    put_words(out, n, top);
    fprintf(out, "%u ", (unsigned)books_u32(table + ISC_ENTRY_ID));
    put_name(out, table + ISC_ENTRY_NAME, ISC_NAME_MOST);
    fprintf(out, "%s</text>\n", deleted ? " (deleted)" : "");
}

static void draw_withheld_key(FILE *out, const struct volume *volume, uint32_t n, uint32_t top) {
    put_square(out, n, top);
    fputs(" fill=\"black\"", out);
    put_words(out, n, top);
    fprintf(out, "withheld blocks: %lu, sectors: %u</text>\n", (unsigned long)volume->withheld.count,
            (unsigned)withheld_sectors(&volume->withheld, volume->books));
}

void svg_draw(const struct volume *volume, FILE *out) {
    const uint8_t *books = volume->books;
    uint32_t indexes = books_indexes(books), id, n = 0, keys = volume->withheld.count > 0;
    uint32_t legend = TOP + ROW * books_zones(books) + ROW;
    for (id = 1; id <= indexes; id++)
        keys += (uint32_t)books_is_file(books, id);
    fprintf(out, "<?xml version=\"1.0\" encoding=\"UTF-8\"?>\n<svg xmlns=\"http://www.w3.org/2000/svg\" width=\"%d\" "
            "height=\"%u\" font-family=\"monospace\" font-size=\"10\">\n", WIDTH,
            (unsigned)(legend + ROW * ((keys + COLUMNS - 1) / COLUMNS) + ROW));
    fputs("<rect width=\"100%\" height=\"100%\" fill=\"white\"/>\n"
          "<text x=\"16\" y=\"22\" font-size=\"14\">volume ", out);
    put_name(out, books + LABEL_VOLUME_NAME, ISC_VOLUME_NAME_MOST);
    fputs("</text>\n<text x=\"16\" y=\"37\">a row is a zone with its type, a column a sector; dark: books and their "
          "backup; pale: temporarily deleted; black: withheld</text>\n", out);
    draw_zones(out, volume);
    for (id = 1; id <= indexes; id++) {
        if (books_is_file(books, id)) {
            draw_file(out, books, id);
            draw_key(out, books_index(books, id), n++, legend);
        }
    }
    draw_withheld(out, volume);
    if (volume->withheld.count > 0)
        draw_withheld_key(out, volume, n, legend);
    fputs("</svg>\n", out);
}
