/* map: which zones and sectors are in use, in text, and which file has them, as a picture. */
#include "card_books.h"
#include "card_commands.h"
#include "card_output.h"
#include "card_say.h"
#include "card_svg.h"
#include "card_volume.h"

#include <stdio.h>
#include <unistd.h>

enum { MARK_SECTORS = 16, MARKS = ISC_ZONE_SECTORS / MARK_SECTORS };

/* The character for some sectors of a zone: x some are withheld, # all in use, + some, . none. */
static char mark_of(const uint8_t *books, const struct withheld *withheld, uint32_t sector) {
    int used = 0;
    uint32_t i;
    if (withheld_meets(withheld, books, sector, MARK_SECTORS))
        return 'x';
    for (i = 0; i < MARK_SECTORS; i++)
        used += books_sector_used(books, sector + i);
    if (used == 0)
        return '.';
    return used == MARK_SECTORS ? '#' : '+';
}

/* The blocks of a zone; without a list there is no column for withheld ones, which are not counted as used. */
static void print_blocks(const uint8_t *books, const struct withheld *withheld, uint32_t zone) {
    char letter = books_zone_letter(books, zone);
    uint32_t held = withheld_blocks(withheld, zone);
    printf("%4u  %c  ", (unsigned)zone, letter);
    if (letter >= 'B' && letter <= 'H') {
        uint32_t blocks = ISC_ZONE_SECTORS / books_block(books, zone), free = books_free_blocks(books, zone);
        printf(" %4u  %4u", (unsigned)(blocks - free - held), (unsigned)free);
    } else {
        printf("    -     -");
    }
    if (withheld->count > 0 && letter >= 'C' && letter <= 'H')
        printf("  %8u", (unsigned)held);
    else if (withheld->count > 0)
        printf("         -");
}

static void print_zone(const uint8_t *books, const struct withheld *withheld, uint32_t zone) {
    char bar[MARKS + 1];
    uint32_t i;
    for (i = 0; i < MARKS; i++)
        bar[i] = mark_of(books, withheld, ISC_ZONE_SECTORS * (zone - 1) + MARK_SECTORS * i);
    bar[MARKS] = '\0';
    print_blocks(books, withheld, zone);
    printf("  %s\n", bar);
}

static void print_map(const uint8_t *books, const struct withheld *withheld) {
    int some = withheld->count > 0;
    uint32_t zone;
    printf("zone type used  free%s  sectors, 16 to a character: # in use, + in part, %s. free\n",
           some ? "  withheld" : "", some ? "x withheld, " : "");
    for (zone = 1; zone <= books_zones(books); zone++)
        print_zone(books, withheld, zone);
    if (some)
        printf("withheld blocks: %lu, sectors: %u\n", (unsigned long)withheld->count,
               (unsigned)withheld_sectors(withheld, books));
}

static int draw(const struct volume *volume, const char *path) {
    int file, failed, status = output_open(&volume->image, path, &file);
    FILE *out;
    if (status != CARD_DONE)
        return status;
    out = fdopen(file, "w");
    if (out == NULL) {
        status = say_system(path);
        close(file);
        return status;
    }
    svg_draw(volume, out);
    failed = ferror(out);
    if (fclose(out) != 0 || failed)
        return say_system(path);
    return CARD_DONE;
}

int run_map(const struct request *request) {
    const char *picture = request->options[OPTION_SVG];
    struct volume volume;
    int status = volume_open(&volume, request, ACCESS_READ);
    if (status != CARD_DONE)
        return status;
    if (picture != NULL)
        status = draw(&volume, picture);
    if (status == CARD_DONE)
        print_map(volume.books, &volume.withheld);
    volume_close(&volume);
    return status;
}
