/* format: makes fresh books, and a new image where there is none. */
#include "card_books.h"
#include "card_commands.h"
#include "card_image.h"
#include "card_save.h"
#include "card_say.h"
#include "card_text.h"

#include <errno.h>
#include <string.h>
#include <unistd.h>

/* The sectors that the tables of a volume need, from 5 up to what the library takes. */
static size_t sectors_needed(int32_t zones, int32_t indexes) {
    uint64_t z = (uint64_t)zones, n = (uint64_t)indexes;
    uint64_t sectors = 2 + (6 * z + ISC_SECTOR - 1) / ISC_SECTOR + (z + 7) / 8 + (n + 7) / 8;
    if (sectors < ISC_BOOKS_SECTORS_LEAST)
        return ISC_BOOKS_SECTORS_LEAST;
    return sectors > ISC_BOOKS_SECTORS_MOST ? ISC_BOOKS_SECTORS_MOST : (size_t)sectors;
}

static int take_sizes(const struct request *request, int32_t *zones, int32_t *indexes) {
    const char *z = request->options[OPTION_ZONES], *n = request->options[OPTION_INDEXES];
    if (request->options[OPTION_WITHHELD] != NULL)
        return say_misuse("--withheld is not for format: a new volume has no zone with blocks to withhold");
    if (z == NULL || n == NULL)
        return say_misuse("--zones and --indexes are needed");
    if (!text_number(z, zones) || !text_number(n, indexes))
        return say_misuse("--zones and --indexes take a number");
    return CARD_DONE;
}

/* Opens the image, or makes it; `*made` says which. */
static int open_or_make(const struct request *request, struct image *image, size_t length, int *made) {
    const char *path = request->operands[0];
    int status = CARD_DONE;
    *made = access(path, F_OK) != 0 && errno == ENOENT;
    if (*made)
        status = image_make(path, length);
    else if (request->options[OPTION_FORCE] == NULL)
        status = say_failure("%s exists already: --force formats it, and its files are lost", path);
    if (status != CARD_DONE)
        return status;
    status = image_open(image, path, ACCESS_WRITE);
    if (status == CARD_DONE && image->length != length) {
        status = say_failure("%s is not %lu bytes long, and a card keeps its size", path, (unsigned long)length);
        image_close(image);
    }
    return status;
}

int run_format(const struct request *request) {
    static uint8_t books[ISC_BOOKS_SECTORS_MOST * ISC_SECTOR];
    const char *label = request->options[OPTION_LABEL] != NULL ? request->options[OPTION_LABEL] : "";
    const uint8_t *text = (const uint8_t *)label;
    uint8_t date[ISC_DATE];
    struct image image;
    int32_t zones, indexes;
    uint32_t number;
    size_t books_len;
    int made, status = take_sizes(request, &zones, &indexes);
    if (status == CARD_DONE)
        status = request_date(request, date);
    if (status != CARD_DONE)
        return status;
    books_len = ISC_SECTOR * sectors_needed(zones, indexes);
    number = isc_format(books, books_len, zones, indexes, text, 0, text, strlen(label), 0, text, 0, text, 0, date,
                        sizeof date);
    if (number != ISC_DONE)
        return say_refusal(number);
    status = open_or_make(request, &image, (size_t)ISC_ZONE * (size_t)zones, &made);
    if (status != CARD_DONE)
        return status;
    memcpy(image.now, books, books_len);
    memcpy(image.now + image_backup(&image), image.now, ISC_ZONE);
    status = save_copies(&image, COPY_ZONE_1, 0);
    if (status != CARD_DONE && made)
        unlink(request->operands[0]);
    image_close(&image);
    return status;
}
