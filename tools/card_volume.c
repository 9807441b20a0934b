/* A volume on an image: whether it is whole and lawful, mounting it in memory, saving it. */
#include "card_volume.h"
#include "card_books.h"
#include "card_progress.h"
#include "card_rule.h"
#include "card_save.h"
#include "card_say.h"

#include <string.h>

int volume_has_mark(const uint8_t *copy, size_t length) {
    static const uint8_t mark[LABEL_MARK_BYTES] = {0x49, 0x53, 0x26, 0x43};
    return length >= LABEL_MARK + sizeof mark && memcmp(copy + LABEL_MARK, mark, sizeof mark) == 0;
}

size_t volume_books(const uint8_t *copy, size_t length) {
    size_t books_len = ISC_SECTOR * books_sectors(copy, length);
    return books_len < length ? books_len : length;
}

/* The number in the line `refused=` of a report, or 0. */
static uint32_t report_number(const struct withheld *withheld, const uint8_t *copy, size_t books_len) {
    static const char refused[] = "refused=";
    uint8_t text[ISC_REPORT_TEXT];
    uint32_t length;
    uint32_t number = isc_report(copy, books_len, withheld->at, withheld->count, text, sizeof text, &length);
    if (number == ISC_DONE && length > sizeof refused && memcmp(text, refused, sizeof refused - 1) == 0)
        number = (uint32_t)(text[sizeof refused - 1] - '0');
    return number;
}

uint32_t volume_examine(const struct image *image, const struct withheld *withheld, const uint8_t *copy,
                        size_t length) {
    uint32_t number = report_number(withheld, copy, volume_books(copy, length));
    if (number == ISC_DONE && (size_t)ISC_ZONE * books_zones(copy) != image->length)
        number = ISC_BODY_LENGTH;
    return number;
}

int volume_refuse(const struct withheld *withheld, const uint8_t *copy, uint32_t number) {
    return number == ISC_ARGUMENT ? withheld_refuse(withheld, copy) : say_refusal(number);
}

static int refuse_books(const struct volume *volume, uint32_t number) {
    const struct image *image = &volume->image;
    int status = volume_refuse(&volume->withheld, image->before, number);
    if (number == ISC_ARGUMENT)
        return status;
    if (number == ISC_BODY_LENGTH)
        say_note("a volume of %u zones is %lu bytes long, and the image is not", (unsigned)books_zones(image->before),
                 (unsigned long)ISC_ZONE * books_zones(image->before));
    else if (image_has_zones(image) && volume_has_mark(image->before, image->mapped))
        say_note("`card repair %s` says whether the backup has better tables", image->path);
    else if (image_has_zones(image) && volume_has_mark(image->before + image_backup(image), ISC_ZONE))
        say_note("zone 1 is not whole: `card repair %s` makes it from the backup", image->path);
    return status;
}

/* Sees that the volume as it stands on the file is whole, and mounts it in memory. */
static int mount(struct volume *volume) {
    const struct image *image = &volume->image;
    uint32_t number = volume_examine(image, &volume->withheld, image->before, image->mapped);
    if (number != ISC_DONE)
        return refuse_books(volume, number);
    volume->books = image->now;
    volume->books_len = volume_books(image->now, image->mapped);
    volume->body = image->now + ISC_ZONE;
    volume->body_len = image->length - 2 * (size_t)ISC_ZONE;
    number = isc_mount(volume->books, volume->books_len, volume->withheld.at, volume->withheld.count);
    if (number != ISC_DONE) {
        say_refusal(number);
        say_note("it was left so: `card repair %s` dismounts it", image->path);
        return CARD_REFUSED;
    }
    if (memcmp(image->before, image->before + image_backup(image), ISC_ZONE) != 0)
        return say_failure("the backup is not equal to zone 1: `card repair %s` makes it so", image->path);
    return CARD_DONE;
}

/* The list comes first: nothing is open if it cannot be read. */
static int open_image(struct volume *volume, const struct request *request, enum access access) {
    int status = withheld_take(request->options[OPTION_WITHHELD], &volume->withheld);
    return status == CARD_DONE ? image_open(&volume->image, request->operands[0], access) : status;
}

int volume_open(struct volume *volume, const struct request *request, enum access access) {
    int status = open_image(volume, request, access);
    if (status != CARD_DONE)
        return status;
    status = mount(volume);
    if (status != CARD_DONE)
        image_close(&volume->image);
    return status;
}

int volume_check(const struct request *request) {
    struct volume volume;
    const struct image *image = &volume.image;
    int status = open_image(&volume, request, ACCESS_READ);
    if (status != CARD_DONE)
        return status;
    status = mount(&volume);
    if (status != CARD_DONE)
        rule_say(image->before, volume_books(image->before, image->mapped), &volume.withheld);
    image_close(&volume.image);
    return status;
}

/* Where a sector of the volume stands in the image. */
static size_t place_of(uint32_t sector) {
    return (size_t)ISC_SECTOR * sector;
}

/* Writes the data of a file to the card; the rest of the body cannot have changed, and need not be read. */
static int save_data(const struct volume *volume, uint32_t file) {
    struct progress progress;
    struct run_walk walk;
    uint32_t start, count, k;
    size_t written = 0, done = 0;
    int status = CARD_DONE;
    progress_start(&progress, "to the card", books_u32(books_index(volume->books, file) + ISC_ENTRY_LENGTH));
    runs_start(&walk, volume->books, file);
    while (status == CARD_DONE && runs_next(&walk, &start, &count)) {
        for (k = 0; k < count && status == CARD_DONE; k++, done += ISC_SECTOR) {
            status = save_part(&volume->image, place_of(start + k), ISC_SECTOR, &written);
            progress_at(&progress, done);
        }
    }
    if (status == CARD_DONE && written > 0)
        status = save_force(&volume->image);
    progress_end(&progress);
    return status;
}

/* The header of a file, if it is one and has one. */
static int header_of(const uint8_t *books, uint32_t file, uint32_t *start, uint32_t *count) {
    return books_is_file(books, file) && books_header(books_index(books, file), start, count);
}

/* Writes the sectors of a file's header to the card that are free in the books as they stand there. */
static int save_new_header(const struct volume *volume, uint32_t file) {
    uint32_t start, count, k;
    size_t written = 0;
    int status = CARD_DONE;
    if (!header_of(volume->books, file, &start, &count))
        return CARD_DONE;
    for (k = 0; k < count && status == CARD_DONE; k++)
        if (!books_sector_used(volume->image.before, start + k))
            status = save_part(&volume->image, place_of(start + k), ISC_SECTOR, &written);
    return status == CARD_DONE && written > 0 ? save_force(&volume->image) : status;
}

int volume_save(struct volume *volume, uint32_t file, enum part part) {
    uint8_t *now = volume->image.now;
    uint32_t start, count, number;
    size_t id_at = 0;
    int status;
    number = isc_dismount(volume->books, volume->books_len, volume->withheld.at, volume->withheld.count);
    if (number != ISC_DONE)
        return say_refusal(number);
    memcpy(now + image_backup(&volume->image), now, ISC_ZONE);
    if (part == PART_HEADER && header_of(volume->image.before, file, &start, &count))
        id_at = place_of(start);
    status = part == PART_DATA ? save_data(volume, file) : save_new_header(volume, file);
    return status == CARD_DONE ? save_copies(&volume->image, COPY_ZONE_1, id_at) : status;
}

void volume_close(struct volume *volume) {
    image_close(&volume->image);
}
