/* Writes to the file what was changed in memory, in an order that a power cut cannot spoil.

   Each step is forced out before the next. While a copy of zone 1 is written its mark is broken, so a copy that has its
   mark is whole; and since the copies are written one after the other, at any moment one of them is. The body comes
   before both: only sectors that are free in the old books change there. But for the id in a header that the old books
   have: it is written between the copies, when they differ whatever happens next, so that repair is asked for and puts
   the id in step with the copy that it takes. */
#include "card_save.h"
#include "card_books.h"
#include "card_say.h"

#include <errno.h>
#include <string.h>
#include <unistd.h>

/* The only place that writes to an image. */
static int write_sector(const struct image *image, size_t at, const uint8_t *bytes) {
    size_t done = 0;
    while (done < ISC_SECTOR) {
        ssize_t part = pwrite(image->file, bytes + done, ISC_SECTOR - done, (off_t)(at + done));
        if (part < 0 && errno != EINTR)
            return say_system(image->path);
        if (part > 0)
            done += (size_t)part;
    }
    return CARD_DONE;
}

/* The only place that forces out what was written. */
int save_force(const struct image *image) {
    return fsync(image->file) == 0 ? CARD_DONE : say_system(image->path);
}

static int differs(const struct image *image, size_t at, size_t length) {
    return memcmp(image->now + at, image->before + at, length) != 0;
}

int save_part(const struct image *image, size_t at, size_t length, size_t *written) {
    size_t end = at + length;
    int status = CARD_DONE;
    for (; at < end && status == CARD_DONE; at += ISC_SECTOR) {
        if (differs(image, at, ISC_SECTOR)) {
            status = write_sector(image, at, image->now + at);
            ++*written;
        }
    }
    return status;
}

/* Sector 0 of a copy, forced out. */
static int write_label(const struct image *image, size_t at, const uint8_t *label) {
    int status = write_sector(image, at, label);
    return status == CARD_DONE ? save_force(image) : status;
}

/* The other sectors of a copy, forced out. */
static int write_tables(const struct image *image, size_t at) {
    size_t written = 0;
    int status = save_part(image, at + ISC_SECTOR, ISC_ZONE - ISC_SECTOR, &written);
    return status == CARD_DONE && written > 0 ? save_force(image) : status;
}

static int write_copy(const struct image *image, size_t at) {
    uint8_t label[ISC_SECTOR], broken[ISC_SECTOR];
    int status;
    if (!differs(image, at, ISC_ZONE))
        return CARD_DONE;
    /* Sector 0 is set aside, since a page not changed in memory shows what is written to the file. */
    memcpy(label, image->now + at, ISC_SECTOR);
    memcpy(broken, label, ISC_SECTOR);
    memset(broken + LABEL_MARK, 0, LABEL_MARK_BYTES);
    status = write_label(image, at, broken);
    if (status == CARD_DONE)
        status = write_tables(image, at);
    if (status == CARD_DONE)
        status = write_label(image, at, label);
    return status;
}

int save_sector(const struct image *image, size_t at) {
    size_t written = 0;
    int status = save_part(image, at, ISC_SECTOR, &written);
    return status == CARD_DONE && written > 0 ? save_force(image) : status;
}

int save_copies(const struct image *image, enum copy last, size_t between) {
    size_t backup = image_backup(image);
    int status = write_copy(image, last == COPY_ZONE_1 ? backup : 0);
    if (status == CARD_DONE && between != 0)
        status = save_sector(image, between);
    if (status == CARD_DONE)
        status = write_copy(image, last == COPY_ZONE_1 ? 0 : backup);
    if (status != CARD_DONE)
        say_note("the tables were not written to their end: `card repair %s` makes them whole", image->path);
    return status;
}
