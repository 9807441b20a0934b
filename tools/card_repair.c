/* repair: makes zone 1 and the backup whole and equal again, puts the ids in headers right, and dismounts a volume that
   was left mounted. */
#include "card_commands.h"
#include "card_headers.h"
#include "card_image.h"
#include "card_save.h"
#include "card_say.h"
#include "card_volume.h"

#include <stdio.h>
#include <string.h>

/* Which copy the volume is made from. */
static int choose_source(const struct image *image, const struct withheld *withheld, int forced, enum copy *source) {
    const uint8_t *backup_copy = image->now + image_backup(image);
    uint32_t zone_1 = volume_examine(image, withheld, image->now, ISC_ZONE);
    uint32_t backup = volume_examine(image, withheld, backup_copy, ISC_ZONE);
    int marked = volume_has_mark(image->now, ISC_ZONE);
    *source = forced || zone_1 != ISC_DONE ? COPY_BACKUP : COPY_ZONE_1;
    if (*source == COPY_ZONE_1 || (backup == ISC_DONE && (forced || !marked)))
        return CARD_DONE;
    if (backup == ISC_ARGUMENT && (forced || !marked))
        return withheld_refuse(withheld, backup_copy);
    if (forced) {
        say_refusal(backup);
        return say_failure("these are the backup's tables: nothing was changed");
    }
    if (zone_1 == ISC_ARGUMENT)
        return withheld_refuse(withheld, image->now);
    say_refusal(zone_1);
    if (backup != ISC_DONE)
        return say_failure("neither zone 1 nor the backup (%u) is whole: nothing was changed", (unsigned)backup);
    return say_failure("nothing was changed: `card repair %s --from-backup` takes the backup's tables, which are "
                       "lawful", image->path);
}

/* Makes both copies in memory. Returns whether the volume had to be dismounted. */
static int make_equal(const struct image *image, const struct withheld *withheld, enum copy source) {
    uint8_t *backup = image->now + image_backup(image);
    int mounted;
    if (source == COPY_BACKUP)
        memcpy(image->now, backup, ISC_ZONE);
    mounted = isc_dismount(image->now, volume_books(image->now, ISC_ZONE), withheld->at, withheld->count) == ISC_DONE;
    memcpy(backup, image->now, ISC_ZONE);
    return mounted;
}

static int repair(const struct image *image, const struct withheld *withheld, enum copy source) {
    int equal = memcmp(image->before, image->before + image_backup(image), ISC_ZONE) == 0;
    int mounted = make_equal(image, withheld, source);
    uint32_t headers = 0;
    /* Before the copies: as long as they differ, a repair that is cut off is asked for again. */
    int status = equal ? CARD_DONE : headers_put_right(image, &headers);
    if (status == CARD_DONE)
        status = save_copies(image, source, 0);
    if (status != CARD_DONE)
        return status;
    if (!equal)
        puts(source == COPY_BACKUP ? "zone 1 was made from the backup" : "the backup was made from zone 1");
    if (headers > 0)
        printf("headers whose id was put right: %u\n", (unsigned)headers);
    if (mounted)
        puts("the volume had been left mounted, and was dismounted");
    if (equal && !mounted)
        puts("nothing was to be done");
    return CARD_DONE;
}

int run_repair(const struct request *request) {
    struct image image;
    struct withheld withheld;
    enum copy source = COPY_ZONE_1;
    int status = withheld_take(request->options[OPTION_WITHHELD], &withheld);
    if (status == CARD_DONE)
        status = image_open(&image, request->operands[0], ACCESS_WRITE);
    if (status != CARD_DONE)
        return status;
    if (!image_has_zones(&image))
        status = volume_refuse(&withheld, image.now, volume_examine(&image, &withheld, image.now, image.mapped));
    else
        status = choose_source(&image, &withheld, request->options[OPTION_FROM_BACKUP] != NULL, &source);
    if (status == CARD_DONE)
        status = repair(&image, &withheld, source);
    image_close(&image);
    return status;
}
