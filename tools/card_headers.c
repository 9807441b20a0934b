/* The headers of files as they lie in the body, read and put in order without a request of the library. */
#include "card_headers.h"
#include "card_books.h"
#include "card_save.h"
#include "card_say.h"

enum header headers_look(const uint8_t *body, const uint8_t *entry, uint32_t *length) {
    uint32_t start, count;
    *length = 0;
    if (!books_header(entry, &start, &count))
        return HEADER_NONE;
    *length = books_u16(body + (size_t)ISC_SECTOR * (start - ISC_ZONE_SECTORS) + ISC_HEADER_LENGTH);
    return ISC_HEADER_DATA + *length <= ISC_SECTOR * count ? HEADER_SOUND : HEADER_ODD;
}

/* The requests leave the id, minus the id or 0 in a header; anything else was not put there by one that was cut off. */
static int is_left(uint32_t found, uint32_t id) {
    return found == id || found == 0u - id || found == 0;
}

int headers_put_right(const struct image *image, uint32_t *count) {
    const uint8_t *books = image->now;
    uint32_t id, start, sectors;
    int status = CARD_DONE;
    *count = 0;
    for (id = 1; id <= books_indexes(books) && status == CARD_DONE; id++) {
        const uint8_t *table = books_index(books, id);
        if (books_is_file(books, id) && books_header(table, &start, &sectors)) {
            int deleted = (books_u16(table + ISC_ENTRY_ATTRIBUTE) & ISC_WEIGHT_DELETED) != 0;
            uint32_t wanted = deleted ? 0u - id : id;
            uint8_t *at = image->now + (size_t)ISC_SECTOR * start + ISC_HEADER_ID;
            if (books_u32(at) != wanted && is_left(books_u32(at), id)) {
                books_put_u32(at, wanted);
                status = save_sector(image, (size_t)ISC_SECTOR * start);
                ++*count;
            }
        }
    }
    return status;
}
