/* get and header get: copy a file of a volume out, with exactly its byte length, or the data of its header. */
#include "card_books.h"
#include "card_commands.h"
#include "card_entries.h"
#include "card_headers.h"
#include "card_output.h"
#include "card_progress.h"
#include "card_say.h"
#include "card_volume.h"

static uint32_t read_part(const struct volume *volume, uint32_t id, size_t at, size_t length, uint8_t *part,
                          uint32_t *moved) {
    return isc_read(volume->books, volume->books_len, volume->withheld.at, volume->withheld.count, volume->body,
                    volume->body_len, id, (int32_t)at, (int32_t)length, 0, part, length, moved);
}

/* Whether the file may be read at all, asked before any output is touched. An empty file has no position 0. */
static uint32_t may_read(const struct volume *volume, uint32_t id) {
    uint8_t none[1];
    uint32_t moved, number = read_part(volume, id, 0, 0, none, &moved);
    return number == ISC_POSITION ? (uint32_t)ISC_DONE : number;
}

static int copy_out(const struct volume *volume, uint32_t id, const struct sink *sink) {
    static uint8_t part[PROGRESS_STEP];
    size_t length = books_u32(books_index(volume->books, id) + ISC_ENTRY_LENGTH), at = 0;
    struct progress progress;
    int status = CARD_DONE;
    progress_start(&progress, "from the card", length);
    while (at < length && status == CARD_DONE) {
        uint32_t moved, number = read_part(volume, id, at, sizeof part, part, &moved);
        size_t wanted = length - at < moved ? length - at : moved;
        status = number == ISC_DONE ? sink_write(sink, part, wanted) : say_refusal(number);
        at += wanted;
        progress_at(&progress, at);
    }
    progress_end(&progress);
    return status;
}

static int get_data(const struct volume *volume, uint32_t id, const char *path) {
    struct sink sink;
    uint32_t number = may_read(volume, id);
    int status;
    if (number != ISC_DONE)
        return say_refusal(number);
    status = sink_open(&sink, &volume->image, path);
    return status == CARD_DONE ? sink_close(&sink, copy_out(volume, id, &sink)) : status;
}

static int get_header(const struct volume *volume, uint32_t id, const char *path) {
    isc_part part = isc_show_header(volume->books, volume->books_len, volume->withheld.at, volume->withheld.count,
                                    volume->body, volume->body_len, id);
    uint32_t length, number = isc_header_number(volume->books, volume->books_len, volume->withheld.at,
                                                volume->withheld.count, volume->body, volume->body_len, id);
    struct sink sink;
    int status;
    if (number == ISC_POSITION)
        return say_failure("the file has no header (%u)", (unsigned)number);
    if (number != ISC_DONE)
        return say_refusal(number);
    if (headers_look(volume->body, books_index(volume->books, id), &length) != HEADER_SOUND)
        return say_failure("the header says that it has %u bytes, more than its sectors hold", (unsigned)length);
    status = sink_open(&sink, &volume->image, path);
    return status == CARD_DONE ? sink_close(&sink, sink_write(&sink, part.at + ISC_HEADER_DATA, length)) : status;
}

/* Copies something of the file `id` to a path, standard output where it is null; returns an exit status. */
typedef int give(const struct volume *volume, uint32_t id, const char *path);

static int run_give(const struct request *request, give *give_it) {
    struct volume volume;
    uint32_t id;
    int status = volume_open(&volume, request, ACCESS_READ);
    if (status != CARD_DONE)
        return status;
    status = entries_find(&volume, STATE_ACTIVE, request->operands[1], &id);
    if (status == CARD_DONE)
        status = give_it(&volume, id, request->operands[2]);
    volume_close(&volume);
    return status;
}

int run_get(const struct request *request) {
    return run_give(request, get_data);
}

int run_header_get(const struct request *request) {
    return run_give(request, get_header);
}
