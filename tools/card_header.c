/* header put: gives a file a header, or another one. */
#include "card_change.h"
#include "card_commands.h"
#include "card_input.h"
#include "card_say.h"

static int refuse(uint32_t number, size_t length) {
    say_refusal(number);
    if (number == ISC_ARGUMENT)
        say_note("a header has at most %d bytes; a date is one of the calendar", ISC_HEADER_MOST);
    if (number == ISC_NO_ROOM)
        say_note("a header of %lu bytes takes %lu sectors in a row, in a zone of type B or in one that is wholly free",
                 (unsigned long)length, (unsigned long)(ISC_HEADER_DATA + length + ISC_SECTOR - 1) / ISC_SECTOR);
    return CARD_REFUSED;
}

static int place(const struct request *request, struct volume *volume, uint32_t id, const uint8_t *date) {
    struct input input;
    uint32_t number;
    int status = input_take(&volume->image, request->operands[2], ISC_HEADER_MOST, &input);
    if (status == CARD_DONE) {
        number = isc_place_header(volume->books, volume->books_len, volume->withheld.at, volume->withheld.count,
                                  volume->body, volume->body_len, id, input.bytes, input.length, date, ISC_DATE);
        status = number == ISC_DONE ? CARD_DONE : refuse(number, input.length);
    }
    input_drop(&input);
    return status;
}

int run_header_put(const struct request *request) {
    return change_file(request, STATE_ACTIVE, place);
}
