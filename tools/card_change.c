/* rm, recover, purge and protect: requests that change a file's tables, and of its bytes only the id in its header; and
   what they have in common with header put. */
#include "card_change.h"
#include "card_commands.h"
#include "card_say.h"

int change_file(const struct request *request, enum state state, change *change_it) {
    struct volume volume;
    uint8_t date[ISC_DATE];
    uint32_t id;
    int status = request_date(request, date);
    if (status == CARD_DONE)
        status = volume_open(&volume, request, ACCESS_WRITE);
    if (status != CARD_DONE)
        return status;
    status = entries_find(&volume, state, request->operands[1], &id);
    if (status == CARD_DONE)
        status = change_it(request, &volume, id, date);
    if (status == CARD_DONE)
        status = volume_save(&volume, id, PART_HEADER);
    volume_close(&volume);
    return status;
}

static int answered(uint32_t number) {
    return number == ISC_DONE ? CARD_DONE : say_refusal(number);
}

static int delete_temporarily(const struct request *request, struct volume *volume, uint32_t id, const uint8_t *date) {
    (void)request;
    return answered(isc_temporary_delete(volume->books, volume->books_len, volume->withheld.at, volume->withheld.count,
                                         volume->body, volume->body_len, id, date, ISC_DATE));
}

static int recover(const struct request *request, struct volume *volume, uint32_t id, const uint8_t *date) {
    (void)request;
    return answered(isc_recover(volume->books, volume->books_len, volume->withheld.at, volume->withheld.count,
                                volume->body, volume->body_len, id, date, ISC_DATE));
}

static int delete_actually(const struct request *request, struct volume *volume, uint32_t id, const uint8_t *date) {
    (void)request;
    return answered(isc_actual_delete(volume->books, volume->books_len, volume->withheld.at, volume->withheld.count,
                                      volume->body, volume->body_len, id, date, ISC_DATE));
}

static int protect(const struct request *request, struct volume *volume, uint32_t id, const uint8_t *date) {
    uint32_t protection = ISC_UNPROTECTED;
    if (request->options[OPTION_READ] != NULL)
        protection += ISC_READ_PROTECTED;
    if (request->options[OPTION_WRITE] != NULL)
        protection += ISC_WRITE_PROTECTED;
    return answered(isc_set_protection(volume->books, volume->books_len, volume->withheld.at, volume->withheld.count,
                                       id, protection, date, ISC_DATE));
}

int run_rm(const struct request *request) {
    return change_file(request, STATE_ACTIVE, delete_temporarily);
}

int run_recover(const struct request *request) {
    return change_file(request, STATE_DELETED, recover);
}

int run_purge(const struct request *request) {
    return change_file(request, STATE_DELETED, delete_actually);
}

int run_protect(const struct request *request) {
    return change_file(request, STATE_ACTIVE, protect);
}
