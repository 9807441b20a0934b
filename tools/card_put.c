/* put: stores a file on a volume. Everything happens in memory first, so a refusal leaves the image as it was. */
#include "card_commands.h"
#include "card_input.h"
#include "card_progress.h"
#include "card_say.h"
#include "card_text.h"
#include "card_volume.h"

#include <stdio.h>
#include <string.h>

/* What is asked for. */
struct wish {
    const char *name;
    int variable;
    int32_t cell;  /* of a variable file */
    int32_t types; /* of a fixed one */
    uint32_t kind;
    uint8_t date[ISC_DATE];
};

static int take_types(const char *letters, int32_t *types) {
    const char *letter;
    *types = ISC_TYPES_ALL;
    if (letters == NULL)
        return CARD_DONE;
    for (letter = letters; *letter >= 'C' && *letter <= 'H'; letter++)
        *types |= ISC_TYPE_C << (*letter - 'C');
    if (letter == letters || *letter != '\0')
        return say_misuse("--types takes letters from C to H");
    return CARD_DONE;
}

static int take_kind(const char *word, uint32_t *kind) {
    static const char *const words[] = {
        [ISC_PLAIN] = "plain", [ISC_DIRECTORY] = "directory", [ISC_SYSTEM] = "system"};
    *kind = ISC_PLAIN;
    if (word == NULL)
        return CARD_DONE;
    while (*kind <= ISC_SYSTEM && strcmp(word, words[*kind]) != 0)
        ++*kind;
    return *kind <= ISC_SYSTEM ? CARD_DONE : say_misuse("--kind is plain, directory or system");
}

static int take_wish(const struct request *request, struct wish *wish) {
    const char *path = request->operands[1];
    const char *cell = request->options[OPTION_VARIABLE];
    int status;
    wish->name = request->options[OPTION_NAME];
    wish->variable = cell != NULL;
    if (wish->variable && request->options[OPTION_TYPES] != NULL)
        return say_misuse("--types is for fixed files, and does not go with --variable");
    if (wish->variable && !text_number(cell, &wish->cell))
        return say_misuse("--variable takes the bytes of a cell");
    if (wish->name == NULL && strcmp(path, "-") == 0)
        return say_misuse("standard input has no name: --name is needed");
    if (wish->name == NULL)
        wish->name = text_base_name(path);
    status = take_types(request->options[OPTION_TYPES], &wish->types);
    if (status == CARD_DONE)
        status = take_kind(request->options[OPTION_KIND], &wish->kind);
    return status == CARD_DONE ? request_date(request, wish->date) : status;
}

static uint32_t create(struct volume *volume, const struct wish *wish, const struct input *input, uint32_t *id) {
    const uint8_t *name = (const uint8_t *)wish->name;
    size_t name_len = strlen(wish->name);
    uint32_t number;
    if (!wish->variable)
        return isc_create_fixed(volume->books, volume->books_len, volume->withheld.at, volume->withheld.count, name,
                                name_len, (int32_t)input->length, wish->types, wish->kind, wish->date, ISC_DATE, id);
    number = isc_create_variable(volume->books, volume->books_len, volume->withheld.at, volume->withheld.count, name,
                                 name_len, wish->cell, wish->kind, wish->date, ISC_DATE, id);
    /* All its blocks at once: then a refusal is that of the whole file, and not of its first part that has no room. */
    if (number == ISC_DONE)
        number = isc_grow(volume->books, volume->books_len, volume->withheld.at, volume->withheld.count, *id,
                          (int32_t)input->padded, wish->date, ISC_DATE);
    return number;
}

static uint32_t store(struct volume *volume, const struct wish *wish, const struct input *input, uint32_t *id) {
    struct progress progress;
    uint32_t moved, number = create(volume, wish, input, id);
    size_t at = 0;
    progress_start(&progress, "in memory", input->padded);
    while (at < input->padded && number == ISC_DONE) {
        size_t part = input->padded - at < PROGRESS_STEP ? input->padded - at : PROGRESS_STEP;
        number = isc_write(volume->books, volume->books_len, volume->withheld.at, volume->withheld.count, volume->body,
                           volume->body_len, *id, (int32_t)at, (int32_t)part, 0, input->bytes + at, part, wish->date,
                           ISC_DATE, &moved);
        at += part;
        progress_at(&progress, at);
    }
    progress_end(&progress);
    return number;
}

static int refuse(uint32_t number) {
    say_refusal(number);
    if (number == ISC_ARGUMENT)
        say_note("a name has 1 to %d bytes without * and ?; a fixed file has 1 byte at least; a cell is 1024, 4096, "
                 "16384, 65536, 262144 or 1048576; a date is one of the calendar", ISC_NAME_MOST);
    return CARD_REFUSED;
}

static int put(struct volume *volume, const struct wish *wish, const struct input *input) {
    uint32_t id, number = store(volume, wish, input, &id);
    int status;
    if (number != ISC_DONE)
        return refuse(number);
    status = volume_save(volume, id, PART_DATA);
    if (status != CARD_DONE)
        return status;
    printf("%u\n", (unsigned)id);
    if (wish->variable && input->padded != input->length)
        say_note("a variable file is written in whole sectors: filled up with nulls from %lu to %lu bytes",
                 (unsigned long)input->length, (unsigned long)input->padded);
    return CARD_DONE;
}

int run_put(const struct request *request) {
    struct volume volume;
    struct wish wish;
    struct input input;
    int status = take_wish(request, &wish);
    if (status == CARD_DONE)
        status = volume_open(&volume, request, ACCESS_WRITE);
    if (status != CARD_DONE)
        return status;
    status = input_take(&volume.image, request->operands[1], volume.body_len, &input);
    if (status == CARD_DONE)
        status = put(&volume, &wish, &input);
    input_drop(&input);
    volume_close(&volume);
    return status;
}
