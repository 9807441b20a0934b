/* Files that the tool reads besides the image. */
#include "card_input.h"
#include "card_progress.h"
#include "card_say.h"

#include <errno.h>
#include <fcntl.h>
#include <stdlib.h>
#include <string.h>
#include <unistd.h>

/* Makes more room where there is none left, in whole steps, so that a last sector always has its nulls. */
static int make_room(struct input *input, size_t *room) {
    size_t more = *room == 0 ? PROGRESS_STEP : 2 * *room;
    uint8_t *bytes;
    if (input->length < *room)
        return CARD_DONE;
    bytes = realloc(input->bytes, more);
    if (bytes == NULL)
        return say_system("the file in memory");
    memset(bytes + *room, 0, more - *room);
    input->bytes = bytes;
    *room = more;
    return CARD_DONE;
}

static int read_all(int file, const char *path, size_t most, struct input *input) {
    size_t room = 0;
    ssize_t part = 1;
    while (part != 0 && input->length <= most) {
        if (make_room(input, &room) != CARD_DONE)
            return CARD_REFUSED;
        do
            part = read(file, input->bytes + input->length, room - input->length);
        while (part < 0 && errno == EINTR);
        if (part < 0)
            return say_system(path);
        input->length += (size_t)part;
    }
    input->padded = (input->length + ISC_SECTOR - 1) / ISC_SECTOR * ISC_SECTOR;
    return CARD_DONE;
}

int input_take(const struct image *image, const char *path, size_t most, struct input *input) {
    int file, status;
    memset(input, 0, sizeof *input);
    if (strcmp(path, "-") == 0)
        return read_all(STDIN_FILENO, "standard input", most, input);
    file = open(path, O_RDONLY);
    if (file < 0)
        return say_system(path);
    if (image_is_file(image, file))
        status = say_failure("%s is the image itself", path);
    else
        status = read_all(file, path, most, input);
    close(file);
    return status;
}

void input_drop(struct input *input) {
    free(input->bytes);
}
