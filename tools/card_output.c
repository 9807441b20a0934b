/* Files that the tool writes besides the image. */
#include "card_output.h"
#include "card_say.h"

#include <errno.h>
#include <fcntl.h>
#include <string.h>
#include <sys/stat.h>
#include <unistd.h>

/* A device or a pipe has nothing to be emptied of. */
static int empty(int file) {
    struct stat status;
    if (fstat(file, &status) != 0)
        return -1;
    return S_ISREG(status.st_mode) ? ftruncate(file, 0) : 0;
}

int output_open(const struct image *image, const char *path, int *file) {
    int status = CARD_DONE;
    *file = open(path, O_WRONLY | O_CREAT, 0666);
    if (*file < 0)
        return say_system(path);
    if (image_is_file(image, *file))
        status = say_failure("%s is the image itself", path);
    else if (empty(*file) != 0)
        status = say_system(path);
    if (status != CARD_DONE)
        close(*file);
    return status;
}

int output_write(int file, const char *path, const uint8_t *bytes, size_t length) {
    while (length > 0) {
        ssize_t part = write(file, bytes, length);
        if (part < 0 && errno != EINTR)
            return say_system(path);
        if (part > 0) {
            bytes += part;
            length -= (size_t)part;
        }
    }
    return CARD_DONE;
}

int sink_open(struct sink *sink, const struct image *image, const char *path) {
    sink->path = path;
    if (path != NULL && strcmp(path, "-") != 0)
        return output_open(image, path, &sink->file);
    sink->path = "standard output";
    sink->file = STDOUT_FILENO;
    return CARD_DONE;
}

int sink_write(const struct sink *sink, const uint8_t *bytes, size_t length) {
    return output_write(sink->file, sink->path, bytes, length);
}

int sink_close(const struct sink *sink, int status) {
    if (sink->file != STDOUT_FILENO && close(sink->file) != 0 && status == CARD_DONE)
        return say_system(sink->path);
    return status;
}
