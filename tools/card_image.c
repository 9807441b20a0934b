/* The image of a card: opening, locking and mapping it. */
#include "card_image.h"
#include "card_say.h"

#include <errno.h>
#include <fcntl.h>
#include <signal.h>
#include <stdint.h>
#include <string.h>
#include <sys/mman.h>
#include <sys/stat.h>
#include <unistd.h>

static const size_t longest = (size_t)ISC_ZONES_MOST * ISC_ZONE;

/* An empty file cannot be mapped; this is lent in its place, with length 0. */
static uint8_t nothing[1];

static int lock(const struct image *image, enum access access) {
    struct flock whole;
    memset(&whole, 0, sizeof whole);
    whole.l_type = access == ACCESS_WRITE ? F_WRLCK : F_RDLCK;
    whole.l_whence = SEEK_SET;
    if (fcntl(image->file, F_SETLK, &whole) == 0)
        return CARD_DONE;
    if (errno == EACCES || errno == EAGAIN)
        return say_failure("another program is using the image %s", image->path);
    return say_system(image->path);
}

/* Takes the length, which a device has no file status for. */
static int measure(struct image *image) {
    struct stat status;
    off_t end;
    if (fstat(image->file, &status) != 0)
        return say_system(image->path);
    if (!S_ISREG(status.st_mode) && !S_ISBLK(status.st_mode))
        return say_failure("%s is neither a file nor a card", image->path);
    end = lseek(image->file, 0, SEEK_END);
    if (end < 0)
        return say_system(image->path);
    image->length = (uintmax_t)end > longest ? longest + 1 : (size_t)end;
    image->mapped = image->length > longest ? longest : image->length;
    return CARD_DONE;
}

static int map(struct image *image) {
    void *now, *before;
    image->now = nothing;
    image->before = nothing;
    if (image->mapped == 0)
        return CARD_DONE;
    now = mmap(NULL, image->mapped, PROT_READ | PROT_WRITE, MAP_PRIVATE, image->file, 0);
    if (now == MAP_FAILED)
        return say_system(image->path);
    before = mmap(NULL, image->mapped, PROT_READ, MAP_SHARED, image->file, 0);
    if (before == MAP_FAILED) {
        int status = say_system(image->path);
        munmap(now, image->mapped);
        return status;
    }
    image->now = now;
    image->before = before;
    return CARD_DONE;
}

int image_open(struct image *image, const char *path, enum access access) {
    int status;
    image->path = path;
    /* Without O_NONBLOCK the open of a pipe would wait for its other end. */
    image->file = open(path, (access == ACCESS_WRITE ? O_RDWR : O_RDONLY) | O_NONBLOCK);
    if (image->file < 0)
        return say_system(path);
    status = lock(image, access);
    if (status == CARD_DONE)
        status = measure(image);
    if (status == CARD_DONE)
        status = map(image);
    if (status != CARD_DONE)
        close(image->file);
    return status;
}

int image_make(const char *path, size_t length) {
    int status = CARD_DONE;
    int file = open(path, O_RDWR | O_CREAT | O_EXCL, 0666);
    if (file < 0)
        return say_system(path);
    if (ftruncate(file, (off_t)length) != 0) {
        status = say_system(path);
        unlink(path);
    }
    close(file);
    return status;
}

void image_close(struct image *image) {
    if (image->mapped > 0) {
        munmap(image->now, image->mapped);
        munmap((void *)image->before, image->mapped);
    }
    close(image->file);
}

int image_has_zones(const struct image *image) {
    return image->length % ISC_ZONE == 0 && image->length >= (size_t)ISC_ZONES_LEAST * ISC_ZONE
        && image->length <= longest;
}

size_t image_backup(const struct image *image) {
    return image->length - ISC_ZONE;
}

int image_is_file(const struct image *image, int file) {
    struct stat ours, other;
    return fstat(image->file, &ours) == 0 && fstat(file, &other) == 0 && ours.st_dev == other.st_dev
        && ours.st_ino == other.st_ino;
}

static void unreadable(int number) {
    static const char text[] = "card: the image cannot be read: it became shorter, or the card has a bad spot\n";
    /* Where not even this can be written, the status alone has to say it. */
    ssize_t written = write(STDERR_FILENO, text, sizeof text - 1);
    (void)written;
    (void)number;
    _exit(CARD_REFUSED);
}

void image_watch(void) {
    struct sigaction action;
    memset(&action, 0, sizeof action);
    action.sa_handler = unreadable;
    sigaction(SIGBUS, &action, NULL);
}
