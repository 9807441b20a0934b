/* Cuts the power while the card tool writes. Linked with --wrap=pwrite,--wrap=fsync, it stands between the tool and the
   system. Writes and fsyncs are counted together; with CUT_AFTER=k the process ends, with status 99, instead of doing
   the one after the k-th.

   CUT_MODE=reverse is a card that takes its time: writes are held back until the next fsync, and at the cut only the
   last CUT_KEEP of those held back reach the file, the latest first.

   CUT_MODE=full is a disk that is full instead: the power stays, and the writes after the k-th event fail. */
#include <errno.h>
#include <stdlib.h>
#include <string.h>
#include <sys/types.h>
#include <unistd.h>

enum { STATUS_CUT = 99 };

ssize_t __real_pwrite(int file, const void *bytes, size_t length, off_t at);
int __real_fsync(int file);
ssize_t __wrap_pwrite(int file, const void *bytes, size_t length, off_t at);
int __wrap_fsync(int file);

struct held {
    struct held *before;
    struct held *after;
    int file;
    size_t length;
    off_t at;
    unsigned char bytes[];
};

static struct held *oldest, *latest;
static long events;

static long setting(const char *name, long otherwise) {
    const char *value = getenv(name);
    return value == NULL ? otherwise : atol(value);
}

static int in_mode(const char *name) {
    const char *mode = getenv("CUT_MODE");
    return mode != NULL && strcmp(mode, name) == 0;
}

static void let_through(const struct held *write) {
    if (__real_pwrite(write->file, write->bytes, write->length, write->at) != (ssize_t)write->length)
        abort();
}

/* Counts an event, and says whether it is one that the power does not last for. */
static int past_the_cut(void) {
    long after = setting("CUT_AFTER", -1);
    return after >= 0 && events++ >= after;
}

static void cut_power(void) {
    long keep = setting("CUT_KEEP", 0);
    const struct held *write;
    for (write = latest; write != NULL && keep > 0; write = write->before, keep--)
        let_through(write);
    _exit(STATUS_CUT);
}

static void hold(int file, const void *bytes, size_t length, off_t at) {
    struct held *write = malloc(sizeof *write + length);
    if (write == NULL)
        abort();
    write->before = latest;
    write->after = NULL;
    write->file = file;
    write->length = length;
    write->at = at;
    memcpy(write->bytes, bytes, length);
    if (latest != NULL)
        latest->after = write;
    else
        oldest = write;
    latest = write;
}

ssize_t __wrap_pwrite(int file, const void *bytes, size_t length, off_t at) {
    int past = past_the_cut();
    if (past && in_mode("full")) {
        errno = ENOSPC;
        return -1;
    }
    if (past)
        cut_power();
    if (!in_mode("reverse"))
        return __real_pwrite(file, bytes, length, at);
    hold(file, bytes, length, at);
    return (ssize_t)length;
}

int __wrap_fsync(int file) {
    if (past_the_cut() && !in_mode("full"))
        cut_power();
    while (oldest != NULL) {
        struct held *write = oldest;
        let_through(write);
        oldest = write->after;
        free(write);
    }
    latest = NULL;
    return __real_fsync(file);
}
