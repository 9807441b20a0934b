/* A bar on the terminal while many bytes are moved. */
#ifndef CARD_PROGRESS_H
#define CARD_PROGRESS_H

#include <stddef.h>

/* What is moved between two looks at the bar. */
enum { PROGRESS_STEP = 1048576 };

struct progress {
    const char *what;
    size_t total;
    size_t shown; /* how far the bar on the terminal is, in steps; it is drawn anew when that changes */
    int on;
};

/* Nothing is drawn for a short move, or where standard error is no terminal. */
void progress_start(struct progress *progress, const char *what, size_t total);
void progress_at(struct progress *progress, size_t done);
void progress_end(struct progress *progress);

#endif
