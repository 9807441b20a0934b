/* A bar on the terminal while many bytes are moved. */
#include "card_progress.h"

#include <stdio.h>
#include <unistd.h>

enum { WORTH_SHOWING = 8 * PROGRESS_STEP, WORD = 14, BAR = 40 };

static void draw(const struct progress *progress, size_t done) {
    int filled = (int)((unsigned long long)done * BAR / progress->total), i;
    fprintf(stderr, "\r%-*s [", WORD, progress->what);
    for (i = 0; i < BAR; i++)
        fputc(i < filled ? '#' : '.', stderr);
    fprintf(stderr, "] %3d%%", (int)((unsigned long long)done * 100 / progress->total));
    fflush(stderr);
}

void progress_start(struct progress *progress, const char *what, size_t total) {
    progress->what = what;
    progress->total = total;
    progress->shown = 0;
    progress->on = total > WORTH_SHOWING && isatty(STDERR_FILENO);
}

void progress_at(struct progress *progress, size_t done) {
    if (!progress->on || done / PROGRESS_STEP == progress->shown)
        return;
    progress->shown = done / PROGRESS_STEP;
    draw(progress, done);
}

void progress_end(struct progress *progress) {
    if (progress->on && progress->shown > 0)
        fprintf(stderr, "\r%*s\r", WORD + 2 + BAR + 6, "");
}
