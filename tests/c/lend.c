/* Lends memory to the library: each slice ends where an untouchable page begins, so that one byte past it is a
   fault; or a few canary bytes before that page, so that it begins at an odd address. Another untouchable page lies
   before it, and canary bytes between that one and the slice's start. */
#define _DEFAULT_SOURCE
#include "border.h"
#include <stdio.h>
#include <stdlib.h>
#include <string.h>
#include <sys/mman.h>
#include <unistd.h>

enum { CANARY = 0xC7 };

static size_t page(void) { return (size_t)sysconf(_SC_PAGESIZE); }

static void must(int holds, const char *what) {
    if (!holds) {
        perror(what);
        exit(1);
    }
}

struct lent lend(size_t len, size_t gap) {
    struct lent lent;
    size_t inner = (len + gap + page() - 1) / page() * page();
    if (inner == 0)
        inner = page();
    lent.len = len;
    lent.map_len = inner + 2 * page();
    lent.map = mmap(NULL, lent.map_len, PROT_READ | PROT_WRITE, MAP_PRIVATE | MAP_ANONYMOUS, -1, 0);
    must(lent.map != MAP_FAILED, "mmap");
    lent.at = lent.map + page() + inner - gap - len;
    memset(lent.map + page(), CANARY, inner - gap - len);
    memset(lent.at + len, CANARY, gap);
    must(mprotect(lent.map, page(), PROT_NONE) == 0, "mprotect");
    must(mprotect(lent.map + page() + inner, page(), PROT_NONE) == 0, "mprotect");
    return lent;
}

struct lent lend_copy(const void *content, size_t len, size_t gap) {
    struct lent lent = lend(len, gap);
    if (len > 0)
        memcpy(lent.at, content, len);
    return lent;
}

/* For slices that the header takes as const: a store into them is a fault too. */
void read_only(const struct lent *lent) {
    must(mprotect(lent->map + page(), lent->map_len - 2 * page(), PROT_READ) == 0, "mprotect");
}

int take_back(const struct lent *lent) {
    const uint8_t *at;
    int same = 1;
    for (at = lent->map + page(); at < lent->at; at++)
        same = same && *at == CANARY;
    for (at = lent->at + lent->len; at < lent->map + lent->map_len - page(); at++)
        same = same && *at == CANARY;
    must(munmap(lent->map, lent->map_len) == 0, "munmap");
    return same;
}
