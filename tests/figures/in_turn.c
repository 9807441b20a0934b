/* What two files come to that grow in turn: two variable files of cell 4,096, a block each in every step. Prints the
   pointers of each file and the time of a grow, by how the two began and by the number of steps. `make figures` builds
   and runs it.
     in_turn                all of them
     in_turn START STEPS    one; START is the number of a line of `starts`
   By emulation times mean little. The instructions of a grow are those of a run with some steps less those of one with
   0, by 2 x STEPS.

   The starts are made by requests alone. Side by side: one is created after the other. Apart: the zones of the first
   are filled up before the second is created, those of the second too, and at last what filled them is deleted. Where a
   file has more than one zone, a file of one block stays at the end of each but the first, so that it is of type D and
   not open. A zone is never both wholly free and not open, so one zone's end is all that a file gets over before a
   block is in its way; it has 256 + 255 blocks by then. From there on both files get the lowest free blocks, side by
   side. */
#include "../../include/isc.h"
#include <stdio.h>
#include <stdlib.h>
#include <time.h>

enum { ZONES = 16, INDEXES = 256, ZONES_EACH = 4 };
enum { BOOKS = (2 + 1 + ZONES / 8 + INDEXES / 8) * ISC_SECTOR, BLOCKS = ISC_ZONE / ISC_CELL_D };

static uint8_t books[BOOKS], body[(ZONES - 2) * ISC_ZONE];
static const uint8_t date[ISC_DATE] = {7, 208, 1, 2, 3, 4}, name[] = "CURVE";
static const uint32_t none[1];

static const struct {
    const char *words;
    int zones; /* of each file; 0: both begin in one */
} starts[] = {{"side by side", 0}, {"apart, a zone each", 1}, {"apart, four zones each", ZONES_EACH}};
enum { STARTS = sizeof starts / sizeof starts[0] };

static void done(const char *request, uint32_t number) {
    if (number != ISC_DONE) {
        fprintf(stderr, "%s: refused as %u\n", request, (unsigned)number);
        exit(1);
    }
}

static uint32_t curve(void) {
    uint32_t id;
    done("create variable", isc_create_variable(books, BOOKS, none, 0, name, sizeof name - 1, ISC_CELL_D, ISC_PLAIN,
                                                date, ISC_DATE, &id));
    return id;
}

/* A file that is in the way, of so many blocks. */
static uint32_t filler(int blocks) {
    uint32_t id;
    done("create fixed", isc_create_fixed(books, BOOKS, none, 0, name, sizeof name - 1, blocks * ISC_CELL_D, ISC_TYPE_D,
                                          ISC_PLAIN, date, ISC_DATE, &id));
    return id;
}

static void delete_file(uint32_t id) {
    done("temporary delete", isc_temporary_delete(books, BOOKS, none, 0, body, sizeof body, id, date, ISC_DATE));
    done("actual delete", isc_actual_delete(books, BOOKS, none, 0, body, sizeof body, id, date, ISC_DATE));
}

/* A fresh volume with the two files. */
static void begin(int zones, uint32_t ids[2]) {
    uint32_t fillers[2 * ZONES_EACH];
    int count = 0, i, z;
    done("format", isc_format(books, BOOKS, ZONES, INDEXES, name, 0, name, 0, 1, name, 0, name, 0, date, ISC_DATE));
    done("mount", isc_mount(books, BOOKS, none, 0));
    for (i = 0; i < 2; i++) {
        ids[i] = curve();
        for (z = 0; z < zones; z++) {
            fillers[count++] = filler(BLOCKS - 1);
            if (z > 0)
                filler(1);
        }
    }
    while (count > 0)
        delete_file(fillers[--count]);
}

/* Numbers of the tables, most significant byte first. */
static uint32_t number_at(const uint8_t *at, int bytes) {
    uint32_t n = 0;
    while (bytes-- > 0)
        n = n << 8 | *at++;
    return n;
}

/* "Ten pointers 64-123, first child 124-127"; of a child "seventeen pointers 22-123, next child 124-127". Used pointers
   come first, and have a count that is not 0. */
static unsigned pointers_of(uint32_t id) {
    const uint8_t *tables = books + ISC_SECTOR * (size_t)number_at(books + 146, 4);
    unsigned count = 0, at = 64;
    for (; id != 0; id = number_at(tables + 128 * (id - 1) + 124, 4), at = 22)
        for (; at < 124; at += 6)
            count += number_at(tables + 128 * (id - 1) + at + 4, 2) > 0;
    return count;
}

static double now(void) {
    struct timespec t;
    clock_gettime(CLOCK_MONOTONIC, &t);
    return (double)t.tv_sec + (double)t.tv_nsec / 1e9;
}

static void figure(int start, int steps) {
    uint32_t ids[2];
    double from, took;
    int i, step;
    begin(starts[start].zones, ids);
    from = now();
    for (step = 1; step <= steps; step++)
        for (i = 0; i < 2; i++)
            done("grow", isc_grow(books, BOOKS, none, 0, ids[i], (step + 1) * ISC_CELL_D, date, ISC_DATE));
    took = steps > 0 ? (now() - from) / (2 * steps) : 0;
    printf("%-24s %5d %10u %10u %12.1f\n", starts[start].words, steps, pointers_of(ids[0]), pointers_of(ids[1]),
           took * 1e6);
}

int main(int count, char **arguments) {
    static const int steps[] = {250, 500, 1000};
    int i, j, start = count == 3 ? atoi(arguments[1]) : 0;
    printf("%-24s %5s %10s %10s %12s\n", "begun", "steps", "pointers", "pointers", "us a grow");
    if (count == 3 && start >= 0 && start < STARTS)
        figure(start, atoi(arguments[2]));
    else
        for (i = 0; i < STARTS; i++)
            for (j = 0; j < 3; j++)
                figure(i, steps[j]);
    return 0;
}
