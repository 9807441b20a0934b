/* info, ls and check: what is on a volume, in words. */
#include "card_books.h"
#include "card_commands.h"
#include "card_entries.h"
#include "card_headers.h"
#include "card_say.h"
#include "card_text.h"
#include "card_volume.h"

#include <stdio.h>
#include <stdlib.h>
#include <string.h>

static void print_text(const char *what, const uint8_t *field, size_t most) {
    char shown[TEXT_SHOWN];
    text_show(field, most, shown);
    printf("%-18s %s\n", what, shown[0] == '\0' ? "-" : shown);
}

static void print_date(const char *what, const uint8_t *date) {
    char shown[TEXT_DATE];
    text_show_date(date, shown);
    printf("%-18s %s\n", what, shown);
}

static void print_label(const struct volume *volume) {
    const uint8_t *books = volume->books;
    print_text("format version", books + LABEL_VERSION, LABEL_VERSION_BYTES);
    print_text("application", books + LABEL_APPLICATION, ISC_APPLICATION_MOST);
    print_text("volume name", books + LABEL_VOLUME_NAME, ISC_VOLUME_NAME_MOST);
    printf("%-18s %u\n", "volume id", (unsigned)books_u32(books + LABEL_VOLUME_ID));
    print_text("owner", books + LABEL_OWNER, ISC_OWNER_MOST);
    print_text("owner's code", books + LABEL_OWNER_CODE, ISC_OWNER_CODE_MOST);
    print_date("initialized", books + LABEL_INITIALIZED);
    print_date("latest update", books + STATE_LATEST_UPDATE);
    printf("%-18s sector %u\n", "zone table", (unsigned)books_u32(books + LABEL_ZONE_TABLE));
    printf("%-18s sector %u\n", "sector table", (unsigned)books_u32(books + LABEL_SECTOR_TABLE));
    printf("%-18s sector %u\n", "index tables", (unsigned)books_u32(books + LABEL_INDEX_TABLES));
    printf("%-18s %lu sectors\n", "books", (unsigned long)(volume->books_len / ISC_SECTOR));
}

/* The report's lines, of the volume as it stands on the image: in memory it is mounted. */
static int print_report(const struct volume *volume) {
    char text[ISC_REPORT_TEXT + 1];
    char *line, *at;
    uint32_t length;
    uint32_t number = isc_report(volume->image.before, volume->books_len, volume->withheld.at, volume->withheld.count,
                                 (uint8_t *)text, ISC_REPORT_TEXT, &length);
    if (number != ISC_DONE)
        return say_refusal(number);
    text[length] = '\0';
    for (at = text; (at = strchr(at, '_')) != NULL;)
        *at = ' ';
    for (line = strtok(text, "\n"); line != NULL; line = strtok(NULL, "\n")) {
        int name = (int)strcspn(line, "=");
        printf("%-18.*s %s\n", name, line, line + name + (line[name] == '='));
    }
    return CARD_DONE;
}

static int print_space(const struct volume *volume) {
    uint32_t sectors, used, number, withheld = withheld_sectors(&volume->withheld, volume->books);
    number = isc_space(volume->books, volume->books_len, volume->withheld.at, volume->withheld.count, &sectors, &used);
    if (number != ISC_DONE)
        return say_refusal(number);
    printf("%-18s %u sectors, %lu bytes\n", "space", (unsigned)sectors, (unsigned long)sectors * ISC_SECTOR);
    printf("%-18s %u sectors, %lu bytes\n", "space in use", (unsigned)used, (unsigned long)used * ISC_SECTOR);
    printf("%-18s %u sectors, %lu bytes\n", "space free", (unsigned)(sectors - used),
           (unsigned long)(sectors - used) * ISC_SECTOR);
    if (volume->withheld.count > 0)
        printf("%-18s %u sectors, %lu bytes, of those in use\n", "space withheld", (unsigned)withheld,
               (unsigned long)withheld * ISC_SECTOR);
    return CARD_DONE;
}

int run_info(const struct request *request) {
    struct volume volume;
    int status = volume_open(&volume, request, ACCESS_READ);
    if (status != CARD_DONE)
        return status;
    print_label(&volume);
    status = print_report(&volume);
    if (status == CARD_DONE)
        status = print_space(&volume);
    volume_close(&volume);
    return status;
}

static const char *kind_word(uint32_t attribute) {
    if ((attribute & ISC_WEIGHT_DIRECTORY) != 0)
        return "directory";
    return (attribute & ISC_WEIGHT_SYSTEM) != 0 ? "system" : "plain";
}

/* The bytes of a file's header; - where there is none, ? where it says more than its sectors hold. */
static void show_header(const struct volume *volume, const uint8_t *entry, char *shown, size_t room) {
    uint32_t length;
    enum header header = headers_look(volume->body, entry, &length);
    if (header == HEADER_SOUND)
        snprintf(shown, room, "%u", (unsigned)length);
    else
        snprintf(shown, room, "%c", header == HEADER_NONE ? '-' : '?');
}

static void print_entry(const struct volume *volume, const uint8_t *entry) {
    uint32_t attribute = books_u16(entry + ISC_ENTRY_ATTRIBUTE);
    char name[TEXT_SHOWN], changed[TEXT_DATE], header[12];
    show_header(volume, entry, header, sizeof header);
    text_show(entry + ISC_ENTRY_NAME, ISC_NAME_MOST, name);
    text_show_date(entry + ISC_ENTRY_CHANGED, changed);
    printf("%5u %10u  %6s  %-8s  %-9s  %c%c  %s  %s\n", (unsigned)books_u32(entry + ISC_ENTRY_ID),
           (unsigned)books_u32(entry + ISC_ENTRY_LENGTH), header,
           (attribute & ISC_WEIGHT_VARIABLE) != 0 ? "variable" : "fixed", kind_word(attribute),
           (attribute & ISC_WEIGHT_READ_PROTECTED) != 0 ? 'R' : '-',
           (attribute & ISC_WEIGHT_WRITE_PROTECTED) != 0 ? 'W' : '-', changed, name);
}

/* Prints the entries whose ids are in `ids`, or all if that is null; both ascend. */
static void print_entries(const struct volume *volume, const struct entries *entries, const uint32_t *ids,
                          uint32_t count) {
    uint32_t i, next = 0;
    puts("   id      bytes  header  size      kind       RW  changed           name");
    for (i = 0; i < entries->count; i++) {
        uint32_t id = books_u32(entries_at(entries, i) + ISC_ENTRY_ID);
        if (ids == NULL || (next < count && ids[next] == id)) {
            print_entry(volume, entries_at(entries, i));
            next++;
        }
    }
}

static int print_matching(const struct volume *volume, const char *pattern, const struct entries *entries) {
    static uint32_t ids[ISC_INDEXES_MOST];
    uint32_t count;
    uint32_t number = isc_search(volume->books, volume->books_len, volume->withheld.at, volume->withheld.count,
                                 (const uint8_t *)pattern, strlen(pattern), ids, ISC_INDEXES_MOST, &count);
    if (number != ISC_DONE)
        return say_refusal(number);
    print_entries(volume, entries, ids, count);
    return CARD_DONE;
}

int run_ls(const struct request *request) {
    const char *pattern = request->operands[1];
    enum state state = request->options[OPTION_DELETED] != NULL ? STATE_DELETED : STATE_ACTIVE;
    struct volume volume;
    struct entries entries;
    int status;
    if (state == STATE_DELETED && pattern != NULL)
        return say_misuse("--deleted takes no pattern");
    status = volume_open(&volume, request, ACCESS_READ);
    if (status != CARD_DONE)
        return status;
    status = entries_take(&volume, state, &entries);
    if (status == CARD_DONE) {
        if (pattern != NULL)
            status = print_matching(&volume, pattern, &entries);
        else
            print_entries(&volume, &entries, NULL, 0);
        entries_drop(&entries);
    }
    volume_close(&volume);
    return status;
}

int run_check(const struct request *request) {
    int status = volume_check(request);
    if (status == CARD_DONE)
        puts("all book rules hold, and the backup is equal to zone 1");
    return status;
}
