/* The card tool: formats images of IS&C volumes, stores files on them, takes them out, and looks after them. This file
   has the table of the commands with their help, and chooses the one to run. */
#include "card_commands.h"
#include "card_image.h"
#include "card_say.h"

#include <errno.h>
#include <stdio.h>
#include <string.h>

#define DATE_HELP "--date YYYY-MM-DDTHH:MM  the date to store; without it the local clock's\n"
#define WITHHELD_USAGE "[--withheld LIST]"
#define WITHHELD_HELP                                                                                              \
    "--withheld LIST  the card's withheld blocks, its worn spots, which no file gets: a text with the first\n"     \
    "                 sector of each, ascending, white space between them; # begins a comment to the line's end.\n" \
    "                 A card that has such blocks needs the same list each time.\n"
#define WORD_HELP                                                                                                  \
    "Digits alone are an id. Anything else is a name, compared exactly, with no patterns;\n"                       \
    "=123 is the name 123, and ==A is the name =A. A name that several files have is refused.\n"

static const struct command commands[] = {
    {"format", run_format, 1, 1,
     TAKES(OPTION_ZONES) | TAKES(OPTION_INDEXES) | TAKES(OPTION_LABEL) | TAKES(OPTION_FORCE) | TAKES(OPTION_DATE),
     "IMAGE --zones Z --indexes N [--label NAME] [--force] [--date DATE]",
     "Makes an empty volume.\n\n"
     "--zones Z      the size in zones of 1,048,576 bytes, 3 to 256; the first and the last are for the tables\n"
     "--indexes N    how many index tables, 1 to 4096; a file takes one or more\n"
     "--label NAME   the volume's name, up to 32 bytes\n"
     "--force        formats a file or card that exists, if it has just this size; its files are lost\n" DATE_HELP},
    {"info", run_info, 1, 1, 0, "IMAGE", "Prints the volume's label, its counts, and its space.\n"},
    {"ls", run_ls, 1, 2, TAKES(OPTION_DELETED), "IMAGE [PATTERN | --deleted]",
     "Lists the files: id, bytes, bytes of the header (- without one, ? where it says more than its sectors hold),\n"
     "whether the size is fixed or variable, kind, protection (R: no reading, W: no writing), date of the last\n"
     "change, name. In a name \\x and two digits stand for a byte that is no printable ASCII, and two backslashes\n"
     "for one.\n\n"
     "PATTERN        lists only the files whose names match: * is one character, ? is any string, also none\n"
     "--deleted      lists the temporarily deleted files instead\n"},
    {"put", run_put, 2, 2,
     TAKES(OPTION_NAME) | TAKES(OPTION_TYPES) | TAKES(OPTION_VARIABLE) | TAKES(OPTION_KIND) | TAKES(OPTION_DATE),
     "IMAGE FILE [--name NAME] [--types LETTERS | --variable CELL] [--kind KIND] [--date DATE]",
     "Stores FILE, or standard input if it is -, and prints the new file's id. It is stored whole or not at all.\n"
     "Its size is fixed, its bytes exactly those of FILE.\n\n"
     "--name NAME      1 to 24 bytes without * and ?; without it the base name of FILE\n"
     "--types LETTERS  which zones its blocks are taken from, letters C to H; without it all six\n"
     "--variable CELL  a file that can grow instead, in blocks of CELL bytes: 1024, 4096, 16384, 65536, 262144 or\n"
     "                 1048576; it is filled up with nulls to whole sectors of 1,024 bytes\n"
     "--kind KIND      plain, directory or system; without it plain\n" DATE_HELP},
    {"get", run_get, 2, 3, 0, "IMAGE ID|NAME [FILE]",
     "Copies a file to FILE, or to standard output without one, with exactly its byte length.\n" WORD_HELP},
    {"header put", run_header_put, 3, 3, TAKES(OPTION_DATE), "IMAGE ID|NAME FILE [--date DATE]",
     "Gives a file a header: the bytes of FILE, or of standard input if it is -, up to 32,762 of them. They are kept\n"
     "beside the file's own bytes, in a zone of type B, and take the place of a header that it has.\n" WORD_HELP
         DATE_HELP},
    {"header get", run_header_get, 2, 3, 0, "IMAGE ID|NAME [FILE]",
     "Copies a file's header to FILE, or to standard output without one, with exactly the bytes that were put.\n"
         WORD_HELP},
    {"rm", run_rm, 2, 2, TAKES(OPTION_DATE), "IMAGE ID|NAME [--date DATE]",
     "Deletes a file temporarily: it keeps its space, and recover brings it back.\n" WORD_HELP DATE_HELP},
    {"recover", run_recover, 2, 2, TAKES(OPTION_DATE), "IMAGE ID|NAME [--date DATE]",
     "Brings a temporarily deleted file back. A name is looked up among these.\n" WORD_HELP DATE_HELP},
    {"purge", run_purge, 2, 2, TAKES(OPTION_DATE), "IMAGE ID|NAME [--date DATE]",
     "Deletes a temporarily deleted file for good: its space becomes free. A name is looked up among these.\n" WORD_HELP
         DATE_HELP},
    {"protect", run_protect, 2, 2, TAKES(OPTION_READ) | TAKES(OPTION_WRITE) | TAKES(OPTION_DATE),
     "IMAGE ID|NAME [--read] [--write] [--date DATE]",
     "Protects a file from being read, or from being written and deleted, or both; with neither it lifts the\n"
     "protection.\n" WORD_HELP DATE_HELP},
    {"check", run_check, 1, 1, 0, "IMAGE",
     "Says that all book rules hold and that the backup is equal to zone 1, or what fails. Where zone 1's tables\n"
     "break a book rule, it names the lowest one, R1 to R9, and in it the lowest zone, sector or index table.\n"},
    {"map", run_map, 1, 1, TAKES(OPTION_SVG), "IMAGE [--svg FILE]",
     "Draws each zone with its type (B for headers, C to H for data; . for an open zone, - for the tables' own), its\n"
     "blocks in use and free, and its sectors; withheld blocks are counted apart, and marked with x.\n\n"
     "--svg FILE     draws which file has which sector, and which are withheld, as a picture\n"},
    {"repair", run_repair, 1, 1, TAKES(OPTION_FROM_BACKUP), "IMAGE [--from-backup]",
     "Makes zone 1 and the backup whole and equal again after a power cut, with the ids in headers as they say, and\n"
     "dismounts a volume that was left mounted. A whole zone 1 is what counts; where it is not whole the backup is.\n"
     "Says what it did.\n\n"
     "--from-backup  takes the backup's tables, if they are lawful, whatever zone 1 has\n"},
};

enum { COMMANDS = sizeof commands / sizeof commands[0] };

static void print_general_help(void) {
    size_t i;
    puts("card COMMAND IMAGE ...: looks after an image of an IS&C volume, a file or a card of whole zones.\n");
    for (i = 0; i < COMMANDS; i++)
        printf("  card %s %s\n", commands[i].name, commands[i].usage);
    puts("\nEvery command but format takes " WITHHELD_USAGE " too, before the command or after it:\n" WITHHELD_HELP);
    puts("`card COMMAND --help` says more of a command, `card --version` which version this is.\n"
         "The exit status is 0 for done, 1 for refused or failed, 2 for wrong usage.");
}

/* How many of the words make up a name of one word or more: 0 if they do not begin with it. */
static int name_words(const char *name, int count, char **words) {
    int used;
    for (used = 0; used < count; used++) {
        size_t length = strlen(words[used]);
        if (strncmp(name, words[used], length) != 0 || (name[length] != '\0' && name[length] != ' '))
            return 0;
        if (name[length] == '\0')
            return used + 1;
        name += length + 1;
    }
    return 0;
}

/* The command that the words begin with, and how many of them name it. */
static const struct command *find_command(int count, char **words, int *named) {
    size_t i;
    for (i = 0; i < COMMANDS; i++) {
        *named = name_words(commands[i].name, count, words);
        if (*named > 0)
            return &commands[i];
    }
    return NULL;
}

/* Of words that name no command: the first may be the first of a name. */
static int refuse_name(const char *word) {
    size_t i, length = strlen(word);
    for (i = 0; i < COMMANDS; i++)
        if (strncmp(commands[i].name, word, length) == 0 && commands[i].name[length] == ' ')
            return say_misuse("%s needs another word, as in `card %s`", word, commands[i].name);
    return say_misuse("there is no command %s", word);
}

/* The words of --withheld before the command: the option, and the value where it is a word of its own. */
static int leading_words(int count, char **words) {
    static const char option[] = "--withheld";
    int leading = 0;
    while (leading < count && strncmp(words[leading], option, sizeof option - 1) == 0) {
        char end = words[leading][sizeof option - 1];
        if (end != '\0' && end != '=')
            return leading;
        leading += end == '=' ? 1 : 2;
    }
    return leading < count ? leading : count;
}

/* Moves `leading` words behind the next `named` ones. */
static void move_behind(char **words, int leading, int named) {
    for (; named > 0; named--, words++) {
        char *word = words[leading];
        memmove(words + 1, words, sizeof *words * (size_t)leading);
        words[0] = word;
    }
}

static void print_help(const struct command *command) {
    int listed = command->run != run_format;
    printf("card %s %s%s\n\n%s%s", command->name, command->usage, listed ? " " WITHHELD_USAGE : "", command->help,
           listed ? WITHHELD_HELP : "");
}

static int run_command(const struct command *command, int count, char **words) {
    struct request request;
    int status;
    say_command(command->name);
    status = request_take(command, count, words, &request);
    if (status != CARD_DONE)
        return status;
    if (request.options[OPTION_HELP] == NULL)
        return command->run(&request);
    print_help(command);
    return CARD_DONE;
}

/* What standard output did not take is a failure too. */
static int close_output(int status) {
    errno = 0;
    if (fflush(stdout) == 0 && !ferror(stdout))
        return status;
    return say_system("standard output");
}

int main(int count, char **words) {
    const struct command *command;
    int named, leading;
    image_watch();
    if (count < 2)
        return say_misuse("a command is needed");
    if (strcmp(words[1], "--help") == 0) {
        print_general_help();
        return close_output(CARD_DONE);
    }
    if (strcmp(words[1], "--version") == 0) {
        printf("card %d.%d\n", ISC_VERSION_MAJOR, ISC_VERSION_MINOR);
        return close_output(CARD_DONE);
    }
    leading = leading_words(count - 1, words + 1);
    if (leading == count - 1)
        return say_misuse("a command is needed");
    command = find_command(count - 1 - leading, words + 1 + leading, &named);
    if (command == NULL)
        return refuse_name(words[1 + leading]);
    move_behind(words + 1, leading, named);
    return close_output(run_command(command, count - 1 - named, words + 1 + named));
}
