/* A command line taken apart: what a command is asked to do. */
#ifndef CARD_REQUEST_H
#define CARD_REQUEST_H

#include "isc.h"

enum option {
    OPTION_DATE,
    OPTION_DELETED,
    OPTION_FORCE,
    OPTION_FROM_BACKUP,
    OPTION_HELP,
    OPTION_INDEXES,
    OPTION_KIND,
    OPTION_LABEL,
    OPTION_NAME,
    OPTION_READ,
    OPTION_SVG,
    OPTION_TYPES,
    OPTION_VARIABLE,
    OPTION_WITHHELD,
    OPTION_WRITE,
    OPTION_ZONES,
    OPTIONS
};

/* The set of one option, for a command's list of those that it takes. */
#define TAKES(option) (1ul << (option))

enum { OPERANDS_MOST = 3 };

struct request {
    const char *operands[OPERANDS_MOST]; /* null past the last; the first is the image */
    const char *options[OPTIONS];        /* the value, empty for one without a value, null if not given */
};

struct command {
    const char *name;
    int (*run)(const struct request *request); /* returns the exit status */
    int least, most;                           /* how many operands */
    unsigned long takes;                       /* which options, besides --help and --withheld */
    const char *usage;                         /* what follows the name */
    const char *help;
};

/* Takes the words after the command's name apart. Returns CARD_DONE, or CARD_MISUSED after having said why. */
int request_take(const struct command *command, int count, char **words, struct request *request);

/* The date to store: that of --date, else the local clock's. Returns an exit status like request_take. */
int request_date(const struct request *request, uint8_t date[ISC_DATE]);

#endif
